package garvoeng

import (
	"bytes"
	"encoding/base64"
	"encoding/json"
	"strings"
)

// The greatest length of a response's members together, in characters.
const maxResponse = 65_536

func toText(value []byte) string {
	return base64.RawURLEncoding.EncodeToString(value)
}

// The bytes of canonical base64url text without padding (RFC 4648, sections 3.5 and 5).
func fromText(text, what string) (Bytes, error) {
	made, err := base64.RawURLEncoding.Strict().DecodeString(text)
	// The decoder ignores ends of lines.
	if err != nil || strings.ContainsAny(text, "\r\n") {
		return nil, badInput("%s is not base64url", what)
	}
	return made, nil
}

// The members of an object by their exact names: encoding/json also takes names of a struct that differ by case.
func objectIn(text json.RawMessage) map[string]json.RawMessage {
	var members map[string]json.RawMessage
	if len(bytes.TrimSpace(text)) == 0 || json.Unmarshal(text, &members) != nil {
		return nil
	}
	return members
}

func isNull(text json.RawMessage) bool {
	return text == nil || string(text) == "null"
}

func textIn(members map[string]json.RawMessage, name string) (string, error) {
	if isNull(members[name]) {
		return "", badInput("%s is missing", name)
	}
	var text string
	if json.Unmarshal(members[name], &text) != nil {
		return "", badInput("%s is not a text", name)
	}
	return text, nil
}

// Checks what the standard requires of a response besides its parts.
func checkEnvelope(response map[string]json.RawMessage) error {
	id, err := textIn(response, "id")
	if err != nil {
		return err
	}
	rawID, err := textIn(response, "rawId")
	if err != nil {
		return err
	}
	if id != rawID {
		return badInput("id is not rawId")
	}
	kind, err := textIn(response, "type")
	if err != nil {
		return err
	}
	if kind != "public-key" {
		return badInput("type is not public-key")
	}
	if results, found := response["clientExtensionResults"]; found && objectIn(results) == nil {
		return badInput("clientExtensionResults is not an object")
	}
	if attachment := response["authenticatorAttachment"]; !isNull(attachment) {
		if _, err := textIn(response, "authenticatorAttachment"); err != nil {
			return badInput("authenticatorAttachment is not a text")
		}
	}
	return nil
}

// rawId and these members of a RegistrationResponseJSON or an AuthenticationResponseJSON (WebAuthn Level 3, section 5.1), and the members
// of its `response`. An optional member that is null counts as absent; members with other names are ignored.
func partsIn(body []byte, names []string, optional ...string) (map[string]Bytes, map[string]json.RawMessage, error) {
	response := objectIn(body)
	members := objectIn(response["response"])
	if response == nil || members == nil {
		return nil, nil, badInput("response is missing")
	}
	if err := checkEnvelope(response); err != nil {
		return nil, nil, err
	}
	rawID, _ := textIn(response, "rawId")
	listed, texts, size := []string{"rawId"}, []string{rawID}, len(rawID)
	for _, name := range optional {
		if !isNull(members[name]) {
			names = append(names[:len(names):len(names)], name)
		}
	}
	for _, name := range names {
		text, err := textIn(members, name)
		if err != nil {
			return nil, nil, err
		}
		listed, texts, size = append(listed, name), append(texts, text), size+len(text)
	}
	if size > maxResponse {
		return nil, nil, badInput("the response is too long")
	}
	parts := make(map[string]Bytes, len(listed))
	for place, name := range listed {
		value, err := fromText(texts[place], name)
		if err != nil {
			return nil, nil, err
		}
		parts[name] = value
	}
	return parts, members, nil
}

// The greatest number of transports that are kept for a credential.
const maxTransports = 16

// The transports that a response names. Items that are not transports are left out.
func transportsIn(members map[string]json.RawMessage) []string {
	var listed []json.RawMessage
	if json.Unmarshal(members["transports"], &listed) != nil {
		return nil
	}
	if len(listed) > maxTransports {
		listed = listed[:maxTransports]
	}
	var made []string
	for _, one := range listed {
		var text string
		if json.Unmarshal(one, &text) == nil && isTransport(text) {
			made = append(made, text)
		}
	}
	return made
}
