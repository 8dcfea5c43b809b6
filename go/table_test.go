package garvoeng

import (
	"bytes"
	"encoding/hex"
	"encoding/json"
	"errors"
	"os"
	"strconv"
	"strings"
	"testing"
)

func file(t *testing.T, variable string) string {
	name := os.Getenv(variable)
	if name == "" {
		t.Skip(variable + " names no file: tests/packages/go does")
	}
	text, err := os.ReadFile(name)
	if err != nil {
		t.Fatal(err)
	}
	return string(text)
}

// What a word stands for: `11*32` is 32 times 11.
func repeated(words string) []string {
	var made []string
	for _, word := range strings.Fields(words) {
		text, times, found := strings.Cut(word, "*")
		count := 1
		if found {
			count, _ = strconv.Atoi(times)
		}
		for ; count > 0; count-- {
			made = append(made, text)
		}
	}
	return made
}

func partsOf(t *testing.T, lines [][]string, kind string) map[string][]byte {
	parts := map[string][]byte{}
	for _, line := range lines {
		if len(line) != 4 || line[0] != kind || line[2] != "is" {
			continue
		}
		if rest := line[3]; strings.HasPrefix(rest, "'") {
			parts[line[1]] = append(parts[line[1]], rest[1:]...)
		} else {
			for _, digits := range repeated(rest) {
				value, err := hex.DecodeString(digits)
				if err != nil {
					t.Fatal(err)
				}
				parts[line[1]] = append(parts[line[1]], value...)
			}
		}
	}
	return parts
}

func altered(t *testing.T, value []byte, how string, at int) []byte {
	if how == "cut" {
		return append([]byte{}, value[:at]...)
	}
	bits, err := strconv.ParseUint(how, 16, 8)
	if err != nil {
		t.Fatal(err)
	}
	made := append([]byte{}, value...)
	made[at] ^= byte(bits)
	return made
}

func numberOf(t *testing.T, err error) int {
	if err == nil {
		return 0
	}
	var refused *Refused
	if !errors.As(err, &refused) {
		t.Fatal(err)
	}
	return refused.Number
}

// The number of the step that refuses the response, 0 of none. One signature is valid, of one message.
func step(t *testing.T, kind string, parts, accepted map[string][]byte) int {
	x, y, user := bytes.Repeat([]byte{0x11}, 32), bytes.Repeat([]byte{0x33}, 32), Bytes{1}
	begun := make(Bytes, 32)
	begun[7] = 1
	strict := Strict
	server, err := NewServer("abc", []string{"https://abc"}, Config{Profile: &strict, Verify: func(key Key, message, signature []byte) bool {
		return key.Algorithm == ES256 && bytes.Equal(key.X, x) && bytes.Equal(key.Y, y) && bytes.Equal(message, accepted["message"]) &&
			bytes.Equal(signature, accepted["verified"])
	}})
	if err != nil {
		t.Fatal(err)
	}
	if kind == "sign-in" {
		stored := &Credential{ID: Bytes{10}, User: user, Key: Key{ES256, x, y}}
		if !bytes.Equal(parts["credential"], stored.ID) {
			stored = nil
		}
		named, hasUser := parts["user"]
		_, err = server.signedIn(&SignInSession{Challenge: begun, User: user}, stored, &assertionParts{
			id: parts["credential"], user: named, hasUser: hasUser, authData: parts["auth_data"], signature: parts["signature"],
			clientData: parts["client_data"],
		})
	} else {
		session := &RegistrationSession{Challenge: begun, User: user, Algorithms: []Algorithm{ES256, EdDSA}, Attestation: true}
		_, err = server.registered(session, &registrationParts{object: parts["object"], clientData: parts["client_data"], rawID: []byte{10, 11}}, nil)
	}
	return numberOf(t, err)
}

// Each is refused by the step that its line says, as by Rattle, C, Python and JavaScript.
func TestMalformedResponses(t *testing.T) {
	_, text, _ := strings.Cut(file(t, "MALFORMED"), `r#"`)
	text, _, _ = strings.Cut(text, `"#`)
	var lines [][]string
	for _, line := range strings.Split(text, "\n") {
		lines = append(lines, strings.Split(line, "|"))
	}
	tried := 0
	for _, line := range lines {
		if len(line) != 4 || line[2] == "is" {
			continue
		}
		kind, name, how, wanted := line[0], line[1], line[2], repeated(line[3])
		accepted := partsOf(t, lines, kind)
		if step(t, kind, accepted, accepted) != 0 || len(wanted) != len(accepted[name]) {
			t.Fatal(kind, name, how, "as it is")
		}
		for at := range accepted[name] {
			parts := map[string][]byte{}
			for other, value := range accepted {
				parts[other] = value
			}
			parts[name] = altered(t, accepted[name], how, at)
			if found := strconv.Itoa(step(t, kind, parts, accepted)); found != wanted[at] {
				t.Error(kind, name, how, at, found, wanted[at])
			}
			tried++
		}
	}
	if tried != 2103 {
		t.Error("tried", tried)
	}
}

func answerOf(err error) any {
	var refused *Refused
	var bad *BadInput
	switch {
	case err == nil:
		return nil
	case errors.As(err, &refused):
		return refused.Name
	case errors.As(err, &bad):
		return bad.Text
	}
	return err.Error()
}

// The same answers as Python's.
func TestHostileResponses(t *testing.T) {
	lines := strings.Split(strings.TrimSpace(file(t, "HOSTILE")), "\n")
	var party struct {
		RPID         string `json:"rp_id"`
		Origin       string
		Registration RegistrationSession
		SignIn       SignInSession `json:"sign_in"`
		Credential   Credential
	}
	if err := json.Unmarshal([]byte(lines[0]), &party); err != nil {
		t.Fatal(err)
	}
	server, err := NewServer(party.RPID, []string{party.Origin}, Config{})
	if err != nil {
		t.Fatal(err)
	}
	for _, text := range lines[1:] {
		var line struct {
			Call, What string
			Response   json.RawMessage
			Answer     any
		}
		if err := json.Unmarshal([]byte(text), &line); err != nil {
			t.Fatal(err, text)
		}
		if line.Call == "registration" {
			_, err = server.RegisterComplete(&party.Registration, line.Response, func([]byte) (bool, error) { return false, nil })
		} else {
			_, err = server.AuthenticateComplete(&party.SignIn, line.Response, func(id []byte) (*Credential, error) {
				if bytes.Equal(id, party.Credential.ID) {
					return &party.Credential, nil
				}
				return nil, nil
			})
		}
		if found := answerOf(err); found != line.Answer {
			t.Errorf("%s %s: %v, and not %v", line.Call, line.What, found, line.Answer)
		}
	}
	if len(lines) < 2_000 {
		t.Error("tried", len(lines))
	}
}

type visits struct {
	Origin string
	Visits []struct {
		Registration struct {
			Session  RegistrationSession
			Response json.RawMessage
		}
		SignIns []struct {
			Session  SignInSession
			Response json.RawMessage
		} `json:"sign_ins"`
	}
}

// What browsers made is accepted by crypto's mathematics, and never without it.
func TestRecordedResponses(t *testing.T) {
	tried := 0
	for _, name := range strings.Split(os.Getenv("RECORDED"), ":") {
		if name == "" {
			t.Skip("RECORDED names no file: tests/packages/go does")
		}
		text, err := os.ReadFile(name)
		if err != nil {
			t.Fatal(err)
		}
		var made visits
		if err := json.Unmarshal(text, &made); err != nil {
			t.Fatal(err)
		}
		server, err := NewServer("localhost", []string{made.Origin}, Config{})
		if err != nil {
			t.Fatal(err)
		}
		none, _ := NewServer("localhost", []string{made.Origin}, Config{Verify: func(Key, []byte, []byte) bool { return false }})
		for _, visit := range made.Visits {
			session := visit.Registration.Session
			registered, err := server.RegisterComplete(&session, visit.Registration.Response, func([]byte) (bool, error) { return false, nil })
			if err != nil {
				t.Fatal(err)
			}
			for _, signIn := range visit.SignIns {
				session := signIn.Session
				find := func([]byte) (*Credential, error) { return &registered.Credential, nil }
				if _, err := server.AuthenticateComplete(&session, signIn.Response, find); err != nil {
					t.Error(err)
				}
				if _, err := none.AuthenticateComplete(&session, signIn.Response, find); answerOf(err) != "W14" {
					t.Error(err)
				}
				tried += 2
			}
		}
	}
	if tried < 100 {
		t.Error("tried", tried)
	}
}
