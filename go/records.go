package garvoeng

import (
	"encoding/json"
)

// Bytes are written to JSON as base64url without padding (RFC 4648, section 5), and read only in canonical form.
type Bytes []byte

// MarshalJSON writes base64url, or null for nil.
func (b Bytes) MarshalJSON() ([]byte, error) {
	if b == nil {
		return []byte("null"), nil
	}
	return json.Marshal(toText(b))
}

// UnmarshalJSON reads what MarshalJSON writes.
func (b *Bytes) UnmarshalJSON(text []byte) error {
	var read *string
	if err := json.Unmarshal(text, &read); err != nil {
		return badInput("bytes are not a text")
	}
	if read == nil {
		*b = nil
		return nil
	}
	made, err := fromText(*read, "the text")
	if err != nil {
		return err
	}
	*b = made
	return nil
}

// Algorithm is the number of a signature scheme (RFC 9053, RFC 8812).
type Algorithm int

const (
	ES256 Algorithm = -7   // ECDSA over P-256 with SHA-256
	EdDSA Algorithm = -8   // over Ed25519
	RS256 Algorithm = -257 // RSA with PKCS #1 v1.5 and SHA-256
)

// Key is a public key by its coordinates; an RSA key by its modulus, X, and its exponent, Y.
type Key struct {
	Algorithm Algorithm `json:"algorithm"`
	X         Bytes     `json:"x"`
	Y         Bytes     `json:"y"`
}

// Credential is a registered credential in the form that a site stores.
type Credential struct {
	ID   Bytes `json:"id"`   // 1 to 1,023 bytes
	User Bytes `json:"user"` // the user handle of its account, 1 to 64 bytes
	Key
	SignCount  uint32   `json:"sign_count"`
	Eligible   *bool    `json:"eligible"` // for backup; nil where it is not known
	Retired    bool     `json:"retired"`  // it signs in no more
	Transports []string `json:"transports,omitempty"`
}

// RegistrationSession is what a registration that has begun expects. It accepts one response; then the site deletes it.
type RegistrationSession struct {
	Challenge        Bytes       `json:"challenge"`
	User             Bytes       `json:"user"`
	UserVerification bool        `json:"user_verification"`
	Algorithms       []Algorithm `json:"algorithms"`
	Conditional      bool        `json:"conditional"`
	Attestation      bool        `json:"attestation"`
}

// UnmarshalJSON reads a session. A session of an earlier version without `attestation` counts as one that asked for it.
func (s *RegistrationSession) UnmarshalJSON(text []byte) error {
	type members RegistrationSession
	read := members{Attestation: true}
	if err := unmarshal(text, &read, "challenge", "user", "user_verification", "algorithms"); err != nil {
		return err
	}
	*s = RegistrationSession(read)
	return nil
}

// SignInSession is what a sign-in that has begun expects. It accepts one response; then the site deletes it.
type SignInSession struct {
	Challenge        Bytes   `json:"challenge"`
	User             Bytes   `json:"user"`  // nil where the account is not known beforehand
	Allow            []Bytes `json:"allow"` // empty where any credential may answer
	UserVerification bool    `json:"user_verification"`
}

// MarshalJSON writes a session; a nil list is written as an empty one.
func (s SignInSession) MarshalJSON() ([]byte, error) {
	type members SignInSession
	if s.Allow == nil {
		s.Allow = []Bytes{}
	}
	return json.Marshal(members(s))
}

// UnmarshalJSON reads a session.
func (s *SignInSession) UnmarshalJSON(text []byte) error {
	type members SignInSession
	var read members
	if err := unmarshal(text, &read, "challenge", "user", "allow", "user_verification"); err != nil {
		return err
	}
	if read.Allow == nil {
		return badInput("allow is not an array")
	}
	*s = SignInSession(read)
	return nil
}

// Reads an object whose members have exactly these names: encoding/json also takes names that differ by case.
func unmarshal(text []byte, into any, names ...string) error {
	var members map[string]json.RawMessage
	if err := json.Unmarshal(text, &members); err != nil || members == nil {
		return badInput("the session is not an object")
	}
	for _, name := range names {
		if _, found := members[name]; !found {
			return badInput("%s is missing", name)
		}
	}
	return json.Unmarshal(text, into)
}

// Registered is the result of an accepted registration. The site stores Credential.
type Registered struct {
	Credential   Credential
	AAGUID       Bytes  // the kind of the authenticator, by its own word
	Format       string // "none", or "packed" of self attestation
	UserVerified bool
	BackedUp     bool
	Flags        byte  // of the authenticator data (WebAuthn, section 6.1)
	Extensions   Bytes // the map of extensions in CBOR, or empty
}

// SignedIn is the result of an accepted sign-in. The site stores Credential in place of Before.
type SignedIn struct {
	Credential   Credential // with the counter that was received
	Before       Credential // as it was looked up, to be compared with by the write
	UserVerified bool
	BackedUp     bool
	Flags        byte
	Extensions   Bytes
}
