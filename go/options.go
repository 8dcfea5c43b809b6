package garvoeng

import "time"

// Profile says which responses a relying party accepts.
type Profile int

const (
	Strict Profile = iota // no extension data, ids of 1 to 64 bytes
	Open                  // these too, and ids of up to 1,023 bytes
	Level3                // as Open, by the steps of WebAuthn Level 3
)

// Descriptor is a PublicKeyCredentialDescriptorJSON.
type Descriptor struct {
	Type       string   `json:"type"`
	ID         Bytes    `json:"id"`
	Transports []string `json:"transports,omitempty"`
}

// Parameter is an algorithm that is offered.
type Parameter struct {
	Type string    `json:"type"`
	Alg  Algorithm `json:"alg"`
}

// CreationOptions are what a page passes to PublicKeyCredential.parseCreationOptionsFromJSON (WebAuthn Level 3, section 5.1.9).
type CreationOptions struct {
	RP struct {
		ID   string `json:"id"`
		Name string `json:"name"`
	} `json:"rp"`
	User struct {
		ID          Bytes  `json:"id"`
		Name        string `json:"name"`
		DisplayName string `json:"displayName"`
	} `json:"user"`
	Challenge              Bytes        `json:"challenge"`
	PubKeyCredParams       []Parameter  `json:"pubKeyCredParams"`
	ExcludeCredentials     []Descriptor `json:"excludeCredentials"`
	AuthenticatorSelection struct {
		ResidentKey             string `json:"residentKey"`
		RequireResidentKey      bool   `json:"requireResidentKey"`
		UserVerification        string `json:"userVerification"`
		AuthenticatorAttachment string `json:"authenticatorAttachment,omitempty"`
	} `json:"authenticatorSelection"`
	Attestation string         `json:"attestation"`
	Timeout     int64          `json:"timeout,omitempty"`
	Hints       []string       `json:"hints,omitempty"`
	Extensions  map[string]any `json:"extensions,omitempty"`
}

// RequestOptions are what a page passes to PublicKeyCredential.parseRequestOptionsFromJSON (WebAuthn Level 3, section 5.1.10).
type RequestOptions struct {
	Challenge        Bytes          `json:"challenge"`
	RPID             string         `json:"rpId"`
	AllowCredentials []Descriptor   `json:"allowCredentials"`
	UserVerification string         `json:"userVerification"`
	Timeout          int64          `json:"timeout,omitempty"`
	Hints            []string       `json:"hints,omitempty"`
	Extensions       map[string]any `json:"extensions,omitempty"`
}

// RegisterOptions are the options of a registration; the zero value suits most sites.
type RegisterOptions struct {
	DisplayName             string       // the user name, where it is empty
	Exclude                 []Credential // those of the account, at most 64
	Algorithms              []Algorithm  // ES256, EdDSA and RS256, where it is empty
	UserVerification        string       // "required", "preferred" (where it is empty) or "discouraged"
	ResidentKey             string       // "required" (where it is empty), "preferred" or "discouraged"
	AuthenticatorAttachment string       // "platform", "cross-platform", or empty
	Attestation             string       // "none" (where it is empty), "indirect", "direct" or "enterprise"
	Conditional             bool         // a conditional create
	Timeout                 time.Duration
	Hints                   []string // "security-key", "client-device", "hybrid"
	Extensions              map[string]any
}

// AuthenticateOptions are the options of a sign-in; the zero value suits most sites.
type AuthenticateOptions struct {
	User             []byte       // the user handle of the account, where it is known beforehand
	Allow            []Credential // the credentials that may answer, at most 64; any, where it is empty
	UserVerification string       // "required", "preferred" (where it is empty) or "discouraged"
	Timeout          time.Duration
	Hints            []string
	Extensions       map[string]any
}

func or(value, usual string) string {
	if value == "" {
		return usual
	}
	return value
}

// A timeout in milliseconds, where 0 means none, and hints.
func checkMore(timeout time.Duration, hints []string) (int64, error) {
	if milliseconds := timeout.Milliseconds(); timeout != 0 && (milliseconds < 1 || milliseconds > 0xffffffff) {
		return 0, badInput("timeout is %v: write 1 ms to 4,294,967,295 ms, or 0 for none", timeout)
	}
	for _, hint := range hints {
		if err := checkOneOf(hint, "a hint", "security-key", "client-device", "hybrid"); err != nil {
			return 0, err
		}
	}
	return timeout.Milliseconds(), nil
}

func descriptors(credentials []Credential) []Descriptor {
	made := make([]Descriptor, len(credentials))
	for place, credential := range credentials {
		made[place] = Descriptor{Type: "public-key", ID: credential.ID, Transports: credential.Transports}
	}
	return made
}
