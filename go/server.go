// Package garvoeng is a passkey relying party (WebAuthn Level 2 and 3, sections 7.1 and 7.2) whose steps are proved code, called
// by cgo. Signatures are verified by Go's own crypto packages.
//
// Server keeps nothing: the site stores the sessions and credentials. docs/OPERATING.md has the rules for a site's rows.
package garvoeng

import (
	"crypto/rand"
	"errors"
	"unicode/utf8"
)

// Config has a relying party's settings besides its rp id and its origins; the zero value suits most sites.
type Config struct {
	RPName     string   // shown by authenticators; the rp id, where it is empty
	Profile    *Profile // Level3, where it is nil
	RefuseNone bool     // registrations without attestation are refused
	RefuseSelf bool     // registrations by self attestation are refused
	TopOrigins []string // the pages of other sites that may frame the site's own; in Level3 alone looked at
	// Verify says whether a signature is valid; if it is nil, IsValid is used.
	Verify func(key Key, message, signature []byte) bool
}

// Server is a relying party. Several goroutines may call it at once.
type Server struct {
	rpID, rpName           string
	party                  party
	acceptNone, acceptSelf bool
	verify                 verify
}

// NewServer makes a relying party for a domain, such as "example.com", and the origins of its pages, such as "https://example.com". It
// returns *BadInput if a value is out of its limits.
func NewServer(rpID string, origins []string, config Config) (*Server, error) {
	if err := checkParty(rpID, origins, config.TopOrigins); err != nil {
		return nil, err
	}
	profile := Level3
	if config.Profile != nil {
		profile = *config.Profile
	}
	if profile < Strict || profile > Level3 {
		return nil, badInput("the profile is %d: write Strict, Open or Level3", profile)
	}
	if config.RefuseNone && config.RefuseSelf {
		return nil, badInput("RefuseNone and RefuseSelf are both true: no registration would be accepted")
	}
	name := or(config.RPName, rpID)
	if !utf8.ValidString(name) {
		return nil, badInput("the name of the relying party is not UTF-8")
	}
	made := &Server{rpID: rpID, rpName: name, acceptNone: !config.RefuseNone, acceptSelf: !config.RefuseSelf, verify: config.Verify}
	made.party = party{rpID: []byte(rpID), origins: texts(origins), topOrigins: texts(config.TopOrigins), profile: profile}
	if made.verify == nil {
		made.verify = IsValid
	}
	return made, nil
}

func texts(values []string) [][]byte {
	made := make([][]byte, len(values))
	for place, value := range values {
		made[place] = []byte(value)
	}
	return made
}

func challenge() (Bytes, error) {
	made := make(Bytes, 32)
	_, err := rand.Read(made)
	return made, err
}

// RegisterBegin begins a registration for an account. It returns the options for the page, and the session, which the site keeps, once.
func (s *Server) RegisterBegin(user []byte, userName string, how RegisterOptions) (*CreationOptions, *RegistrationSession, error) {
	algorithms := append([]Algorithm{}, how.Algorithms...)
	if len(algorithms) == 0 {
		algorithms = []Algorithm{ES256, EdDSA, RS256}
	}
	made := &CreationOptions{ExcludeCredentials: descriptors(how.Exclude), Hints: how.Hints, Extensions: how.Extensions}
	made.RP.ID, made.RP.Name = s.rpID, s.rpName
	made.User.ID, made.User.Name, made.User.DisplayName = append(Bytes{}, user...), userName, or(how.DisplayName, userName)
	made.AuthenticatorSelection.ResidentKey = or(how.ResidentKey, "required")
	made.AuthenticatorSelection.RequireResidentKey = made.AuthenticatorSelection.ResidentKey == "required"
	made.AuthenticatorSelection.UserVerification = or(how.UserVerification, "preferred")
	made.AuthenticatorSelection.AuthenticatorAttachment = how.AuthenticatorAttachment
	made.Attestation = or(how.Attestation, "none")
	var err error
	if made.Timeout, err = checkMore(how.Timeout, how.Hints); err != nil {
		return nil, nil, err
	}
	for _, err := range []error{
		checkUser(user), checkList(how.Exclude), checkAlgorithms(algorithms),
		checkOneOf(made.AuthenticatorSelection.ResidentKey, "ResidentKey", "required", "preferred", "discouraged"),
		checkOneOf(made.AuthenticatorSelection.UserVerification, "UserVerification", "required", "preferred", "discouraged"),
		checkOneOf(how.AuthenticatorAttachment, "AuthenticatorAttachment", "", "platform", "cross-platform"),
		checkOneOf(made.Attestation, "Attestation", "none", "indirect", "direct", "enterprise"),
	} {
		if err != nil {
			return nil, nil, err
		}
	}
	for _, algorithm := range algorithms {
		made.PubKeyCredParams = append(made.PubKeyCredParams, Parameter{Type: "public-key", Alg: algorithm})
	}
	if made.Challenge, err = challenge(); err != nil {
		return nil, nil, err
	}
	return made, &RegistrationSession{
		Challenge: append(Bytes{}, made.Challenge...), User: append(Bytes{}, user...), Algorithms: algorithms, Conditional: how.Conditional,
		UserVerification: made.AuthenticatorSelection.UserVerification == "required", Attestation: made.Attestation != "none",
	}, nil
}

// RegisterComplete verifies the response of a page, its JSON, in a session, which is nil if none is open. isRegistered says whether any
// account has the credential with this id, retired or not. It returns *Refused, *BadInput, ErrNoMemory, or the error of isRegistered.
func (s *Server) RegisterComplete(session *RegistrationSession, response []byte, isRegistered func(id []byte) (bool, error)) (*Registered, error) {
	parts, members, err := partsIn(response, []string{"clientDataJSON", "attestationObject"})
	if err != nil {
		return nil, err
	}
	isTaken, err := isRegistered(append([]byte{}, parts["rawId"]...))
	if err != nil {
		return nil, err
	}
	return s.registered(session, &registrationParts{
		object: parts["attestationObject"], clientData: parts["clientDataJSON"], rawID: parts["rawId"], isRegistered: isTaken,
	}, transportsIn(members))
}

var formats = []string{"none", "packed"}

func (s *Server) registered(session *RegistrationSession, parts *registrationParts, transports []string) (*Registered, error) {
	answer, told, err := judgeRegistration(&s.party, s.acceptNone, s.acceptSelf, session, parts, s.verify)
	if err != nil {
		return nil, err
	}
	if err := errorOf(true, answer); err != nil {
		return nil, err
	}
	if int(told.format) >= len(formats) {
		return nil, badInput("the library reported the format %d", told.format)
	}
	told.credential.Transports = transports
	return &Registered{
		Credential: told.credential, AAGUID: told.aaguid, Format: formats[told.format], UserVerified: told.isUserVerified,
		BackedUp: told.backedUp, Flags: told.flags, Extensions: told.extensions,
	}, nil
}

// AuthenticateBegin begins a sign-in. It returns the options for the page, and the session, which the site keeps, once.
func (s *Server) AuthenticateBegin(how AuthenticateOptions) (*RequestOptions, *SignInSession, error) {
	made := &RequestOptions{
		RPID: s.rpID, AllowCredentials: descriptors(how.Allow), UserVerification: or(how.UserVerification, "preferred"), Hints: how.Hints,
		Extensions: how.Extensions,
	}
	session := &SignInSession{UserVerification: made.UserVerification == "required", Allow: []Bytes{}}
	if how.User != nil {
		if err := checkUser(how.User); err != nil {
			return nil, nil, err
		}
		session.User = append(Bytes{}, how.User...)
	}
	if err := checkList(how.Allow); err != nil {
		return nil, nil, err
	}
	if err := checkOneOf(made.UserVerification, "UserVerification", "required", "preferred", "discouraged"); err != nil {
		return nil, nil, err
	}
	for _, credential := range how.Allow {
		session.Allow = append(session.Allow, append(Bytes{}, credential.ID...))
	}
	var err error
	if made.Timeout, err = checkMore(how.Timeout, how.Hints); err != nil {
		return nil, nil, err
	}
	if made.Challenge, err = challenge(); err != nil {
		return nil, nil, err
	}
	session.Challenge = append(Bytes{}, made.Challenge...)
	return made, session, nil
}

// AuthenticateComplete verifies the response of a page, its JSON, in a session, which is nil if none is open. credential looks up the
// credential with an id, and returns nil if there is none. It returns *Refused, *BadInput, *RowDamaged, ErrNoMemory, or the error of
// credential.
func (s *Server) AuthenticateComplete(session *SignInSession, response []byte, credential func(id []byte) (*Credential, error)) (*SignedIn, error) {
	parts, _, err := partsIn(response, []string{"clientDataJSON", "authenticatorData", "signature"}, "userHandle")
	if err != nil {
		return nil, err
	}
	stored, err := credential(append([]byte{}, parts["rawId"]...))
	if err != nil {
		return nil, err
	}
	user, hasUser := parts["userHandle"]
	signedIn, err := s.signedIn(session, stored, &assertionParts{
		id: parts["rawId"], user: user, hasUser: hasUser, authData: parts["authenticatorData"], signature: parts["signature"],
		clientData: parts["clientDataJSON"],
	})
	var limit *BadInput
	if errors.As(err, &limit) && limit.Number >= 104 && limit.Number <= 106 {
		return nil, &RowDamaged{ID: parts["rawId"], Cause: err}
	}
	return signedIn, err
}

func (s *Server) signedIn(session *SignInSession, stored *Credential, parts *assertionParts) (*SignedIn, error) {
	var before *Credential
	if stored != nil {
		// The answer is for the row that was verified, even if the host's own row changes meanwhile.
		copied := *stored
		before = &copied
	}
	answer, told, err := judgeAssertion(&s.party, session, before, parts, s.verify)
	if err != nil {
		return nil, err
	}
	if err := errorOf(false, answer); err != nil {
		return nil, err
	}
	after := *before
	after.SignCount, after.Eligible = told.signCount, &told.eligible
	return &SignedIn{
		Credential: after, Before: *before, UserVerified: told.isUserVerified, BackedUp: told.backedUp, Flags: told.flags,
		Extensions: told.extensions,
	}, nil
}
