package garvoeng

import (
	"errors"
	"fmt"
	"strconv"
)

var signInSteps = []string{
	"SessionNotOpen", "CredentialNotAllowed", "UnknownCredential", "OtherUser", "UnreadableClientData", "WrongType",
	"WrongChallenge", "WrongOrigin", "TokenBinding", "BadAuthenticatorData", "WrongRelyingParty", "UserNotPresent",
	"UserNotVerified", "BadSignature", "CounterNotGreater", "EligibilityChanged", "CrossOrigin", "WrongTopOrigin",
}

var registrationSteps = []string{
	"SessionNotOpen", "UnreadableClientData", "WrongType", "WrongChallenge", "WrongOrigin", "TokenBinding",
	"BadAttestationObject", "WrongRelyingParty", "UserNotPresent", "UserNotVerified", "AlgorithmNotOffered",
	"UnknownFormat", "BadStatement", "AttestationNotAccepted", "CredentialRegistered", "TableFull", "CrossOrigin", "WrongTopOrigin",
	"OtherId",
}

// Refused says that a response is refused. The step is the first one of section 7.1 (registration) or 7.2 (sign-in) of WebAuthn that it
// does not pass.
type Refused struct {
	IsRegistration bool
	Number         int    // of the step
	Step           string // its name, as BadSignature
	Name           string // as W14, or G13 of a registration
	Text           string // what it says, for a log
}

func (r *Refused) Error() string {
	return r.Step + ": " + r.Text
}

// BadInput says that a value of the site's is out of its limits, or that a response is not WebAuthn's JSON.
type BadInput struct {
	Number int // of the library's limit, as c/passkey.h has it; 0 of any other
	Text   string
}

func (b *BadInput) Error() string {
	return b.Text
}

// RowDamaged says that the row of a credential is not one that a site writes; the visitor is not at fault.
type RowDamaged struct {
	ID    Bytes
	Cause error
}

func (r *RowDamaged) Error() string {
	return fmt.Sprintf("the row of the credential %s is damaged: %v", toText(r.ID), r.Cause)
}

func (r *RowDamaged) Unwrap() error {
	return r.Cause
}

// ErrNoMemory says that there was no memory for a call. The call changed nothing.
var ErrNoMemory = errors.New("out of memory")

func badInput(format string, values ...any) error {
	return &BadInput{Text: fmt.Sprintf(format, values...)}
}

// The error for an answer of the library, nil for 0.
func errorOf(isRegistration bool, answer uint32) error {
	switch {
	case answer == accepted:
		return nil
	case answer == noMemory:
		return ErrNoMemory
	case answer > firstLimit:
		return &BadInput{Number: int(answer), Text: textOf(isRegistration, answer)}
	}
	letter, steps := "W", signInSteps
	if isRegistration {
		letter, steps = "G", registrationSteps
	}
	name := letter + strconv.Itoa(int(answer))
	step := name
	if int(answer) <= len(steps) {
		step = steps[answer-1]
	}
	return &Refused{IsRegistration: isRegistration, Number: int(answer), Step: step, Name: name, Text: textOf(isRegistration, answer)}
}
