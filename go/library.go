package garvoeng

// #cgo CFLAGS: -I${SRCDIR}/../c -O2
// #cgo linux,amd64,!portable LDFLAGS: ${SRCDIR}/../dist/x86_64/libpasskey.a
// #cgo linux,arm64,!portable LDFLAGS: ${SRCDIR}/../dist/aarch64/libpasskey.a
// #cgo !windows LDFLAGS: -lm
// #include <stdlib.h>
// #include "passkey.h"
import "C"
import (
	"unsafe"
)

// The numbers of the steps of a signature, and of answers that are not steps.
const (
	accepted     = 0
	badStatement = 13
	badSignature = 14
	firstLimit   = 100
	noMemory     = 127
)

// C memory that a call lends: cgo forbids pointers to Go's memory within a struct.
type lent struct {
	pointer unsafe.Pointer
	room    []byte
}

// The most bytes that a list of texts takes.
func sizeOf(values [][]byte) int {
	size := 8 + len(values)*C.sizeof_passkey_bytes
	for _, value := range values {
		size += len(value)
	}
	return size
}

func lend(size int) (*lent, error) {
	pointer := C.malloc(C.size_t(size + 1))
	if pointer == nil {
		return nil, ErrNoMemory
	}
	return &lent{pointer, unsafe.Slice((*byte)(pointer), size)}, nil
}

func (l *lent) free() {
	C.free(l.pointer)
}

func (l *lent) take(size int) []byte {
	taken := l.room[:size:size]
	l.room = l.room[size:]
	return taken
}

func bytesOf(value []byte) C.passkey_bytes {
	if len(value) == 0 {
		return C.passkey_bytes{}
	}
	return C.passkey_bytes{data: (*C.uint8_t)(unsafe.Pointer(&value[0])), size: C.size_t(len(value))}
}

func (l *lent) bytes(value []byte) C.passkey_bytes {
	taken := l.take(len(value))
	copy(taken, value)
	return bytesOf(taken)
}

func (l *lent) list(values [][]byte) (*C.passkey_bytes, C.size_t) {
	if len(values) == 0 {
		return nil, 0
	}
	l.take(int(-uintptr(unsafe.Pointer(&l.room[0])) & 7))
	first := l.take(len(values) * C.sizeof_passkey_bytes)
	listed := unsafe.Slice((*C.passkey_bytes)(unsafe.Pointer(&first[0])), len(values))
	for place, value := range values {
		listed[place] = l.bytes(value)
	}
	return &listed[0], C.size_t(len(values))
}

func (l *lent) key(key Key) C.passkey_key {
	return C.passkey_key{algorithm: C.int32_t(key.Algorithm), x: l.bytes(key.X), y: l.bytes(key.Y)}
}

func flag(value bool) C.uint8_t {
	if value {
		return 1
	}
	return 0
}

func keyTold(key *C.passkey_key_out) Key {
	return Key{
		Algorithm: Algorithm(key.algorithm),
		X:         C.GoBytes(unsafe.Pointer(&key.x[0]), C.int(key.x_size)),
		Y:         C.GoBytes(unsafe.Pointer(&key.y[0]), C.int(key.y_size)),
	}
}

// What a host lends for its relying party.
type party struct {
	rpID       []byte
	origins    [][]byte
	topOrigins [][]byte
	profile    Profile
}

func (p *party) size() int {
	return len(p.rpID) + sizeOf(p.origins) + sizeOf(p.topOrigins)
}

func (l *lent) party(p *party) (of C.passkey_party) {
	of.rp_id = l.bytes(p.rpID)
	of.origins, of.origin_count = l.list(p.origins)
	of.top_origins, of.top_origin_count = l.list(p.topOrigins)
	of.profile = C.uint8_t(p.profile)
	return of
}

// What is needed to verify a response's signature.
type verify func(key Key, message, signature []byte) bool

// Verifies the signature, if there is one to verify. Returns what was verified, for the next call.
func (l *lent) verified(asked *C.passkey_signature_call, messageRoom, signatureRoom int, isValid verify) (C.passkey_verified, bool, uint32) {
	var told C.passkey_signature_out
	message, signature := l.take(messageRoom), l.take(signatureRoom)
	room := func(of []byte) *C.uint8_t { return (*C.uint8_t)(unsafe.Pointer(&of[0])) }
	answer := C.passkey_signature_asked(asked, room(message), C.size_t(messageRoom), room(signature), C.size_t(signatureRoom), &told)
	if answer != accepted || !told.is_asked {
		return C.passkey_verified{}, false, uint32(answer)
	}
	message, signature = message[:told.message_size], signature[:told.signature_size]
	// A function of the host may keep and change its arguments, and this memory is C's.
	if !isValid(keyTold(&told.key), append([]byte{}, message...), append([]byte{}, signature...)) {
		return C.passkey_verified{}, false, accepted
	}
	return C.passkey_verified{key: l.key(keyTold(&told.key)), message: bytesOf(message), signature: bytesOf(signature)}, true, accepted
}

// Room for the parts of a reported key that are lent again: an RSA modulus and its exponent.
const keyRoom = 512 + 32

type assertionParts struct {
	id, user, authData, signature, clientData []byte
	hasUser                                   bool
}

type assertionTold struct {
	signCount                          uint32
	eligible, backedUp, isUserVerified bool
	flags                              byte
	extensions                         []byte
}

// Verifies a sign-in. Returns the answer, and the outputs if it is 0.
func judgeAssertion(p *party, session *SignInSession, credential *Credential, response *assertionParts, isValid verify) (uint32, assertionTold, error) {
	size := p.size() + 2*len(response.authData) + 2*len(response.signature) + len(response.id) + len(response.user) + len(response.clientData) + keyRoom + 64
	if session != nil {
		size += len(session.Challenge) + len(session.User) + sizeOf(lists(session.Allow))
	}
	if credential != nil {
		size += len(credential.ID) + len(credential.User) + len(credential.X) + len(credential.Y)
	}
	l, err := lend(size)
	if err != nil {
		return 0, assertionTold{}, err
	}
	defer l.free()
	call := C.passkey_assertion_call{party: l.party(p)}
	if session != nil {
		call.has_session = 1
		of := &call.session
		of.challenge = l.bytes(session.Challenge)
		of.user_verification = flag(session.UserVerification)
		of.has_user = flag(session.User != nil)
		of.user = l.bytes(session.User)
		of.allow, of.allow_count = l.list(lists(session.Allow))
	}
	if credential != nil {
		call.has_credential = 1
		of := &call.credential
		of.id, of.user, of.key = l.bytes(credential.ID), l.bytes(credential.User), l.key(credential.Key)
		of.sign_count = C.uint32_t(credential.SignCount)
		of.is_eligibility_known = flag(credential.Eligible != nil)
		of.eligible = flag(credential.Eligible != nil && *credential.Eligible)
		of.retired = flag(credential.Retired)
	}
	call.response = C.passkey_assertion_response{
		credential: l.bytes(response.id), has_user: flag(response.hasUser), user: l.bytes(response.user),
		auth_data: l.bytes(response.authData), signature: l.bytes(response.signature), client_data: l.bytes(response.clientData),
	}
	var out C.passkey_assertion_out
	answer := C.passkey_assertion(&call, &out)
	if answer == badSignature {
		asked := C.passkey_signature_call{assertion: call.response, key: call.credential.key}
		verified, isVerified, failed := l.verified(&asked, len(response.authData)+32, len(response.signature)+1, isValid)
		if failed != accepted {
			return failed, assertionTold{}, nil
		}
		if isVerified {
			call.has_verified, call.verified = 1, verified
			answer = C.passkey_assertion(&call, &out)
		}
	}
	if answer != accepted {
		return uint32(answer), assertionTold{}, nil
	}
	return accepted, assertionTold{
		signCount: uint32(out.sign_count), eligible: bool(out.eligible), backedUp: bool(out.backed_up),
		isUserVerified: bool(out.user_verified), flags: byte(out.flags), extensions: last(response.authData, int(out.extensions_size)),
	}, nil
}

type registrationParts struct {
	object, clientData, rawID []byte
	isRegistered, isFull      bool
}

type registrationTold struct {
	credential               Credential
	backedUp, isUserVerified bool
	flags                    byte
	aaguid                   []byte
	format                   uint32
	extensions               []byte
}

func offers(session *RegistrationSession, algorithm Algorithm) C.uint8_t {
	for _, offered := range session.Algorithms {
		if offered == algorithm {
			return 1
		}
	}
	return 0
}

// The same for a registration.
func judgeRegistration(p *party, acceptNone, acceptSelf bool, session *RegistrationSession, response *registrationParts, isValid verify) (uint32, registrationTold, error) {
	size := p.size() + 3*len(response.object) + len(response.clientData) + len(response.rawID) + keyRoom + 64
	if session != nil {
		size += len(session.Challenge) + len(session.User)
	}
	l, err := lend(size)
	if err != nil {
		return 0, registrationTold{}, err
	}
	defer l.free()
	call := C.passkey_registration_call{party: l.party(p), accept_none: flag(acceptNone), accept_self: flag(acceptSelf)}
	if session != nil {
		call.has_session = 1
		call.session = C.passkey_registration_session{
			challenge: l.bytes(session.Challenge), user: l.bytes(session.User), user_verification: flag(session.UserVerification),
			offers_es256: offers(session, ES256), offers_eddsa: offers(session, EdDSA), offers_rs256: offers(session, RS256),
			conditional: flag(session.Conditional), attestation: flag(session.Attestation),
		}
	}
	call.response = C.passkey_registration_response{object: l.bytes(response.object), client_data: l.bytes(response.clientData)}
	call.is_free, call.is_full = flag(!response.isRegistered), flag(response.isFull)
	call.raw_id = l.bytes(response.rawID)
	var out C.passkey_registration_out
	answer := C.passkey_registration(&call, &out)
	if answer == badStatement {
		asked := C.passkey_signature_call{
			is_registration: 1, profile: C.uint8_t(p.profile), registration: call.response, attestation: call.session.attestation,
		}
		verified, isVerified, failed := l.verified(&asked, len(response.object)+32, len(response.object)+1, isValid)
		if failed != accepted {
			return failed, registrationTold{}, nil
		}
		if isVerified {
			call.has_verified, call.verified = 1, verified
			answer = C.passkey_registration(&call, &out)
		}
	}
	if answer != accepted {
		return uint32(answer), registrationTold{}, nil
	}
	eligible := bool(out.eligible)
	return accepted, registrationTold{
		credential: Credential{
			ID: C.GoBytes(unsafe.Pointer(&out.id[0]), C.int(out.id_size)), User: append(Bytes{}, session.User...), Key: keyTold(&out.key),
			SignCount: uint32(out.sign_count), Eligible: &eligible,
		},
		backedUp: bool(out.backed_up), isUserVerified: bool(out.user_verified), flags: byte(out.flags),
		aaguid: C.GoBytes(unsafe.Pointer(&out.aaguid[0]), C.int(len(out.aaguid))), format: uint32(out.format),
		extensions: last(response.object, int(out.extensions_size)),
	}, nil
}

func last(value []byte, size int) Bytes {
	return append(Bytes{}, value[len(value)-size:]...)
}

func lists(values []Bytes) [][]byte {
	made := make([][]byte, len(values))
	for place, value := range values {
		made[place] = value
	}
	return made
}

// The text for an answer.
func textOf(isRegistration bool, answer uint32) string {
	var room [128]byte
	size := C.passkey_refusal_text(C.uint32_t(flag(isRegistration)), C.uint32_t(answer), (*C.uint8_t)(unsafe.Pointer(&room[0])), C.size_t(len(room)))
	return string(room[:size])
}

// KeyFromCOSE returns the key in COSE_Key bytes (RFC 9052, section 7), which other libraries store. It returns *BadInput if they are not an
// ES256, EdDSA or RS256 key in canonical CBOR.
func KeyFromCOSE(cose []byte) (Key, error) {
	var out C.passkey_key_out
	l, err := lend(len(cose))
	if err != nil {
		return Key{}, err
	}
	defer l.free()
	lent := l.bytes(cose)
	if !C.passkey_key_from_cose(lent.data, lent.size, &out) {
		return Key{}, badInput("the key is not a COSE_Key of ES256, EdDSA or RS256 in canonical CBOR")
	}
	return keyTold(&out), nil
}

// Version is the library's version: major * 10,000 + minor * 100 + patch.
func Version() int {
	return int(C.passkey_version())
}

func init() {
	if abi := C.passkey_abi_version(); abi != C.PASSKEY_ABI_VERSION {
		panic("garvoeng: libpasskey has another ABI than its header")
	}
}
