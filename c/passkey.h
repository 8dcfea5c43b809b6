/* passkey.h: the steps by which a relying party verifies a passkey's sign-in and registration (WebAuthn Level 2 and
 * Level 3, sections 7.2 and 7.1), as proved code. C11 and C++.
 *
 * Each call judges one response by its parameters, and keeps nothing: sessions, credentials and the mathematics of
 * signatures are the host's. A call changes nothing but its outputs, which it writes only with the answer 0.
 *
 * A sign-in takes two calls of passkey_assertion:
 *   1. without a verified signature: PASSKEY_BAD_SIGNATURE then means that each step before the signature's is passed;
 *   2. with the key, the message and the signature that the host verified by its own library, for a last answer.
 * The host passes the three byte strings, and never a flag: a signature of anything else is refused.
 * passkey_signature_asked gives the three that it has to verify. A registration by self attestation goes the same way, by
 * PASSKEY_REGISTRATION_BAD_STATEMENT; one without attestation takes one call.
 *
 * The calls may be made from several threads at once, and not from a signal handler. They take memory from malloc.
 * A pointer may be null only where its size or count is 0. Texts are not terminated.
 *
 * A flag that the host passes is a number: 0 is false, and any other number is true, also one that means that a look-up
 * failed: compare its answer first. A bool that a call writes is 0 or 1.
 * Outputs, `out` and the rooms, need not be initialised: nothing of them is read.
 * An output may not overlap an input or another output. This is not tested: if the rooms of passkey_signature_asked overlap
 * each other or the response, it answers 0 and writes a wrong message or signature.
 *
 * Sizes: credential ids and user handles that the host passes are compared, and have no limit here. An id that a call writes
 * has 1 to 64 bytes in the strict profile, and 1 to 1,023 in the others.
 * Keys: no test is made that a point lies on its curve, or that a modulus is a product of two primes. The library that
 * verifies signatures has to refuse such a key.
 *
 * PASSKEY_ABI_VERSION changes with each change of a struct, of a call's parameters, or of what a number means. New calls
 * and new answers leave it as it is. The library's calls have it in their names (passkey_assertion_5), so that a program
 * built with the header of another ABI does not link, and in libpasskey.so.5. A host that does not read this header, and
 * names those symbols by itself, has to compare passkey_abi_version() with the number that it was written for.
 *
 * PASSKEY_VERSION is the version of this header, PASSKEY_VERSION_NUMBER the same as a number: major * 10,000 + minor * 100 +
 * patch. A version before a release, as 1.0.0-rc1, has the release's number. passkey_version() is the library's.
 */
#ifndef PASSKEY_H
#define PASSKEY_H

#include <stdbool.h>
#include <stddef.h>
#include <stdint.h>

#ifdef __cplusplus
extern "C" {
#endif

#define PASSKEY_VERSION "0.1.0"
#define PASSKEY_VERSION_NUMBER 100
#define PASSKEY_ABI_VERSION 5
#define passkey_assertion passkey_assertion_5
#define passkey_registration passkey_registration_5
#define passkey_signature_asked passkey_signature_asked_5
#define passkey_challenge passkey_challenge_5
#define passkey_challenge_text passkey_challenge_text_5
#define passkey_is_canonical passkey_is_canonical_5
#define passkey_key_from_cose passkey_key_from_cose_5
#define passkey_key_to_cose passkey_key_to_cose_5
#define passkey_refusal_text passkey_refusal_text_5

/* The most bytes of its thread's stack that a call takes, whatever its parameters: passkey_assertion and
 * passkey_registration, and each other call. */
#define PASSKEY_STACK_BYTES 32768
#define PASSKEY_OTHER_STACK_BYTES 4096

#define PASSKEY_ES256 (-7) /* ECDSA over P-256 with SHA-256 */
#define PASSKEY_EDDSA (-8) /* EdDSA over Ed25519 */
#define PASSKEY_RS256 (-257) /* RSA with PKCS #1 v1.5 and SHA-256 (RFC 8812) */

/* The flags of authenticator data (WebAuthn Level 2, section 6.1). */
enum {
    PASSKEY_FLAG_UP = 0x01, /* the user was present */
    PASSKEY_FLAG_UV = 0x04, /* the user was verified */
    PASSKEY_FLAG_BE = 0x08, /* eligible for backup */
    PASSKEY_FLAG_BS = 0x10, /* backed up now */
    PASSKEY_FLAG_AT = 0x40, /* a credential is attested */
    PASSKEY_FLAG_ED = 0x80  /* there are extensions */
};

/* How a credential is attested. */
enum {
    PASSKEY_FORMAT_NONE = 0,       /* not at all (section 8.7) */
    PASSKEY_FORMAT_PACKED_SELF = 1 /* by a packed statement with a signature of its own key (section 8.2) */
};

/* The profiles: which responses a relying party takes. */
enum {
    PASSKEY_PROFILE_STRICT = 0, /* no extension data, ids of 1 to 64 bytes, no status not-supported of token binding */
    PASSKEY_PROFILE_OPEN = 1,   /* these too, and ids of up to 1,023 bytes, as real keys and browsers send them */
    PASSKEY_PROFILE_LEVEL3 = 2  /* as the open one; token binding is not looked at, and frames are (Level 3) */
};

/* Answers. 1 to 19 are the steps: 1 to 16 in their order, and 17 and 18, of Level 3, right after the origin (8 of a
 * sign-in, 5 of a registration). 19, of a registration alone, stands in the place of 15 if the host passes a free id and
 * the response attests another. */
enum {
    PASSKEY_ACCEPTED = 0,

    /* of a sign-in */
    PASSKEY_SESSION_NOT_OPEN = 1,
    PASSKEY_CREDENTIAL_NOT_ALLOWED = 2,
    PASSKEY_UNKNOWN_CREDENTIAL = 3,
    PASSKEY_OTHER_USER = 4,
    PASSKEY_UNREADABLE_CLIENT_DATA = 5,
    PASSKEY_WRONG_TYPE = 6,
    PASSKEY_WRONG_CHALLENGE = 7,
    PASSKEY_WRONG_ORIGIN = 8,
    PASSKEY_TOKEN_BINDING = 9,
    PASSKEY_BAD_AUTHENTICATOR_DATA = 10,
    PASSKEY_WRONG_RELYING_PARTY = 11,
    PASSKEY_USER_NOT_PRESENT = 12,
    PASSKEY_USER_NOT_VERIFIED = 13,
    PASSKEY_BAD_SIGNATURE = 14,
    PASSKEY_COUNTER_NOT_GREATER = 15,
    PASSKEY_ELIGIBILITY_CHANGED = 16,
    PASSKEY_CROSS_ORIGIN = 17,
    PASSKEY_WRONG_TOP_ORIGIN = 18,

    /* of a registration */
    PASSKEY_REGISTRATION_SESSION_NOT_OPEN = 1,
    PASSKEY_REGISTRATION_UNREADABLE_CLIENT_DATA = 2,
    PASSKEY_REGISTRATION_WRONG_TYPE = 3,
    PASSKEY_REGISTRATION_WRONG_CHALLENGE = 4,
    PASSKEY_REGISTRATION_WRONG_ORIGIN = 5,
    PASSKEY_REGISTRATION_TOKEN_BINDING = 6,
    PASSKEY_REGISTRATION_BAD_ATTESTATION_OBJECT = 7,
    PASSKEY_REGISTRATION_WRONG_RELYING_PARTY = 8,
    PASSKEY_REGISTRATION_USER_NOT_PRESENT = 9,
    PASSKEY_REGISTRATION_USER_NOT_VERIFIED = 10,
    PASSKEY_REGISTRATION_ALGORITHM_NOT_OFFERED = 11,
    PASSKEY_REGISTRATION_UNKNOWN_FORMAT = 12,
    PASSKEY_REGISTRATION_BAD_STATEMENT = 13,
    PASSKEY_REGISTRATION_ATTESTATION_NOT_ACCEPTED = 14,
    PASSKEY_REGISTRATION_CREDENTIAL_REGISTERED = 15,
    PASSKEY_REGISTRATION_NO_ROOM = 16,
    PASSKEY_REGISTRATION_CROSS_ORIGIN = 17,
    PASSKEY_REGISTRATION_WRONG_TOP_ORIGIN = 18,
    PASSKEY_REGISTRATION_OTHER_ID = 19, /* the response attests another id than raw_id */

    /* a member that is out of its limits */
    PASSKEY_LIMIT_RP_ID = 101,             /* party.rp_id: UTF-8 */
    PASSKEY_LIMIT_ORIGIN = 102,            /* party.origins: each in UTF-8 */
    PASSKEY_LIMIT_CHALLENGE = 103,         /* challenge: 32 bytes */
    PASSKEY_LIMIT_KEY_ALGORITHM = 104,     /* credential.key.algorithm: -7, -8 or -257 */
    PASSKEY_LIMIT_KEY_X = 105,             /* credential.key.x: 32 bytes; of RS256 a modulus */
    PASSKEY_LIMIT_KEY_Y = 106,             /* credential.key.y: 32 bytes, of ES256; of RS256 an exponent */
    PASSKEY_LIMIT_VERIFIED_ALGORITHM = 107, /* verified.key.algorithm: -7, -8 or -257 */
    PASSKEY_LIMIT_VERIFIED_X = 108,        /* verified.key.x: 32 bytes; of RS256 a modulus */
    PASSKEY_LIMIT_VERIFIED_Y = 109,        /* verified.key.y: 32 bytes, of ES256; of RS256 an exponent */
    PASSKEY_LIMIT_MESSAGE_ROOM = 110,      /* the room for a message is too small */
    PASSKEY_LIMIT_SIGNATURE_ROOM = 111,    /* the room for a signature is too small */
    PASSKEY_LIMIT_PROFILE = 112,           /* party.profile, or call.profile of passkey_signature_asked: 0, 1 or 2 */
    PASSKEY_LIMIT_TOP_ORIGIN = 113,        /* party.top_origins: each in UTF-8 */

    PASSKEY_NO_MEMORY = 127
};

/* Bytes, lent for the time of the call. */
typedef struct passkey_bytes {
    const uint8_t *data;
    size_t size; /* in bytes, below 2^63 */
} passkey_bytes;

/* A public key by its coordinates (RFC 9053, section 7), or an RSA key by its numbers (RFC 8230, section 4). */
typedef struct passkey_key {
    int32_t algorithm; /* PASSKEY_ES256, PASSKEY_EDDSA or PASSKEY_RS256 */
    passkey_bytes x;   /* 32 bytes: of P-256 big-endian; of Ed25519 the public key. Of RSA the modulus, big-endian: 256,
                          384 or 512 bytes, the first not 0, the last odd */
    passkey_bytes y;   /* 32 bytes, big-endian, of P-256; of Ed25519 not looked at. Of RSA the public exponent,
                          big-endian: 1 to 4 bytes, the first not 0, the last odd, at least 3 */
} passkey_key;

/* A public key that a call writes: as passkey_key, the first x_size bytes of x and the first
 * y_size bytes of y. */
typedef struct passkey_key_out {
    int32_t algorithm;
    size_t x_size; /* in bytes */
    uint8_t x[512];
    size_t y_size; /* 0 of PASSKEY_EDDSA */
    uint8_t y[32];
} passkey_key_out;

/* A relying party. */
typedef struct passkey_party {
    passkey_bytes rp_id; /* UTF-8, as "example.com" */
    const passkey_bytes *origins; /* each UTF-8, as "https://example.com"; compared as texts */
    size_t origin_count;
    uint8_t profile; /* PASSKEY_PROFILE_STRICT, PASSKEY_PROFILE_OPEN or PASSKEY_PROFILE_LEVEL3 */
    const passkey_bytes *top_origins; /* the pages of other sites that may frame its own: each UTF-8, compared as texts;
                                         none: it is not framed. In Level 3 alone looked at */
    size_t top_origin_count;
} passkey_party;

/* A public key, a message and a signature that the host's own library found to be valid. */
typedef struct passkey_verified {
    passkey_key key;
    passkey_bytes message;
    passkey_bytes signature;
} passkey_verified;

/* What a sign-in that has begun expects. */
typedef struct passkey_sign_in_session {
    passkey_bytes challenge; /* 32 bytes, which no other session has */
    uint8_t user_verification; /* UV is required */
    uint8_t has_user;        /* the account is known beforehand */
    passkey_bytes user;      /* its user handle; where has_user is 0 not looked at */
    const passkey_bytes *allow; /* the ids of the credentials that may answer; none for any */
    size_t allow_count;
} passkey_sign_in_session;

/* A registered credential. */
typedef struct passkey_credential {
    passkey_bytes id;
    passkey_bytes user; /* the user handle */
    passkey_key key;
    uint32_t sign_count; /* the signature counter last received */
    uint8_t is_eligibility_known;
    uint8_t eligible;    /* for backup (BE); where it is not known not looked at */
    uint8_t retired;     /* it signs in no more */
} passkey_credential;

/* A client's answer to a sign-in. */
typedef struct passkey_assertion_response {
    passkey_bytes credential; /* rawId */
    uint8_t has_user;
    passkey_bytes user;      /* response.userHandle; where has_user is 0 not looked at */
    passkey_bytes auth_data; /* response.authenticatorData */
    passkey_bytes signature; /* response.signature */
    passkey_bytes client_data; /* response.clientDataJSON */
} passkey_assertion_response;

/* A sign-in to be judged. Where a flag is 0, the member after it is not looked at. */
typedef struct passkey_assertion_call {
    passkey_party party;
    uint8_t has_session; /* a session is open for sign-in */
    passkey_sign_in_session session;
    uint8_t has_credential; /* a credential was found for the response; one of another id is refused */
    passkey_credential credential;
    passkey_assertion_response response;
    uint8_t has_verified; /* the host verified a signature */
    passkey_verified verified;
} passkey_assertion_call;

/* What a sign-in that is accepted says. */
typedef struct passkey_assertion_out {
    uint32_t sign_count; /* to be stored in place of the credential's */
    bool eligible;       /* for backup (BE), to be stored where it was not known */
    bool backed_up;      /* now (BS) */
    bool user_verified;  /* UV */
    uint8_t flags;       /* of the authenticator data: PASSKEY_FLAG_UP and so on; the reserved ones as they came */
    size_t extensions_size; /* in bytes: the last ones of response.auth_data are the map of extensions; 0: there is none */
} passkey_assertion_out;

/* Judges a sign-in: PASSKEY_ACCEPTED, or the first step that is not passed (1 to 18), or a member that is out of its
 * limits, or PASSKEY_NO_MEMORY. */
uint32_t passkey_assertion(const passkey_assertion_call *call, passkey_assertion_out *out);

/* What a registration that has begun expects. */
typedef struct passkey_registration_session {
    passkey_bytes challenge; /* 32 bytes, which no other session has */
    passkey_bytes user;      /* the user handle of the account */
    uint8_t user_verification; /* UV is required */
    uint8_t offers_es256;    /* PASSKEY_ES256 was offered */
    uint8_t offers_eddsa;    /* PASSKEY_EDDSA was offered */
    uint8_t offers_rs256;    /* PASSKEY_RS256 was offered */
    uint8_t conditional;     /* it was begun as a conditional create: in Level 3 UP is then not required */
    uint8_t attestation;     /* an attestation was asked for: where none was, in Level 3 the statement counts as none */
} passkey_registration_session;

/* A client's answer to a registration. */
typedef struct passkey_registration_response {
    passkey_bytes object;      /* response.attestationObject */
    passkey_bytes client_data; /* response.clientDataJSON */
} passkey_registration_response;

/* A registration to be judged. Where a flag is 0, the member after it is not looked at. */
typedef struct passkey_registration_call {
    passkey_party party;
    uint8_t accept_none; /* no attestation is accepted */
    uint8_t accept_self; /* self attestation is accepted */
    uint8_t has_session; /* a session is open for registration */
    passkey_registration_session session;
    passkey_registration_response response;
    uint8_t is_free;      /* the host looked raw_id up, and no credential has it, retired or not */
    passkey_bytes raw_id; /* rawId of the answer: a response that attests another id is refused */
    uint8_t is_full;      /* there is no room for another credential */
    uint8_t has_verified; /* the host verified a signature, of self attestation */
    passkey_verified verified;
} passkey_registration_call;

/* The credential of a registration that is accepted. */
typedef struct passkey_registration_out {
    size_t id_size;   /* in bytes */
    uint8_t id[1023]; /* the first id_size bytes are the credential id */
    passkey_key_out key;
    uint32_t sign_count;
    bool eligible;      /* for backup (BE) */
    bool backed_up;     /* now (BS) */
    bool user_verified; /* UV */
    uint8_t flags;      /* of the authenticator data: PASSKEY_FLAG_UP and so on; the reserved ones as they came */
    uint8_t aaguid[16]; /* the kind of the authenticator, by its own word */
    uint32_t format;    /* PASSKEY_FORMAT_NONE or PASSKEY_FORMAT_PACKED_SELF */
    size_t extensions_size; /* in bytes: the last ones of response.object are the map of extensions; 0: there is none */
} passkey_registration_out;

/* Judges a registration, as passkey_assertion a sign-in; the steps are 1 to 19. */
uint32_t passkey_registration(const passkey_registration_call *call, passkey_registration_out *out);

/* A response whose signature is to be verified. */
typedef struct passkey_signature_call {
    uint8_t is_registration;
    uint8_t profile;                            /* of a registration: as party.profile */
    passkey_registration_response registration; /* of a registration */
    passkey_assertion_response assertion;       /* of a sign-in */
    passkey_key key;                            /* of a sign-in: the credential's */
    uint8_t attestation;                        /* of a registration: as session.attestation */
} passkey_signature_call;

/* Which signature the host is to verify. */
typedef struct passkey_signature_out {
    bool is_asked; /* 0: there is nothing to verify, and the other members say nothing */
    passkey_key_out key;
    size_t message_size; /* the first bytes of the room */
    size_t signature_size;
} passkey_signature_out;

/* Tells which key, message and signature the host is to verify: of a sign-in those of the response, of a registration
 * those of self attestation, or that there is none. A sign-in's message has auth_data.size + 32 bytes, a registration's at
 * most object.size + 32, its signature at most object.size: rooms of these sizes are always enough. Answers
 * PASSKEY_ACCEPTED, PASSKEY_REGISTRATION_BAD_ATTESTATION_OBJECT, PASSKEY_LIMIT_KEY_ALGORITHM, PASSKEY_LIMIT_KEY_X,
 * PASSKEY_LIMIT_KEY_Y, PASSKEY_LIMIT_MESSAGE_ROOM, PASSKEY_LIMIT_SIGNATURE_ROOM, PASSKEY_LIMIT_PROFILE or
 * PASSKEY_NO_MEMORY. */
uint32_t passkey_signature_asked(const passkey_signature_call *call, uint8_t *message, size_t message_room,
                                 uint8_t *signature, size_t signature_room, passkey_signature_out *out);

/* Makes a challenge: the session's number in 8 big-endian bytes, then 24 random bytes, which are the host's. False
 * where words are not 24 bytes or the challenge is not 32, and then nothing is written. */
bool passkey_challenge(uint64_t session, const uint8_t *words, size_t words_size, uint8_t *challenge,
                       size_t challenge_size);

/* Writes a challenge of 32 bytes as client data have it, base64url: 43 characters, not terminated. False where the
 * challenge is not 32 bytes or the room not 43, and then nothing is written. */
bool passkey_challenge_text(const uint8_t *challenge, size_t challenge_size, uint8_t *text, size_t text_size);

/* Whether the bytes are one value of canonical CBOR (CTAP 2.1, section 8), and no more. Narrower than CTAP: null, undefined,
 * floats and other simple values are refused, and keys of maps that are neither integers nor texts. */
bool passkey_is_canonical(const uint8_t *bytes, size_t size);

/* Tells the key whose COSE_Key bytes (RFC 9052, section 7) these are, as other libraries store them. False where they are
 * not those of a key of the three algorithms in canonical CBOR, and then nothing is written. */
bool passkey_key_from_cose(const uint8_t *bytes, size_t size, passkey_key_out *out);

/* Writes the COSE_Key bytes of a key, and tells how many they are: 77 of PASSKEY_ES256, 42 of PASSKEY_EDDSA, x.size + y.size
 * + 13 of PASSKEY_RS256. 0 where the key is out of its limits, the room is too small, or there was no memory, and then
 * nothing is written. */
size_t passkey_key_to_cose(const passkey_key *key, uint8_t *room, size_t room_size);

/* Writes the text of an answer, of a registration where is_registration is not 0, else of a sign-in, in ASCII, not
 * terminated: how many bytes were written; 0 where the answer has none or the room is too small (128 bytes are enough),
 * and then nothing is. */
size_t passkey_refusal_text(uint32_t is_registration, uint32_t answer, uint8_t *text, size_t text_room);

/* PASSKEY_ABI_VERSION of the library. */
uint32_t passkey_abi_version(void);

/* PASSKEY_VERSION_NUMBER of the library. Another one than the header's may be called where the ABI is the same. */
uint32_t passkey_version(void);

#ifdef __cplusplus
}
#endif

#endif
