/* Each flag that a host hands in: a byte of 1, 2, 4 and so on to 255 says the same, and 0 something else. Each number of a profile. What is told comes
 * into memory that was not initialised. Prints one line. */
#include "made.h"

static unsigned calls;
static const uint8_t extensions[] = { 0xa1, 0x61, 'a', 0x01 }; /* {"a": 1} */
static const passkey_bytes user = { (const uint8_t *)"user", 4 }, id = { (const uint8_t *)"id", 2 };

/* Where the flag is 0 this is answered, else that. */
struct answers {
    uint32_t clear, set;
};

static const uint8_t set_flags[] = { 1, 2, 3, 4, 8, 16, 32, 64, 127, 128, 254, 255 };

/* ---- sign-ins */

static uint32_t sign_in(const passkey_assertion_call *call, uint8_t data_flags, size_t extensions_size)
{
    passkey_assertion_out *out = malloc(sizeof *out); /* not initialised */
    MUST(out != NULL);
    uint32_t answer = passkey_assertion(call, out);
    if (answer == PASSKEY_ACCEPTED)
        MUST(out->sign_count == 7 && out->flags == data_flags && out->extensions_size == extensions_size &&
             out->user_verified == ((data_flags & PASSKEY_FLAG_UV) != 0) && !out->eligible && !out->backed_up);
    free(out);
    calls++;
    return answer;
}

/* Tries a flag of the call of a sign-in that is accepted. */
static void try_sign_in(passkey_assertion_call *call, uint8_t *flag, struct answers answers)
{
    uint8_t data[64], before = *flag;
    const uint8_t data_flags = 0x01;
    call->response.auth_data = lent(data, auth_data(data, data_flags, 7, lent(NULL, 0)));
    verify_sign_in(call);
    MUST(call->has_verified == 1);
    before = flag == &call->has_verified ? 1 : before;
    *flag = 0;
    MUST(sign_in(call, data_flags, 0) == answers.clear);
    for (size_t i = 0; i < sizeof set_flags; i++) {
        *flag = set_flags[i];
        MUST(sign_in(call, data_flags, 0) == answers.set);
    }
    *flag = before;
}

/* What each number of a profile answers to extensions. */
static uint32_t answer_of(unsigned profile, uint32_t refused)
{
    return profile == PASSKEY_PROFILE_STRICT ? refused : profile <= PASSKEY_PROFILE_LEVEL3 ? PASSKEY_ACCEPTED : PASSKEY_LIMIT_PROFILE;
}

static void profiles_of_sign_ins(passkey_assertion_call call)
{
    uint8_t data[64];
    call.party.profile = PASSKEY_PROFILE_OPEN;
    call.response.auth_data = lent(data, auth_data(data, 0x81, 7, lent(extensions, sizeof extensions)));
    verify_sign_in(&call);
    for (unsigned number = 0; number < 256; number++) {
        call.party.profile = (uint8_t)number;
        MUST(sign_in(&call, 0x81, sizeof extensions) == answer_of(number, PASSKEY_BAD_AUTHENTICATOR_DATA));
    }
}

static void sign_ins(void)
{
    static char client[512];
    const passkey_bytes origin = lent("https://abc", 11);
    passkey_assertion_call call = {
        .party = { lent("abc", 3), &origin, 1, 0 },
        .has_session = 1,
        .session = { .challenge = lent(challenge, 32) },
        .has_credential = 1,
        .credential = { .id = id, .user = user, .key = es256 },
        .response = { .credential = id, .has_user = 1, .user = user, .signature = lent("signature", 9),
                      .client_data = lent(client, client_data(client, "get", origin, 0)) },
    };
    struct answers accepted_set = { 0, PASSKEY_ACCEPTED }, accepted_clear = { PASSKEY_ACCEPTED, 0 };
#define SET(flag, answer) (accepted_set.clear = answer, try_sign_in(&call, &call.flag, accepted_set))
#define CLEAR(flag, answer) (accepted_clear.set = answer, try_sign_in(&call, &call.flag, accepted_clear))
    profiles_of_sign_ins(call);
    SET(has_session, PASSKEY_SESSION_NOT_OPEN);
    SET(has_credential, PASSKEY_UNKNOWN_CREDENTIAL);
    SET(has_verified, PASSKEY_BAD_SIGNATURE);
    SET(response.has_user, PASSKEY_OTHER_USER);
    CLEAR(session.user_verification, PASSKEY_USER_NOT_VERIFIED);
    CLEAR(session.has_user, PASSKEY_OTHER_USER); /* its user handle is empty */
    CLEAR(credential.retired, PASSKEY_UNKNOWN_CREDENTIAL);
    call.credential.eligible = 1;
    CLEAR(credential.is_eligibility_known, PASSKEY_ELIGIBILITY_CHANGED);
    call.credential.is_eligibility_known = 4;
    CLEAR(credential.eligible, PASSKEY_ELIGIBILITY_CHANGED);
#undef SET
#undef CLEAR
}

/* ---- registrations */

static uint32_t registration(const passkey_registration_call *call, uint32_t format, size_t extensions_size)
{
    static const uint8_t aaguid[16] = { 0xaa, 0xaa, 0xaa, 0xaa, 0xaa, 0xaa, 0xaa, 0xaa,
                                        0xaa, 0xaa, 0xaa, 0xaa, 0xaa, 0xaa, 0xaa, 0xaa };
    passkey_registration_out *out = malloc(sizeof *out); /* not initialised */
    MUST(out != NULL);
    uint32_t answer = passkey_registration(call, out);
    if (answer == PASSKEY_ACCEPTED)
        MUST(out->format == format && out->extensions_size == extensions_size && memcmp(out->aaguid, aaguid, 16) == 0 &&
             (out->flags & 0xfe) == (extensions_size != 0 ? 0xc0 : 0x40) && !out->user_verified && !out->backed_up && !out->eligible &&
             out->id_size == 2 && memcmp(out->id, "id", 2) == 0);
    free(out);
    calls++;
    return answer;
}

/* Tries a flag of the call of a registration of this key that is accepted. */
static void try_registration(passkey_registration_call *call, uint8_t *flag, bool is_packed, const passkey_key *key,
                             struct answers answers)
{
    static uint8_t object[1024];
    uint8_t before = *flag;
    call->response.object = lent(object, attestation_object(object, is_packed, 0x41, id, key, lent(NULL, 0)));
    call->has_verified = 0;
    if (is_packed)
        verify_registration(call);
    MUST(call->has_verified == is_packed);
    *flag = 0;
    MUST(registration(call, is_packed, 0) == answers.clear);
    for (size_t i = 0; i < sizeof set_flags; i++) {
        *flag = set_flags[i];
        MUST(registration(call, is_packed, 0) == answers.set);
    }
    *flag = before;
}

static void profiles_of_registrations(passkey_registration_call call)
{
    static uint8_t object[1024];
    call.response.object = lent(object, attestation_object(object, false, 0xc1, id, &es256, lent(extensions, sizeof extensions)));
    for (unsigned number = 0; number < 256; number++) {
        call.party.profile = (uint8_t)number;
        MUST(registration(&call, PASSKEY_FORMAT_NONE, sizeof extensions) == answer_of(number, PASSKEY_REGISTRATION_BAD_ATTESTATION_OBJECT));
    }
}

/* What Level 3 alone looks at: without presence, and with a statement whose signature nobody verified. */
static void level3(passkey_registration_call call)
{
    static uint8_t absent[1024], packed[1024];
    const passkey_bytes objects[] = {
        lent(absent, attestation_object(absent, false, 0x40, id, &es256, lent(NULL, 0))),
        lent(packed, attestation_object(packed, true, 0x41, id, &es256, lent(NULL, 0))) };
    for (int flag = 0; flag < 256; flag++) {
        call.party.profile = PASSKEY_PROFILE_LEVEL3;
        call.response.object = objects[0], call.session.conditional = (uint8_t)flag, call.session.attestation = 0;
        MUST(registration(&call, PASSKEY_FORMAT_NONE, 0) == (flag != 0 ? PASSKEY_ACCEPTED : PASSKEY_REGISTRATION_USER_NOT_PRESENT));
        call.response.object = objects[1], call.session.conditional = 0, call.session.attestation = (uint8_t)flag;
        MUST(registration(&call, PASSKEY_FORMAT_NONE, 0) == (flag != 0 ? PASSKEY_REGISTRATION_BAD_STATEMENT : PASSKEY_ACCEPTED));
        call.party.profile = PASSKEY_PROFILE_OPEN;
        MUST(registration(&call, PASSKEY_FORMAT_NONE, 0) == PASSKEY_REGISTRATION_BAD_STATEMENT);
        call.response.object = objects[0], call.session.conditional = (uint8_t)flag;
        MUST(registration(&call, PASSKEY_FORMAT_NONE, 0) == PASSKEY_REGISTRATION_USER_NOT_PRESENT);
    }
}

/* The response attests another id than is handed in: each that is not the same, found free or not, and before a room that is full. */
static void other_ids(passkey_registration_call call)
{
    static const char *const others[] = { "", "i", "ID", "id ", "di" };
    static uint8_t object[1024];
    call.response.object = lent(object, attestation_object(object, false, 0x41, id, &es256, lent(NULL, 0)));
    for (size_t i = 0; i < sizeof others / sizeof *others; i++) {
        call.raw_id = lent(others[i], strlen(others[i]));
        for (int which = 0; which < 4; which++) {
            call.is_full = which & 1, call.is_free = which >> 1;
            MUST(registration(&call, PASSKEY_FORMAT_NONE, 0) == PASSKEY_REGISTRATION_OTHER_ID);
        }
    }
}

static void registrations(void)
{
    static char client[512];
    static uint8_t modulus[256];
    memset(modulus, 0xc1, sizeof modulus);
    const passkey_bytes origin = lent("https://abc", 11);
    const passkey_key eddsa = { PASSKEY_EDDSA, lent(coordinate, 32), lent(NULL, 0) };
    const passkey_key rs256 = { PASSKEY_RS256, lent(modulus, sizeof modulus), lent("\3", 1) };
    passkey_registration_call call = {
        .party = { lent("abc", 3), &origin, 1, 0 },
        .accept_none = 1,
        .accept_self = 1,
        .has_session = 1,
        .session = { .challenge = lent(challenge, 32), .user = user, .offers_es256 = 1, .offers_eddsa = 1, .offers_rs256 = 1 },
        .response = { .client_data = lent(client, client_data(client, "create", origin, 0)) },
        .is_free = 1,
        .raw_id = id,
    };
    struct answers accepted_set = { 0, PASSKEY_ACCEPTED }, accepted_clear = { PASSKEY_ACCEPTED, 0 };
#define SET(flag, is_packed, key, answer) \
    (accepted_set.clear = answer, try_registration(&call, &call.flag, is_packed, &key, accepted_set))
#define CLEAR(flag, answer) (accepted_clear.set = answer, try_registration(&call, &call.flag, false, &es256, accepted_clear))
    profiles_of_registrations(call);
    level3(call);
    other_ids(call);
    SET(accept_none, false, es256, PASSKEY_REGISTRATION_ATTESTATION_NOT_ACCEPTED);
    SET(accept_self, true, es256, PASSKEY_REGISTRATION_ATTESTATION_NOT_ACCEPTED);
    SET(has_session, false, es256, PASSKEY_REGISTRATION_SESSION_NOT_OPEN);
    SET(session.offers_es256, false, es256, PASSKEY_REGISTRATION_ALGORITHM_NOT_OFFERED);
    SET(session.offers_eddsa, false, eddsa, PASSKEY_REGISTRATION_ALGORITHM_NOT_OFFERED);
    SET(session.offers_rs256, false, rs256, PASSKEY_REGISTRATION_ALGORITHM_NOT_OFFERED);
    SET(is_free, false, es256, PASSKEY_REGISTRATION_CREDENTIAL_REGISTERED);
    SET(has_verified, true, es256, PASSKEY_REGISTRATION_BAD_STATEMENT);
    CLEAR(session.user_verification, PASSKEY_REGISTRATION_USER_NOT_VERIFIED);
    CLEAR(is_full, PASSKEY_REGISTRATION_NO_ROOM);
#undef SET
#undef CLEAR
}

/* ---- signatures and texts */

static void signatures(void)
{
    static uint8_t object[1024], data[37], message[1024], signature[1024];
    size_t size = attestation_object(object, false, 0xc1, id, &es256, lent(extensions, sizeof extensions));
    passkey_signature_call call = {
        .registration = { lent(object, size), lent("{}", 2) },
        .assertion = { .auth_data = lent(data, sizeof data), .signature = lent("signature", 9), .client_data = lent("{}", 2) },
        .key = es256,
    };
    for (size_t i = 0; i < sizeof set_flags; i++) {
        passkey_signature_out *out = malloc(sizeof *out); /* not initialised */
        MUST(out != NULL);
        call.is_registration = 0;
        MUST(passkey_signature_asked(&call, message, 1024, signature, 1024, out) == 0 && out->is_asked);
        call.is_registration = set_flags[i];
        for (unsigned number = 0; number < 256; number++) {
            call.profile = (uint8_t)number;
            MUST(passkey_signature_asked(&call, message, 1024, signature, 1024, out) ==
                 answer_of(number, PASSKEY_REGISTRATION_BAD_ATTESTATION_OBJECT));
        }
        call.profile = PASSKEY_PROFILE_OPEN;
        MUST(passkey_signature_asked(&call, message, 1024, signature, 1024, out) == 0 && !out->is_asked);
        free(out);
        calls += 258;
    }
    size = attestation_object(object, true, 0x41, id, &es256, lent(NULL, 0));
    call.registration.object = lent(object, size), call.profile = PASSKEY_PROFILE_LEVEL3;
    for (int flag = 0; flag < 256; flag++, calls++) {
        static passkey_signature_out out;
        call.attestation = (uint8_t)flag;
        MUST(passkey_signature_asked(&call, message, 1024, signature, 1024, &out) == 0 && out.is_asked == (flag != 0));
    }
}

static void texts(void)
{
    static const char full[] = "there is no room for another credential";
    static const char changed[] = "the credential's eligibility for backup has changed";
    static const char other[] = "the response's id is not the attested credential's";
    uint8_t text[128];
    for (uint32_t number = 1; number != 0; number <<= 1, calls++)
        MUST(passkey_refusal_text(number, 16, text, sizeof text) == sizeof full - 1 && memcmp(text, full, sizeof full - 1) == 0);
    MUST(passkey_refusal_text(0, 16, text, sizeof changed - 1) == sizeof changed - 1);
    MUST(memcmp(text, changed, sizeof changed - 1) == 0);
    MUST(passkey_refusal_text(0, 16, text, sizeof changed - 2) == 0);
    MUST(passkey_refusal_text(1, 19, text, sizeof text) == sizeof other - 1 && memcmp(text, other, sizeof other - 1) == 0);
    MUST(passkey_refusal_text(0, 19, text, sizeof text) == 0);
}

int main(void)
{
    sign_ins();
    registrations();
    signatures();
    texts();
    printf("%u calls\n", calls);
    return 0;
}
