/* Registrations and sign-ins that others made, from C: ./ceremonies < LINES, which python/tests/ceremonies.py prints: what
 * Chromium recorded, and such by RSA keys of Python's `cryptography`. Each is accepted with the key, the message and the
 * signature that OpenSSL found to be valid, and refused without them, and with another key, message or signature. The
 * site and its verifier are those of example.c. Prints one line. */
#define main example_main
#include "example.c"
#undef main

enum { ROOM = 2048, WORDS = 8 };

/* a word of a line: bytes in hexadecimal after =, or anything else for none */
typedef struct {
    bool is_there;
    uint8_t data[ROOM];
    size_t size;
} word;

static word words[WORDS], rp_id, origin_text, user, id;

static void read_word(word *made, const char *from)
{
    made->is_there = *from++ == '=';
    made->size = 0;
    for (; made->is_there && *from != 0; from += 2) {
        unsigned byte;
        MUST(made->size < ROOM && sscanf(from, "%2x", &byte) == 1);
        made->data[made->size++] = (uint8_t)byte;
    }
}

static passkey_bytes lent(const word *of)
{
    return bytes(of->data, of->size);
}

/* ---- what is judged: a registration, or a sign-in with the credential that was registered last */

static bool is_registration;
static passkey_registration_call enrol;
static passkey_registration_out credential;
static passkey_assertion_call call;
static passkey_assertion_out signed_in;
static unsigned registrations, attested, sign_ins, refused;

/* The answer, by what the host verified, or by nothing. */
static uint32_t judged(const passkey_verified *verified)
{
    enrol.has_verified = call.has_verified = verified != NULL;
    if (verified != NULL)
        enrol.verified = call.verified = *verified;
    return is_registration ? passkey_registration(&enrol, &credential) : passkey_assertion(&call, &signed_in);
}

/* What is to be verified; the last of it is lent until the next. */
static passkey_verified asked(void)
{
    static uint8_t message[ROOM + 32], signature[ROOM];
    static passkey_signature_out told;
    passkey_signature_call which = { is_registration, true, enrol.response, call.response, call.credential.key, true };
    MUST(passkey_signature_asked(&which, message, sizeof message, signature, sizeof signature, &told) == PASSKEY_ACCEPTED);
    MUST(told.is_asked);
    passkey_verified signed_by = { lent_key(&told.key), bytes(message, told.message_size),
                                   bytes(signature, told.signature_size) };
    return signed_by;
}

/* Each member of what was verified changed: OpenSSL finds it not valid, and handed in nevertheless it is refused. */
static void refused_with_another(passkey_verified signed_by, uint32_t step)
{
    static uint8_t changed[ROOM + 32];
    passkey_bytes *const members[] = { &signed_by.key.x, &signed_by.message, &signed_by.signature };
    for (size_t i = 0; i < 3; i++) {
        const passkey_bytes kept = *members[i];
        memcpy(changed, kept.data, kept.size);
        changed[kept.size - 1] ^= 2; /* an odd modulus stays odd */
        members[i]->data = changed;
        MUST(!is_valid(&signed_by));
        MUST(judged(&signed_by) == step);
        *members[i] = kept;
        refused++;
    }
}

static void is_accepted_by_its_signature_alone(uint32_t step)
{
    MUST(judged(NULL) == step);
    refused++;
    passkey_verified signed_by = asked();
    refused_with_another(signed_by, step);
    MUST(is_valid(&signed_by));
    MUST(judged(&signed_by) == PASSKEY_ACCEPTED);
}

/* user verification, the algorithms, challenge, user, id, attestation object, client data, whether it is attested */
static void registration(void)
{
    is_registration = true;
    user = words[3];
    id = words[4];
    enrol = (passkey_registration_call){
        .party = call.party,
        .accept_none = true,
        .accept_self = true,
        .has_session = true,
        .session = { .challenge = lent(&words[2]), .user = lent(&user), .user_verification = words[0].is_there },
        .response = { lent(&words[5]), lent(&words[6]) },
        .is_free = true,
        .raw_id = lent(&id),
    };
    for (size_t i = 0; i < words[1].size; i++) {
        enrol.session.offers_es256 |= words[1].data[i] == 7;
        enrol.session.offers_eddsa |= words[1].data[i] == 8;
        enrol.session.offers_rs256 |= words[1].data[i] == 1;
    }
    if (words[7].is_there)
        is_accepted_by_its_signature_alone(PASSKEY_REGISTRATION_BAD_STATEMENT);
    else
        MUST(judged(NULL) == PASSKEY_ACCEPTED);
    MUST(credential.id_size == id.size && memcmp(credential.id, id.data, id.size) == 0);
    registrations++;
    attested += words[7].is_there;
    call.has_credential = true;
    call.credential = (passkey_credential){ .id = lent(&id),
                                            .user = lent(&user),
                                            .key = lent_key(&credential.key),
                                            .sign_count = credential.sign_count,
                                            .is_eligibility_known = true,
                                            .eligible = credential.eligible };
}

/* user verification, challenge, the account, the listed credential, user handle, authenticator data, signature, client
 * data */
static void sign_in_of_line(void)
{
    const passkey_bytes allow = lent(&words[3]);
    is_registration = false;
    call.has_session = true;
    call.session = (passkey_sign_in_session){ .challenge = lent(&words[1]),
                                              .user_verification = words[0].is_there,
                                              .has_user = words[2].is_there,
                                              .user = lent(&words[2]),
                                              .allow = &allow,
                                              .allow_count = words[3].is_there };
    call.response = (passkey_assertion_response){ .credential = lent(&id),
                                                  .has_user = words[4].is_there,
                                                  .user = lent(&words[4]),
                                                  .auth_data = lent(&words[5]),
                                                  .signature = lent(&words[6]),
                                                  .client_data = lent(&words[7]) };
    is_accepted_by_its_signature_alone(PASSKEY_BAD_SIGNATURE);
    MUST(signed_in.sign_count > call.credential.sign_count);
    call.credential.sign_count = signed_in.sign_count;
    sign_ins++;
}

int main(void)
{
    static char line[WORDS * (2 * ROOM + 2)];
    static passkey_bytes origin;
    while (fgets(line, sizeof line, stdin) != NULL) {
        size_t count = 0;
        const char *kind = strtok(line, " \n"), *next;
        while ((next = strtok(NULL, " \n")) != NULL) {
            MUST(count < WORDS);
            read_word(&words[count++], next);
        }
        if (strcmp(kind, "party") == 0) {
            rp_id = words[0];
            origin_text = words[1];
            origin = lent(&origin_text);
            call.party = (passkey_party){ lent(&rp_id), &origin, 1, 1, NULL, 0 };
        } else if (strcmp(kind, "registration") == 0) {
            registration();
        } else {
            MUST(strcmp(kind, "sign-in") == 0 && count == WORDS);
            sign_in_of_line();
        }
    }
    printf("%u registrations, %u of them attested, and %u sign-ins accepted; %u times refused\n", registrations, attested,
           sign_ins, refused);
    return registrations == 40 && attested == 4 && sign_ins == 80 ? 0 : 1;
}
