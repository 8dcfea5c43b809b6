/* Hostile calls of passkey.h: nulls with no bytes, members that point anywhere where their flag is clear, misaligned
 * and unterminated bytes, rooms that are too small, large sizes, random bytes. Built with the sanitizers, and run under
 * valgrind too; each buffer is of its own malloc, so a read or a write beside it is seen. Prints one line. */
#include "passkey.h"

#include <stdio.h>
#include <stdlib.h>
#include <string.h>

#define MUST(what) ((what) ? (void)0 : fail(#what, __LINE__))

static void fail(const char *what, int line)
{
    fprintf(stderr, "hostile.c:%d: %s\n", line, what);
    exit(1);
}

static unsigned calls;
static uint64_t seed = 1;

static uint32_t draw(uint32_t below)
{
    seed = seed * 6364136223846793005u + 1442695040888963407u;
    return (uint32_t)(seed >> 33) % below;
}

/* bytes of their own, at an odd address; of size 0 null */
static passkey_bytes random_bytes(size_t size)
{
    passkey_bytes lent = { NULL, size };
    if (size != 0) {
        uint8_t *block = malloc(size + 1);
        MUST(block != NULL);
        for (size_t i = 0; i <= size; i++)
            block[i] = (uint8_t)draw(256);
        lent.data = block + 1;
    }
    return lent;
}

static passkey_bytes copy(const void *data, size_t size)
{
    passkey_bytes lent = random_bytes(size);
    if (size != 0)
        memcpy((uint8_t *)lent.data, data, size);
    return lent;
}

static void drop(passkey_bytes lent)
{
    if (lent.data != NULL)
        free((uint8_t *)lent.data - 1);
}

/* a pointer that no one may read */
static const passkey_bytes nowhere = { (const uint8_t *)(uintptr_t)16, (size_t)1 << 62 };

static uint32_t assertion(const passkey_assertion_call *call)
{
    passkey_assertion_out out, before;
    memset(&out, 0x5a, sizeof out);
    out.eligible = out.backed_up = out.user_verified = true;
    before = out;
    uint32_t answer = passkey_assertion(call, &out);
    calls++;
    MUST(answer <= 18 || (answer >= 100 && answer <= 127));
    MUST(answer == PASSKEY_ACCEPTED || memcmp(&out, &before, sizeof out) == 0);
    return answer;
}

static uint32_t registration(const passkey_registration_call *call)
{
    passkey_registration_out *out = malloc(sizeof *out), *before = malloc(sizeof *before);
    MUST(out != NULL && before != NULL);
    memset(out, 0x5a, sizeof *out);
    out->eligible = out->backed_up = out->user_verified = true;
    *before = *out;
    uint32_t answer = passkey_registration(call, out);
    calls++;
    MUST(answer <= 19 || (answer >= 100 && answer <= 127));
    MUST(answer == PASSKEY_ACCEPTED || memcmp(out, before, sizeof *out) == 0);
    free(out);
    free(before);
    return answer;
}

/* A signature is asked with rooms of these sizes, for a message and a signature of those. */
static void asks(const passkey_signature_call *call, size_t size, size_t message_size, size_t signature_size)
{
    passkey_bytes message = random_bytes(size), signature = random_bytes(size % 7);
    passkey_signature_out out;
    uint32_t answer =
        passkey_signature_asked(call, (uint8_t *)message.data, size, (uint8_t *)signature.data, size % 7, &out);
    calls++;
    if (size < message_size)
        MUST(answer == PASSKEY_LIMIT_MESSAGE_ROOM);
    else if (size % 7 < signature_size)
        MUST(answer == PASSKEY_LIMIT_SIGNATURE_ROOM);
    else
        MUST(answer == PASSKEY_ACCEPTED && out.is_asked && out.key.algorithm == PASSKEY_ES256 &&
             out.message_size == message_size && out.signature_size == signature_size);
    drop(message), drop(signature);
}

/* bytes of their own, all the same */
static passkey_bytes filled(int byte, size_t size)
{
    passkey_bytes lent = random_bytes(size);
    if (size != 0)
        memset((uint8_t *)lent.data, byte, size);
    return lent;
}

static void nothing_at_all(void)
{
    passkey_assertion_call sign_in;
    memset(&sign_in, 0, sizeof sign_in);
    MUST(assertion(&sign_in) == PASSKEY_SESSION_NOT_OPEN);
    sign_in.has_session = true;
    MUST(assertion(&sign_in) == PASSKEY_LIMIT_CHALLENGE);
    sign_in.has_session = false;
    sign_in.has_credential = true;
    MUST(assertion(&sign_in) == PASSKEY_LIMIT_KEY_ALGORITHM);
    sign_in.credential.key.algorithm = PASSKEY_ES256;
    MUST(assertion(&sign_in) == PASSKEY_LIMIT_KEY_X);
    sign_in.has_credential = false;
    sign_in.has_verified = true;
    MUST(assertion(&sign_in) == PASSKEY_LIMIT_VERIFIED_ALGORITHM);
    sign_in.verified.key.algorithm = PASSKEY_EDDSA;
    MUST(assertion(&sign_in) == PASSKEY_LIMIT_VERIFIED_X);

    passkey_registration_call enrol;
    memset(&enrol, 0, sizeof enrol);
    MUST(registration(&enrol) == PASSKEY_REGISTRATION_SESSION_NOT_OPEN);
    enrol.has_session = true;
    MUST(registration(&enrol) == PASSKEY_LIMIT_CHALLENGE);

    passkey_signature_out out;
    passkey_signature_call asked;
    memset(&asked, 0, sizeof asked);
    MUST(passkey_signature_asked(&asked, NULL, 0, NULL, 0, &out) == PASSKEY_LIMIT_KEY_ALGORITHM);
    asked.is_registration = true;
    MUST(passkey_signature_asked(&asked, NULL, 0, NULL, 0, &out) == PASSKEY_REGISTRATION_BAD_ATTESTATION_OBJECT);
    MUST(!passkey_challenge(1, NULL, 0, NULL, 0));
    MUST(!passkey_challenge_text(NULL, 0, NULL, 0));
    MUST(!passkey_is_canonical(NULL, 0));
    MUST(passkey_refusal_text(false, 14, NULL, 0) == 0);
    calls += 6;
}

/* members after a clear flag point nowhere */
static void flags_clear(void)
{
    passkey_assertion_call call;
    memset(&call, 0, sizeof call);
    call.session.challenge = call.session.user = call.credential.id = call.credential.user = nowhere;
    call.session.allow = (const passkey_bytes *)nowhere.data;
    call.session.allow_count = (size_t)1 << 50;
    call.credential.key.x = call.credential.key.y = call.response.user = nowhere;
    call.verified.key.x = call.verified.key.y = call.verified.message = call.verified.signature = nowhere;
    MUST(assertion(&call) == PASSKEY_SESSION_NOT_OPEN);
    passkey_registration_call enrol;
    memset(&enrol, 0, sizeof enrol);
    enrol.session.challenge = enrol.session.user = nowhere;
    enrol.party.origins = NULL;
    enrol.verified.key.x = enrol.verified.message = enrol.verified.signature = nowhere;
    MUST(registration(&enrol) == PASSKEY_REGISTRATION_SESSION_NOT_OPEN);
}

/* sizes just beside what is asked, each in a block of its own */
static void limits(void)
{
    static const size_t sizes[] = { 0, 1, 31, 33, 64, 65, 1023, 1024, 65536 };
    for (size_t i = 0; i < sizeof sizes / sizeof *sizes; i++) {
        passkey_assertion_call call;
        memset(&call, 0, sizeof call);
        passkey_bytes some = random_bytes(sizes[i]), good = random_bytes(32), bad_text = copy("\xff", 1);
        call.has_session = true;
        call.session.challenge = some;
        MUST(assertion(&call) == PASSKEY_LIMIT_CHALLENGE);
        call.session.challenge = good;
        call.has_credential = true;
        call.credential.key = (passkey_key){ PASSKEY_ES256, some, good };
        MUST(assertion(&call) == PASSKEY_LIMIT_KEY_X);
        call.credential.key = (passkey_key){ PASSKEY_ES256, good, some };
        MUST(assertion(&call) == PASSKEY_LIMIT_KEY_Y);
        call.credential.key = (passkey_key){ PASSKEY_RS256, some, good };
        MUST(assertion(&call) == PASSKEY_LIMIT_KEY_X);
        call.credential.key = (passkey_key){ PASSKEY_EDDSA, good, some };
        call.credential.id = call.credential.user = call.response.credential = call.response.user = some;
        call.response.auth_data = call.response.client_data = call.response.signature = some;
        call.response.has_user = true;
        MUST(assertion(&call) == PASSKEY_UNREADABLE_CLIENT_DATA);
        call.party.origins = &bad_text;
        call.party.origin_count = 1;
        MUST(assertion(&call) == PASSKEY_LIMIT_ORIGIN);
        call.party.rp_id = bad_text;
        MUST(assertion(&call) == PASSKEY_LIMIT_RP_ID);
        call.party.profile = 1;
        MUST(assertion(&call) == PASSKEY_LIMIT_RP_ID);
        drop(some), drop(good), drop(bad_text);
    }
}

/* the key that the host verified with, and the numbers of RSA, of a sign-in and of a registration */
static void verified_keys(void)
{
    passkey_bytes x = random_bytes(32), short_x = random_bytes(31), n = filled(0xc1, 256), even = filled(0xc2, 256);
    passkey_bytes e = filled(3, 1), one = filled(1, 1), none = { NULL, 0 }, five = filled(3, 5);
    const struct {
        passkey_key key;
        uint32_t stored, verified;
    } keys[] = {
        { { -6, x, x }, PASSKEY_LIMIT_KEY_ALGORITHM, PASSKEY_LIMIT_VERIFIED_ALGORITHM },
        { { PASSKEY_ES256, short_x, x }, PASSKEY_LIMIT_KEY_X, PASSKEY_LIMIT_VERIFIED_X },
        { { PASSKEY_ES256, x, short_x }, PASSKEY_LIMIT_KEY_Y, PASSKEY_LIMIT_VERIFIED_Y },
        { { PASSKEY_EDDSA, short_x, none }, PASSKEY_LIMIT_KEY_X, PASSKEY_LIMIT_VERIFIED_X },
        { { PASSKEY_RS256, even, e }, PASSKEY_LIMIT_KEY_X, PASSKEY_LIMIT_VERIFIED_X },
        { { PASSKEY_RS256, n, one }, PASSKEY_LIMIT_KEY_Y, PASSKEY_LIMIT_VERIFIED_Y },
        { { PASSKEY_RS256, n, none }, PASSKEY_LIMIT_KEY_Y, PASSKEY_LIMIT_VERIFIED_Y },
        { { PASSKEY_RS256, n, five }, PASSKEY_LIMIT_KEY_Y, PASSKEY_LIMIT_VERIFIED_Y },
        { { PASSKEY_RS256, n, e }, PASSKEY_SESSION_NOT_OPEN, PASSKEY_SESSION_NOT_OPEN },
        { { PASSKEY_EDDSA, x, none }, PASSKEY_SESSION_NOT_OPEN, PASSKEY_SESSION_NOT_OPEN },
    };
    for (size_t i = 0; i < sizeof keys / sizeof *keys; i++) {
        passkey_assertion_call call;
        memset(&call, 0, sizeof call);
        call.has_credential = true;
        call.credential.key = keys[i].key;
        MUST(assertion(&call) == keys[i].stored);
        call.has_credential = false;
        call.has_verified = true;
        call.verified.key = keys[i].key;
        MUST(assertion(&call) == keys[i].verified);
        passkey_registration_call enrol;
        memset(&enrol, 0, sizeof enrol);
        enrol.has_verified = true;
        enrol.verified.key = keys[i].key;
        MUST(registration(&enrol) == keys[i].verified);
        enrol.party.rp_id = filled(0xff, 1);
        MUST(registration(&enrol) == PASSKEY_LIMIT_RP_ID);
        const passkey_bytes bad_text = enrol.party.rp_id;
        enrol.party.rp_id = none;
        enrol.party.origins = &bad_text;
        enrol.party.origin_count = 1;
        MUST(registration(&enrol) == PASSKEY_LIMIT_ORIGIN);
        drop(bad_text);
    }
    drop(x), drop(short_x), drop(n), drop(even), drop(e), drop(one), drop(five);
}

/* each part of a sign-in in megabytes, and long lists: judged as small ones are, to the last step before the signature */
static void large(void)
{
    enum { SIZE = 1 << 22, COUNT = 20000 };
    static const uint8_t challenge[32], rp_id_hash[32] = {
        0xba, 0x78, 0x16, 0xbf, 0x8f, 0x01, 0xcf, 0xea, 0x41, 0x41, 0x40, 0xde, 0x5d, 0xae, 0x22, 0x23,
        0xb0, 0x03, 0x61, 0xa3, 0x96, 0x17, 0x7a, 0x9c, 0xb4, 0x10, 0xff, 0x61, 0xf2, 0x00, 0x15, 0xad,
    }; /* of "abc" */
    char front[128];
    int size = sprintf(front, "{\"type\":\"webauthn.get\",\"challenge\":\"%.43s\",\"origin\":\"",
                       "AAAAAAAAAAAAAAAAAAAAAAAAAAAAAAAAAAAAAAAAAAA");
    passkey_bytes origin = filled('a', SIZE), id = filled(7, SIZE), client_data = filled('a', (size_t)size + SIZE + 2);
    memcpy((uint8_t *)client_data.data, front, (size_t)size);
    memcpy((uint8_t *)client_data.data + size + SIZE, "\"}", 2);
    uint8_t auth_data[37] = { 0 };
    memcpy(auth_data, rp_id_hash, 32);
    auth_data[32] = 1;
    passkey_bytes *list = malloc(COUNT * sizeof *list), good = copy(auth_data, 37), key = random_bytes(32);
    MUST(list != NULL);
    for (size_t i = 0; i < COUNT; i++)
        list[i] = key;
    list[COUNT - 1] = origin;
    passkey_assertion_call call;
    memset(&call, 0, sizeof call);
    call.party = (passkey_party){ copy("abc", 3), list, COUNT, 0, NULL, 0 };
    call.has_session = call.has_credential = true;
    call.session.challenge = copy(challenge, 32);
    call.credential = (passkey_credential){ .id = id, .user = id, .key = { PASSKEY_EDDSA, key, { NULL, 0 } } };
    call.response = (passkey_assertion_response){ id, true, id, origin, id, client_data };
    MUST(assertion(&call) == PASSKEY_LIMIT_ORIGIN); /* the key's bytes are no text */
    for (size_t i = 0; i < COUNT - 1; i++)
        list[i] = call.party.rp_id;
    MUST(assertion(&call) == PASSKEY_BAD_AUTHENTICATOR_DATA);
    call.response.auth_data = good;
    MUST(assertion(&call) == PASSKEY_BAD_SIGNATURE);
    call.session.allow = list;
    call.session.allow_count = COUNT;
    MUST(assertion(&call) == PASSKEY_CREDENTIAL_NOT_ALLOWED);
    list[COUNT - 1] = id;
    MUST(assertion(&call) == PASSKEY_WRONG_ORIGIN); /* the list is that of the origins too */
    MUST(!passkey_is_canonical(origin.data, origin.size));
    drop(call.party.rp_id), drop(call.session.challenge), drop(origin), drop(id), drop(client_data), drop(good), drop(key);
    free(list);
    calls++;
}

/* an attestation object that asks for a signature, with rooms of each size */
static void rooms(void)
{
    static const char front[] = "\xa3\x63" "fmt\x66packed\x67" "attStmt\xa2\x63" "alg\x26\x63sig\x43\x01\x02\x03\x68"
                                "authData\x58\x84";
    uint8_t object[256];
    memset(object, 0, sizeof object);
    memcpy(object, front, sizeof front - 1);
    uint8_t *data = object + sizeof front - 1;
    data[32] = 0x41;
    data[54] = 1;
    static const uint8_t key_front[] = { 0xa5, 1, 2, 3, 0x26, 0x20, 1, 0x21, 0x58, 0x20 };
    memcpy(data + 55, "\0", 1);
    memcpy(data + 55 + 1, key_front, sizeof key_front);
    data[56 + 10 + 32] = 0x22, data[56 + 11 + 32] = 0x58, data[56 + 12 + 32] = 0x20;
    size_t data_size = 56 + 10 + 32 + 3 + 32;
    data[-1] = (uint8_t)data_size;
    passkey_signature_call call;
    memset(&call, 0, sizeof call);
    call.is_registration = true;
    call.registration = (passkey_registration_response){ copy(object, sizeof front - 1 + data_size), copy("{}", 2) };
    call.assertion.auth_data.data = call.assertion.signature.data = call.key.x.data = nowhere.data;
    for (size_t size = 0; size < 200; size++)
        asks(&call, size, data_size + 32, 3);
    drop(call.registration.object), drop(call.registration.client_data);

    memset(&call, 0, sizeof call);
    call.registration = (passkey_registration_response){ nowhere, nowhere };
    call.assertion.auth_data = random_bytes(37), call.assertion.signature = random_bytes(3);
    call.assertion.client_data = random_bytes(50);
    call.key = (passkey_key){ PASSKEY_ES256, random_bytes(32), random_bytes(32) };
    for (size_t size = 0; size < 100; size++)
        asks(&call, size, 37 + 32, 3);
    passkey_signature_out out;
    call.key.y.size = 31;
    MUST(passkey_signature_asked(&call, NULL, 0, NULL, 0, &out) == PASSKEY_LIMIT_KEY_Y);
    drop(call.key.x), call.key.x = random_bytes(33);
    MUST(passkey_signature_asked(&call, NULL, 0, NULL, 0, &out) == PASSKEY_LIMIT_KEY_X);
    call.key.algorithm = PASSKEY_RS256;
    MUST(passkey_signature_asked(&call, NULL, 0, NULL, 0, &out) == PASSKEY_LIMIT_KEY_X);
    call.key.algorithm = -258;
    MUST(passkey_signature_asked(&call, NULL, 0, NULL, 0, &out) == PASSKEY_LIMIT_KEY_ALGORITHM);
    drop(call.assertion.auth_data), drop(call.assertion.signature), drop(call.assertion.client_data);
    drop(call.key.x), drop(call.key.y);
    calls += 4;
}

/* keys as COSE_Key bytes: into a room of each size, back from each front of them, and with a byte changed */
static void cose_keys(void)
{
    passkey_bytes x = filled(7, 32), n = filled(0xc1, 512), e = filled(3, 4), none = { NULL, 0 };
    const struct {
        passkey_key key;
        size_t size;
    } keys[] = { { { PASSKEY_ES256, x, x }, 77 }, { { PASSKEY_EDDSA, x, nowhere }, 42 }, { { PASSKEY_RS256, n, e }, 529 } };
    for (size_t i = 0; i < sizeof keys / sizeof *keys; i++) {
        passkey_bytes bytes = none;
        for (size_t size = 0; size <= keys[i].size; size++, calls += 2) {
            drop(bytes);
            bytes = random_bytes(size);
            MUST(passkey_key_to_cose(&keys[i].key, (uint8_t *)bytes.data, size) == (size == keys[i].size ? size : 0));
            passkey_bytes front = random_bytes(size);
            if (size == keys[i].size)
                memcpy((uint8_t *)front.data, bytes.data, size);
            passkey_key_out *out = malloc(sizeof *out);
            MUST(out != NULL && passkey_key_from_cose(front.data, size, out) == (size == keys[i].size));
            if (size == keys[i].size)
                MUST(out->algorithm == keys[i].key.algorithm && out->x_size == keys[i].key.x.size &&
                     memcmp(out->x, keys[i].key.x.data, out->x_size) == 0 &&
                     out->y_size == (i == 1 ? 0 : keys[i].key.y.size) &&
                     memcmp(out->y, i == 1 ? x.data : keys[i].key.y.data, out->y_size) == 0);
            free(out), drop(front);
        }
        for (size_t at = 0; at < 10; at++, calls++) {
            passkey_key_out out;
            ((uint8_t *)bytes.data)[at] ^= 0x10;
            MUST(!passkey_key_from_cose(bytes.data, bytes.size, &out));
            ((uint8_t *)bytes.data)[at] ^= 0x10;
        }
        drop(bytes);
    }
    const passkey_key wrong[] = { { -6, x, x }, { PASSKEY_ES256, x, n }, { PASSKEY_EDDSA, n, x }, { PASSKEY_RS256, x, e } };
    for (size_t i = 0; i < sizeof wrong / sizeof *wrong; i++, calls++) {
        uint8_t room[529];
        MUST(passkey_key_to_cose(&wrong[i], room, sizeof room) == 0);
    }
    MUST(!passkey_key_from_cose(NULL, 0, &(passkey_key_out){ 0 }));
    drop(x), drop(n), drop(e);
}

/* texts in rooms of each size */
static void texts(void)
{
    for (uint32_t answer = 0; answer < 130; answer++)
        for (size_t size = 0; size <= 128; size++, calls++) {
            passkey_bytes room = filled(0x5a, size);
            size_t written = passkey_refusal_text(answer & 1, answer, (uint8_t *)room.data, size);
            MUST(written <= size);
            for (size_t i = written; i < size; i++)
                MUST(room.data[i] == 0x5a);
            drop(room);
        }
}

static void random_responses(unsigned count)
{
    for (unsigned i = 0; i < count; i++) {
        passkey_bytes object = random_bytes(draw(300)), client_data = random_bytes(draw(300)), key = random_bytes(32);
        passkey_assertion_call call;
        memset(&call, 0, sizeof call);
        call.has_session = call.has_credential = call.has_verified = true;
        call.session.challenge = key;
        call.credential.key = call.verified.key = (passkey_key){ PASSKEY_ES256, key, key };
        call.response.has_user = true;
        call.response.auth_data = object;
        call.response.client_data = client_data;
        MUST(assertion(&call) != PASSKEY_ACCEPTED);
        passkey_registration_call enrol;
        memset(&enrol, 0, sizeof enrol);
        enrol.has_session = true;
        enrol.session.challenge = key;
        enrol.response = (passkey_registration_response){ object, client_data };
        MUST(registration(&enrol) != PASSKEY_ACCEPTED);
        (void)passkey_is_canonical(object.data, object.size);
        drop(object), drop(client_data), drop(key);
    }
}

int main(void)
{
    nothing_at_all();
    flags_clear();
    limits();
    verified_keys();
    large();
    rooms();
    cose_keys();
    texts();
    random_responses(2000);
    printf("hostile: %u calls\n", calls);
    return 0;
}
