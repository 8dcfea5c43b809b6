/* passkey.c: the library of passkey.h as one file of C11, for machines that have no build of their own. It holds the
 * WebAssembly module passkey.wasm as C, made by wasm2c of WABT (Apache-2.0), and what stands around it. Compile it with the
 * host and nothing else; passkey.h says what the calls do.
 *
 * Each call runs the module from its beginning in memory of its own: what is lent is copied in, what is told is copied out.
 * So calls may be made from several threads at once. Where the memory can't be had the answer is PASSKEY_NO_MEMORY, or
 * false, or 0.
 *
 * PASSKEY_STATIC_MEMORY, a number of bytes, makes that memory a static array of this size, a multiple of 65,536; no memory
 * is taken from malloc then, and calls may not be made from several threads. */
#include "passkey.h"

#include <float.h>
#include <limits.h>
#include <math.h>
#include <stdlib.h>
#include <string.h>

#if CHAR_BIT != 8
#error "passkey.c needs bytes of 8 bits"
#endif

#include "wasm.h"
#include "module.inc"


/* ---- a call: its memory, and a cursor that lays structs out as the module reads them, with pointers of 64 bits */

typedef struct {
    instance_t module;
    bool has_failed; /* memory could not be had */
    u64 cursor;
} run;

static bool begin(run *run)
{
    memset(run, 0, sizeof *run);
    return instantiate(&run->module);
}

static void end(run *run)
{
#ifndef PASSKEY_STATIC_MEMORY
    free(run->module.memory.data);
#else
    (void)run;
#endif
}

/* Room for so many bytes: where it begins. Where there is none, 0. */
static u64 room(run *run, u64 size)
{
    u64 address = size < UINT32_MAX ? w2c_malloc(&run->module, size) : 0;
    run->has_failed = run->has_failed || address == 0;
    return address;
}

/* Bytes are copied in: where they begin. */
static u64 copied(run *run, const void *from, size_t size)
{
    u64 address = room(run, size);
    if (address != 0 && size != 0)
        memcpy(at(&run->module.memory, address, size), from, size);
    return address;
}

/* Bytes are copied out. */
static void told(const run *run, u64 address, void *to, size_t size)
{
    if (size != 0)
        memcpy(to, at(&run->module.memory, address, size), size);
}

static void put(run *run, u64 value, u32 size)
{
    run->cursor = (run->cursor + size - 1) / size * size;
    if (!run->has_failed)
        store(&run->module.memory, run->cursor, value, size);
    run->cursor += size;
}

static u64 get(run *run, u32 size)
{
    run->cursor = (run->cursor + size - 1) / size * size + size;
    return load(&run->module.memory, run->cursor - size, size);
}

/* A struct whose greatest alignment is 8 begins or ends here. */
static void align(run *run)
{
    run->cursor = (run->cursor + 7) / 8 * 8;
}

static void put_bytes(run *run, passkey_bytes bytes)
{
    put(run, copied(run, bytes.data, bytes.size), 8);
    put(run, bytes.size, 8);
}

/* Bytes that are read only where they have at most so many: of others the size alone is handed in. */
static void put_short_bytes(run *run, passkey_bytes bytes, size_t most)
{
    put(run, copied(run, bytes.data, bytes.size <= most ? bytes.size : 0), 8);
    put(run, bytes.size, 8);
}

static void put_list(run *run, const passkey_bytes *list, size_t count)
{
    u64 address = room(run, count < UINT32_MAX / 16 ? 16 * (u64)count : UINT32_MAX), after = run->cursor;
    run->cursor = address;
    for (size_t i = 0; i < count && !run->has_failed; i++)
        put_bytes(run, list[i]);
    run->cursor = after;
    put(run, address, 8);
    put(run, count, 8);
}

static void put_key(run *run, const passkey_key *key)
{
    const bool has_y = key->algorithm == PASSKEY_ES256 || key->algorithm == PASSKEY_RS256;
    align(run);
    put(run, (u32)key->algorithm, 4);
    put_short_bytes(run, key->x, has_y || key->algorithm == PASSKEY_EDDSA ? 512 : 0);
    put_short_bytes(run, key->y, has_y ? 32 : 0);
}

static void put_party(run *run, const passkey_party *party)
{
    put_bytes(run, party->rp_id);
    put_list(run, party->origins, party->origin_count);
    put(run, party->profile, 1);
    put_list(run, party->top_origins, party->top_origin_count);
}

static void put_verified(run *run, uint8_t has_verified, const passkey_verified *verified)
{
    put(run, has_verified, 1);
    if (has_verified != 0) {
        put_key(run, &verified->key);
        put_bytes(run, verified->message);
        put_bytes(run, verified->signature);
    }
}

static void put_assertion_response(run *run, const passkey_assertion_response *response)
{
    align(run);
    put_bytes(run, response->credential);
    put(run, response->has_user, 1);
    put_bytes(run, response->has_user != 0 ? response->user : (passkey_bytes){ NULL, 0 });
    put_bytes(run, response->auth_data);
    put_bytes(run, response->signature);
    put_bytes(run, response->client_data);
}

static void put_registration_response(run *run, const passkey_registration_response *response)
{
    align(run);
    put_bytes(run, response->object);
    put_bytes(run, response->client_data);
}

static void get_key(run *run, passkey_key_out *key)
{
    align(run);
    key->algorithm = (s32)(u32)get(run, 4);
    key->x_size = (size_t)get(run, 8);
    told(run, run->cursor, key->x, sizeof key->x);
    run->cursor += sizeof key->x;
    key->y_size = (size_t)get(run, 8);
    told(run, run->cursor, key->y, sizeof key->y);
    run->cursor += sizeof key->y;
}

/* Where the module's structs have a part whose place does not depend on the parts before it, and their sizes. */
enum {
    SIGN_IN_SESSION = 64, SIGN_IN_CREDENTIAL = 120, SIGN_IN_RESPONSE = 208, SIGN_IN_VERIFIED = 296, SIGN_IN_SIZE = 376,
    SESSION = 64, RESPONSE = 104, RAW_ID = 136, VERIFIED = 161, REGISTRATION_SIZE = 240,
    ASKED_REGISTRATION = 8, ASKED_ASSERTION = 40, ASKED_KEY = 128, ASKED_ATTESTATION = 168, ASKED_SIZE = 176,
    SIGN_IN_OUT_SIZE = 16, REGISTRATION_OUT_SIZE = 1640, ASKED_OUT_SIZE = 592, KEY_OUT_SIZE = 568
};

/* A struct of so many bytes, all 0, at which the cursor is set. */
static u64 opened(run *run, u64 size)
{
    u64 address = room(run, size);
    if (address != 0)
        memset(at(&run->module.memory, address, size), 0, (size_t)size);
    return run->cursor = address;
}

/* ---- the calls */

uint32_t passkey_assertion(const passkey_assertion_call *call, passkey_assertion_out *out)
{
    run run;
    uint32_t answer = PASSKEY_NO_MEMORY;
    if (begin(&run)) {
        u64 from = opened(&run, SIGN_IN_SIZE), to = room(&run, SIGN_IN_OUT_SIZE);
        put_party(&run, &call->party);
        put(&run, call->has_session, 1);
        run.cursor = from + SIGN_IN_SESSION;
        if (call->has_session != 0) {
            const passkey_sign_in_session *session = &call->session;
            put_short_bytes(&run, session->challenge, 32);
            put(&run, session->user_verification, 1);
            put(&run, session->has_user, 1);
            put_bytes(&run, session->has_user != 0 ? session->user : (passkey_bytes){ NULL, 0 });
            put_list(&run, session->allow, session->allow_count);
        }
        run.cursor = from + SIGN_IN_CREDENTIAL;
        put(&run, call->has_credential, 1);
        if (call->has_credential != 0) {
            const passkey_credential *credential = &call->credential;
            put_bytes(&run, credential->id);
            put_bytes(&run, credential->user);
            put_key(&run, &credential->key);
            put(&run, credential->sign_count, 4);
            put(&run, credential->is_eligibility_known, 1);
            put(&run, credential->eligible, 1);
            put(&run, credential->retired, 1);
        }
        run.cursor = from + SIGN_IN_RESPONSE;
        put_assertion_response(&run, &call->response);
        run.cursor = from + SIGN_IN_VERIFIED;
        put_verified(&run, call->has_verified, &call->verified);
        if (!run.has_failed)
            answer = w2c_passkey_assertion(&run.module, from, to);
        if (answer == PASSKEY_ACCEPTED) {
            run.cursor = to;
            out->sign_count = (u32)get(&run, 4);
            out->eligible = get(&run, 1) != 0;
            out->backed_up = get(&run, 1) != 0;
            out->user_verified = get(&run, 1) != 0;
            out->flags = (u8)get(&run, 1);
            out->extensions_size = (size_t)get(&run, 8);
        }
    }
    end(&run);
    return answer;
}

uint32_t passkey_registration(const passkey_registration_call *call, passkey_registration_out *out)
{
    run run;
    uint32_t answer = PASSKEY_NO_MEMORY;
    if (begin(&run)) {
        u64 from = opened(&run, REGISTRATION_SIZE), to = room(&run, REGISTRATION_OUT_SIZE);
        put_party(&run, &call->party);
        put(&run, call->accept_none, 1);
        put(&run, call->accept_self, 1);
        put(&run, call->has_session, 1);
        run.cursor = from + SESSION;
        if (call->has_session != 0) {
            const passkey_registration_session *session = &call->session;
            put_short_bytes(&run, session->challenge, 32);
            put_bytes(&run, session->user);
            put(&run, session->user_verification, 1);
            put(&run, session->offers_es256, 1);
            put(&run, session->offers_eddsa, 1);
            put(&run, session->offers_rs256, 1);
            put(&run, session->conditional, 1);
            put(&run, session->attestation, 1);
        }
        run.cursor = from + RESPONSE;
        put_registration_response(&run, &call->response);
        run.cursor = from + RAW_ID;
        put(&run, call->is_free, 1);
        put_bytes(&run, call->raw_id);
        put(&run, call->is_full, 1);
        run.cursor = from + VERIFIED;
        put_verified(&run, call->has_verified, &call->verified);
        if (!run.has_failed)
            answer = w2c_passkey_registration(&run.module, from, to);
        if (answer == PASSKEY_ACCEPTED) {
            run.cursor = to;
            out->id_size = (size_t)get(&run, 8);
            told(&run, run.cursor, out->id, sizeof out->id);
            run.cursor += sizeof out->id;
            get_key(&run, &out->key);
            out->sign_count = (u32)get(&run, 4);
            out->eligible = get(&run, 1) != 0;
            out->backed_up = get(&run, 1) != 0;
            out->user_verified = get(&run, 1) != 0;
            out->flags = (u8)get(&run, 1);
            told(&run, run.cursor, out->aaguid, sizeof out->aaguid);
            run.cursor += sizeof out->aaguid;
            out->format = (u32)get(&run, 4);
            out->extensions_size = (size_t)get(&run, 8);
        }
    }
    end(&run);
    return answer;
}

uint32_t passkey_signature_asked(const passkey_signature_call *call, uint8_t *message, size_t message_room,
                                 uint8_t *signature, size_t signature_room, passkey_signature_out *out)
{
    run run;
    uint32_t answer = PASSKEY_NO_MEMORY;
    if (begin(&run)) {
        u64 from = opened(&run, ASKED_SIZE), to = room(&run, ASKED_OUT_SIZE);
        const bool is_registration = call->is_registration != 0;
        /* rooms of these sizes are always enough */
        u64 message_most = 32 + (u64)(is_registration ? call->registration.object.size : call->assertion.auth_data.size);
        u64 signature_most = is_registration ? call->registration.object.size : call->assertion.signature.size;
        message_most = message_room < message_most ? message_room : message_most;
        signature_most = signature_room < signature_most ? signature_room : signature_most;
        u64 message_at = room(&run, message_most), signature_at = room(&run, signature_most);
        put(&run, call->is_registration, 1);
        put(&run, call->profile, 1);
        run.cursor = from + (is_registration ? ASKED_REGISTRATION : ASKED_ASSERTION);
        if (is_registration) {
            put_registration_response(&run, &call->registration);
            run.cursor = from + ASKED_ATTESTATION;
            put(&run, call->attestation, 1);
        } else {
            put_assertion_response(&run, &call->assertion);
            run.cursor = from + ASKED_KEY;
            put_key(&run, &call->key);
        }
        if (!run.has_failed)
            answer = w2c_passkey_signature_asked(&run.module, from, message_at, message_most, signature_at, signature_most, to);
        if (answer == PASSKEY_ACCEPTED) {
            run.cursor = to;
            out->is_asked = get(&run, 1) != 0;
            if (out->is_asked) {
                get_key(&run, &out->key);
                out->message_size = (size_t)get(&run, 8);
                out->signature_size = (size_t)get(&run, 8);
                told(&run, message_at, message, out->message_size);
                told(&run, signature_at, signature, out->signature_size);
            }
        }
    }
    end(&run);
    return answer;
}

bool passkey_challenge(uint64_t session, const uint8_t *words, size_t words_size, uint8_t *challenge, size_t challenge_size)
{
    run run;
    bool is_made = false;
    if (words_size == 24 && challenge_size == 32 && begin(&run)) {
        u64 from = copied(&run, words, words_size), to = room(&run, challenge_size);
        is_made = !run.has_failed && w2c_passkey_challenge(&run.module, session, from, words_size, to, challenge_size) != 0;
        if (is_made)
            told(&run, to, challenge, challenge_size);
        end(&run);
    }
    return is_made;
}

bool passkey_challenge_text(const uint8_t *challenge, size_t challenge_size, uint8_t *text, size_t text_size)
{
    run run;
    bool is_made = false;
    if (challenge_size == 32 && text_size == 43 && begin(&run)) {
        u64 from = copied(&run, challenge, challenge_size), to = room(&run, text_size);
        is_made = !run.has_failed && w2c_passkey_challenge_text(&run.module, from, challenge_size, to, text_size) != 0;
        if (is_made)
            told(&run, to, text, text_size);
        end(&run);
    }
    return is_made;
}

bool passkey_is_canonical(const uint8_t *bytes, size_t size)
{
    run run;
    bool is_canonical = false;
    if (begin(&run)) {
        u64 from = copied(&run, bytes, size);
        is_canonical = !run.has_failed && w2c_passkey_is_canonical(&run.module, from, size) != 0;
    }
    end(&run);
    return is_canonical;
}

bool passkey_key_from_cose(const uint8_t *bytes, size_t size, passkey_key_out *out)
{
    run run;
    bool is_key = false;
    if (begin(&run)) {
        u64 from = copied(&run, bytes, size), to = room(&run, KEY_OUT_SIZE);
        is_key = !run.has_failed && w2c_passkey_key_from_cose(&run.module, from, size, to) != 0;
        run.cursor = to;
        if (is_key)
            get_key(&run, out);
    }
    end(&run);
    return is_key;
}

size_t passkey_key_to_cose(const passkey_key *key, uint8_t *bytes, size_t size)
{
    run run;
    u64 written = 0;
    if (begin(&run)) {
        u64 most = size < 1024 ? size : 1024, from = opened(&run, 40), to;
        put_key(&run, key);
        to = room(&run, most);
        if (!run.has_failed)
            written = w2c_passkey_key_to_cose(&run.module, from, to, most);
        told(&run, to, bytes, (size_t)written);
    }
    end(&run);
    return (size_t)written;
}

size_t passkey_refusal_text(uint32_t is_registration, uint32_t answer, uint8_t *text, size_t size)
{
    run run;
    u64 written = 0;
    if (begin(&run)) {
        u64 most = size < 1024 ? size : 1024, to = room(&run, most);
        if (!run.has_failed)
            written = w2c_passkey_refusal_text(&run.module, is_registration, answer, to, most);
        told(&run, to, text, (size_t)written);
    }
    end(&run);
    return (size_t)written;
}

uint32_t passkey_abi_version(void)
{
    instance_t none = { 0 };
    return w2c_passkey_abi_version(&none);
}

uint32_t passkey_version(void)
{
    instance_t none = { 0 };
    return w2c_passkey_version(&none);
}
