/* One table of calls of passkey.h, whose answers and whatever is told have to be the same on every machine: a line for each
 * group with how many calls it made, how often each number was answered, and a digest of all answers and all that was told.
 * table_data.py makes its responses; the random ones come from a seed. table_host.h says how a line is printed. */
#include "passkey.h"
#include "table_data.h"
#include "table_host.h"

enum { SIGN_IN = 1, REGISTRATION = 2, CHANGE = 3, MEMBERS = 16, ROOM = 2304, CALLS = 100000, SEED = 64738 };
enum { OPEN = 1, SESSION = 2, UV = 4, VERIFIED = 1024, LEVEL3 = 2048, FRAMED = 4096 }; /* flags of both kinds */
enum { ASKED = 8192, CONDITIONAL = 16384 }; /* of a registration */

/* ---- what is told, and its digest (FNV-1a of 64 bits) */

static uint64_t digest;
static uint32_t calls, answered[128], touched;

static void fold(const void *bytes, size_t size)
{
    for (size_t i = 0; i < size; i++)
        digest = (digest ^ ((const uint8_t *)bytes)[i]) * 0x100000001b3u;
}

static void fold_number(uint64_t number)
{
    for (int i = 0; i < 8; i++, number >>= 8)
        fold(&(uint8_t){ (uint8_t)number }, 1);
}

static void fold_answer(uint32_t answer)
{
    calls++;
    answered[answer & 127]++;
    fold_number(answer);
}

static void fold_key(const passkey_key_out *key)
{
    fold_number((uint32_t)key->algorithm);
    fold_number(key->x_size), fold(key->x, key->x_size);
    fold_number(key->y_size), fold(key->y, key->y_size);
}

/* Where a call answers no, nothing that it tells has changed. */
static void is_untouched(const void *told, size_t size)
{
    for (size_t i = 0; i < size; i++)
        touched += ((const uint8_t *)told)[i] != 0x5a;
}

/* ---- a call as a record has it */

typedef struct {
    unsigned kind, flags;
    int32_t algorithm;
    uint32_t count;
    passkey_bytes members[MEMBERS];
} record;

static unsigned number_at(const uint8_t *at)
{
    return at[0] | (unsigned)at[1] << 8;
}

/* Reads the record at a place, and tells where the next begins. */
static const uint8_t *read_record(const uint8_t *at, record *made)
{
    made->kind = at[0];
    made->flags = number_at(at + 1);
    made->algorithm = (int32_t)(number_at(at + 3) | (uint32_t)number_at(at + 5) << 16);
    made->count = number_at(at + 7) | (uint32_t)number_at(at + 9) << 16;
    at += 11;
    for (int i = 0; i < (made->kind == SIGN_IN ? 16 : 11); i++) {
        made->members[i] = (passkey_bytes){ at + 2, number_at(at) };
        at += 2 + made->members[i].size;
    }
    return at;
}

static passkey_key key_of(const record *from)
{
    const passkey_bytes *x = &from->members[from->kind == SIGN_IN ? 7 : 5];
    return (passkey_key){ from->algorithm, x[0], x[1] };
}

static bool has(const record *from, unsigned flag)
{
    return (from->flags & flag) != 0;
}

static uint8_t profile_of(const record *from)
{
    return has(from, LEVEL3) ? 2 : has(from, OPEN);
}

/* Where its pages are framed, it is by each other. */
static passkey_party party_of(const record *from)
{
    const passkey_bytes *m = from->members;
    return (passkey_party){ m[0], &m[1], 1, profile_of(from), &m[1], has(from, FRAMED) };
}

static passkey_assertion_response assertion_response(const record *from)
{
    const passkey_bytes *m = from->members;
    return (passkey_assertion_response){ m[9], has(from, 512), m[10], m[11], m[12], m[13] };
}

/* The answer to a sign-in, with what the host verified or, without a key, nothing. */
static uint32_t sign_in(const record *from, const passkey_verified *verified)
{
    const passkey_bytes *m = from->members;
    passkey_assertion_call call = {
        .party = party_of(from),
        .has_session = has(from, SESSION),
        .session = { m[2], has(from, UV), has(from, 8), m[3], &m[4], has(from, 16) },
        .has_credential = has(from, 32),
        .credential = { m[5], m[6], key_of(from), from->count, has(from, 64), has(from, 128), has(from, 256) },
        .response = assertion_response(from),
        .has_verified = verified != NULL,
    };
    passkey_assertion_out out;
    memset(&out, 0x5a, sizeof out);
    if (verified != NULL)
        call.verified = *verified;
    uint32_t answer = passkey_assertion(&call, &out);
    fold_answer(answer);
    if (answer != PASSKEY_ACCEPTED) {
        is_untouched(&out, sizeof out);
        return answer;
    }
    fold_number(out.sign_count), fold_number(out.eligible), fold_number(out.backed_up), fold_number(out.user_verified);
    fold_number(out.flags), fold_number(out.extensions_size);
    return answer;
}

static uint32_t registration(const record *from, const passkey_verified *verified)
{
    static passkey_registration_out out;
    const passkey_bytes *m = from->members;
    passkey_registration_call call = {
        .party = party_of(from),
        .accept_none = has(from, 8),
        .accept_self = has(from, 16),
        .has_session = has(from, SESSION),
        .session = { m[2], m[3], has(from, UV), has(from, 32), has(from, 64), has(from, 128), has(from, CONDITIONAL),
                     has(from, ASKED) },
        .response = { m[7], m[8] },
        .is_free = has(from, 256),
        .raw_id = m[4],
        .is_full = has(from, 512),
        .has_verified = verified != NULL,
    };
    if (verified != NULL)
        call.verified = *verified;
    memset(&out, 0x5a, sizeof out);
    uint32_t answer = passkey_registration(&call, &out);
    fold_answer(answer);
    if (answer != PASSKEY_ACCEPTED) {
        is_untouched(&out, sizeof out);
        return answer;
    }
    fold_number(out.id_size), fold(out.id, out.id_size), fold_key(&out.key);
    fold_number(out.sign_count), fold_number(out.eligible), fold_number(out.backed_up), fold_number(out.user_verified);
    fold_number(out.flags), fold(out.aaguid, 16), fold_number(out.format), fold_number(out.extensions_size);
    return answer;
}

static uint32_t judged(const record *from, const passkey_verified *verified)
{
    return from->kind == SIGN_IN ? sign_in(from, verified) : registration(from, verified);
}

/* What is to be verified, in rooms of these sizes; false where nothing is. */
static bool asked(const record *from, size_t message_room, size_t signature_room, passkey_verified *verified)
{
    static uint8_t message[ROOM + 32], signature[ROOM];
    static passkey_signature_out out;
    const passkey_bytes *m = from->members;
    passkey_signature_call call = { .is_registration = from->kind == REGISTRATION, .profile = profile_of(from), .attestation = has(from, ASKED) };
    if (from->kind == REGISTRATION)
        call.registration = (passkey_registration_response){ m[7], m[8] };
    else
        call.assertion = assertion_response(from), call.key = key_of(from);
    memset(message, 0x5a, sizeof message), memset(signature, 0x5a, sizeof signature), memset(&out, 0x5a, sizeof out);
    uint32_t answer = passkey_signature_asked(&call, message, message_room, signature, signature_room, &out);
    fold_answer(answer);
    if (answer != PASSKEY_ACCEPTED) {
        is_untouched(message, sizeof message), is_untouched(signature, sizeof signature), is_untouched(&out, sizeof out);
        return false;
    }
    fold_number(out.is_asked);
    if (!out.is_asked)
        return false;
    fold_key(&out.key);
    fold_number(out.message_size), fold(message, out.message_size);
    fold_number(out.signature_size), fold(signature, out.signature_size);
    *verified = (passkey_verified){ { out.key.algorithm, { out.key.x, out.key.x_size }, { out.key.y, out.key.y_size } },
                                    { message, out.message_size }, { signature, out.signature_size } };
    return true;
}

/* ---- responses that are malformed, byte by byte */

static void judge_malformed(void)
{
    static uint8_t changed[ROOM];
    record base = { 0 };
    for (const uint8_t *at = malformed; *at != 0;) {
        if (*at != CHANGE) {
            at = read_record(at, &base);
            continue;
        }
        passkey_bytes *member = &base.members[at[1]], kept = *member;
        const unsigned how = at[2];
        at += 3;
        for (size_t i = 0; i < kept.size; i++) {
            memcpy(changed, kept.data, kept.size);
            changed[i] ^= how == 1 ? 0x01 : how == 2 ? 0x80 : 0;
            *member = (passkey_bytes){ changed, how == 3 ? i : kept.size };
            const passkey_bytes *last = &base.members[base.kind == SIGN_IN ? 14 : 9];
            const passkey_verified verified = { key_of(&base), last[0], last[1] };
            judged(&base, &verified);
        }
        *member = kept;
    }
}

/* ---- what browsers made: without a verified signature, with the one that is asked, and with a byte of it changed */

static void judge_made(const uint8_t *at)
{
    static uint8_t changed[ROOM + 32];
    record made;
    passkey_verified verified;
    while (*at != 0) {
        at = read_record(at, &made);
        judged(&made, NULL);
        if (!asked(&made, ROOM, ROOM, &verified))
            continue;
        judged(&made, &verified);
        passkey_bytes *const members[] = { &verified.key.x, &verified.message, &verified.signature };
        for (int i = 0; i < 3; i++) {
            const passkey_bytes kept = *members[i];
            memcpy(changed, kept.data, kept.size);
            changed[kept.size - 1] ^= 2;
            members[i]->data = changed;
            judged(&made, &verified);
            *members[i] = kept;
        }
    }
}

#include "table_more.h"

/* ---- a line for each group */

static void say_number(uint64_t number, unsigned base, int digits)
{
    char text[24];
    int at = sizeof text;
    text[--at] = 0;
    do {
        text[--at] = "0123456789abcdef"[number % base];
        number /= base;
    } while (number != 0 || (int)sizeof text - 1 - at < digits);
    say(text + at);
}

static void begin_group(void)
{
    digest = 0xcbf29ce484222325u;
    calls = touched = 0;
    memset(answered, 0, sizeof answered);
}

static void end_group(const char *name)
{
    say(name), say(": "), say_number(calls, 10, 1), say(" calls, answers");
    for (uint32_t answer = 0; answer < 128; answer++)
        if (answered[answer] != 0)
            say(" "), say_number(answer, 10, 1), say("*"), say_number(answered[answer], 10, 1);
    if (touched != 0)
        say(", TOUCHED "), say_number(touched, 10, 1);
    say(", digest "), say_number(digest, 16, 16), say("\n");
}

static void run_table(void)
{
    begin_group(), judge_malformed(), end_group("malformed");
    begin_group(), judge_made(chromium), end_group("Chromium");
    begin_group(), judge_made(firefox), end_group("Firefox");
    begin_group(), judge_made(rsa), end_group("RSA keys");
    begin_group(), judge_limits(), end_group("limits");
    begin_group(), judge_keys(), end_group("keys and texts");
    begin_group(), judge_random(), end_group("random, seed 64738");
}
