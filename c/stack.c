/* How much of its thread's stack each call of passkey.h takes: stack [BYTES]. Each call is made in a thread whose stack has so
 * many bytes (65,536, or the least that the system has), of responses whose client data nest objects and arrays, and of CBOR that
 * does; below the stack lie pages that can't be written. Prints the most that each call took, and fails where one took more than
 * PASSKEY_STACK_BYTES, or PASSKEY_OTHER_STACK_BYTES, or ended the process. With PORTABLE, and PASSKEY_STATIC_MEMORY, passkey.c is
 * a part of this file, and the same is asked of the module's own stack. */
#define _GNU_SOURCE
#ifdef PORTABLE
#include "passkey.c"
#endif
#include "made.h"

#include <pthread.h>
#include <sys/mman.h>
#include <sys/wait.h>
#include <unistd.h>

enum { GUARD = 65536, PAINT = 0x5a, OWN = 1024, DEEPEST = 5000 };

/* ---- the responses */

static char client[2][6 * DEEPEST + 400];
static uint8_t object[4096], data[64], cose[600], nested[2 * DEEPEST + 1];
static passkey_assertion_call sign_in;
static passkey_registration_call enrol;
static passkey_bytes origin;

/* Client data with a member of values in one another, and at the end what the array or object opens with. */
static passkey_bytes client_nested(char *room, const char *type, size_t depth, bool are_objects)
{
    const char *open = are_objects ? "{\"b\":" : "[";
    size_t size = client_data(room, type, origin, 0) - 1, step = strlen(open);
    memcpy(room + size, ",\"a\":", 5), size += 5;
    for (size_t i = 0; i < depth; i++, size += step)
        memcpy(room + size, open, step);
    room[size++] = '1';
    memset(room + size, are_objects ? '}' : ']', depth), size += depth;
    room[size++] = '}';
    return lent(room, size);
}

/* What counts as verified, in rooms of its own: that of made.h is lent until the next call. */
static void kept(passkey_verified *verified, bool is_asked)
{
    static uint8_t message[4096], signature[64], x[32], y[32];
    if (!is_asked)
        return;
    MUST(verified->message.size <= sizeof message && verified->signature.size <= sizeof signature);
    memcpy(message, verified->message.data, verified->message.size), verified->message.data = message;
    memcpy(signature, verified->signature.data, verified->signature.size), verified->signature.data = signature;
    memcpy(x, verified->key.x.data, 32), verified->key.x.data = x;
    memcpy(y, verified->key.y.data, 32), verified->key.y.data = y;
}

static void respond(size_t depth, bool are_objects, uint8_t profile, bool is_packed)
{
    static const uint8_t id[1023] = "id", extensions[] = { 0xa1, 0x61, 'a', 0x81, 0xa1, 0x61, 'b', 0x81, 1 };
    const bool is_strict = profile == PASSKEY_PROFILE_STRICT;
    const passkey_bytes outputs = is_strict ? lent(NULL, 0) : lent(extensions, sizeof extensions);
    const passkey_bytes bytes = lent(id, is_strict ? 64 : 1023);
    const uint8_t flags = (uint8_t)(PASSKEY_FLAG_UP | (is_strict ? 0 : PASSKEY_FLAG_ED));
    origin = lent("https://abc", 11);
    sign_in = (passkey_assertion_call){
        .party = { lent("abc", 3), &origin, 1, profile, NULL, 0 },
        .has_session = 1,
        .session = { .challenge = lent(challenge, 32) },
        .has_credential = 1,
        .credential = { .id = bytes, .user = bytes, .key = es256 },
        .response = { .credential = bytes, .has_user = 1, .user = bytes, .signature = lent("signature", 9),
                      .auth_data = lent(data, auth_data(data, flags, 7, outputs)),
                      .client_data = client_nested(client[0], "get", depth, are_objects) },
    };
    enrol = (passkey_registration_call){
        .party = sign_in.party,
        .accept_none = 1,
        .accept_self = 1,
        .has_session = 1,
        .session = { .challenge = lent(challenge, 32), .user = lent("user", 4), .offers_es256 = 1, .attestation = 1 },
        .response = { lent(object, attestation_object(object, is_packed, (uint8_t)(flags | PASSKEY_FLAG_AT), bytes, &es256, outputs)),
                      client_nested(client[1], "create", depth, are_objects) },
        .is_free = 1,
        .raw_id = bytes,
    };
    verify_registration(&enrol);
    kept(&enrol.verified, is_packed);
    verify_sign_in(&sign_in);
}

/* CBOR of arrays or maps in one another: its size. */
static passkey_bytes cbor_nested(size_t depth, bool are_maps)
{
    size_t size = 0;
    for (size_t i = 0; i < depth; i++) {
        nested[size++] = are_maps ? 0xa1 : 0x81;
        if (are_maps)
            nested[size++] = 0x60;
    }
    nested[size++] = 1;
    return lent(nested, size);
}

/* ---- the calls, each of what stands above: whether it did what it does of a response that is not nested */

static passkey_registration_out registered;
static passkey_signature_out asked;
static uint8_t message[4096], signature[4096];
static passkey_bytes canonical;

static bool assertion(void)
{
    passkey_assertion_out out;
    return passkey_assertion(&sign_in, &out) == PASSKEY_ACCEPTED;
}

static bool registration(void)
{
    return passkey_registration(&enrol, &registered) == PASSKEY_ACCEPTED;
}

static bool asked_of_sign_in(void)
{
    const passkey_signature_call call = { .assertion = sign_in.response, .key = es256 };
    return passkey_signature_asked(&call, message, sizeof message, signature, sizeof signature, &asked) == PASSKEY_ACCEPTED;
}

static bool asked_of_registration(void)
{
    const passkey_signature_call call = { .is_registration = 1, .profile = enrol.party.profile, .registration = enrol.response,
                                          .attestation = 1 };
    return passkey_signature_asked(&call, message, sizeof message, signature, sizeof signature, &asked) == PASSKEY_ACCEPTED;
}

static bool challenge_made(void)
{
    uint8_t made[32];
    return passkey_challenge(1, challenge, 24, made, sizeof made);
}

static bool challenge_text(void)
{
    uint8_t text[43];
    return passkey_challenge_text(challenge, sizeof challenge, text, sizeof text);
}

static bool is_canonical(void)
{
    return passkey_is_canonical(canonical.data, canonical.size);
}

static bool key_from_cose(void)
{
    return passkey_key_from_cose(cose, 77, &registered.key);
}

static bool key_to_cose(void)
{
    uint8_t room[600];
    return passkey_key_to_cose(&es256, room, sizeof room) == 77;
}

static bool refusal_text(void)
{
    uint8_t text[128];
    return passkey_refusal_text(1, PASSKEY_REGISTRATION_CREDENTIAL_REGISTERED, text, sizeof text) != 0;
}

static bool abi_version(void)
{
    return passkey_abi_version() == PASSKEY_ABI_VERSION;
}

static bool version(void)
{
    return passkey_version() == PASSKEY_VERSION_NUMBER;
}

static const struct {
    const char *name;
    bool (*call)(void);
} calls[] = {
    { "passkey_assertion", assertion },
    { "passkey_registration", registration },
    { "passkey_signature_asked, of a sign-in", asked_of_sign_in },
    { "passkey_signature_asked, of a registration", asked_of_registration },
    { "passkey_challenge", challenge_made },
    { "passkey_challenge_text", challenge_text },
    { "passkey_is_canonical", is_canonical },
    { "passkey_key_from_cose", key_from_cose },
    { "passkey_key_to_cose", key_to_cose },
    { "passkey_refusal_text", refusal_text },
    { "passkey_abi_version", abi_version },
    { "passkey_version", version },
};
enum { CALLS = sizeof calls / sizeof calls[0] };

/* ---- a call in a thread of its own, whose stack is painted */

typedef struct {
    size_t c, module; /* bytes of C's stack, and of the module's */
    bool is_done, has_ended;
} used;

static uint8_t *stack;
static size_t stack_size;
static used *shared; /* is shared with the child that makes the call */

/* Paints the stack below the function that calls this. */
__attribute__((noinline)) static void paint(void)
{
    volatile uint8_t *end = (uint8_t *)__builtin_frame_address(0) - OWN;
    for (volatile uint8_t *at = stack; at < end; at++)
        *at = PAINT;
}

static size_t unpainted(const uint8_t *from, const uint8_t *end)
{
    while (from < end && *from == PAINT)
        from++;
    return (size_t)(end - from);
}

static void *made(void *call)
{
    paint();
    shared->is_done = calls[*(size_t *)call].call();
    shared->c = unpainted(stack, (uint8_t *)__builtin_frame_address(0));
    return NULL;
}

#ifdef PORTABLE
/* The module's stack lies lowest in its memory, up to here. */
static size_t module_stack(void)
{
    run run;
    MUST(begin(&run));
    size_t size = (size_t)run.module.stack_pointer;
    end(&run);
    return size;
}
#endif

/* Makes a call in a process of its own: the call may end it. */
static used measured(size_t call)
{
    memset(shared, 0, sizeof *shared);
    fflush(stdout);
    pid_t child = fork();
    MUST(child >= 0);
    if (child == 0) {
        pthread_t thread;
        pthread_attr_t attributes;
        MUST(pthread_attr_init(&attributes) == 0 && pthread_attr_setstack(&attributes, stack, stack_size) == 0);
#ifdef PORTABLE
        const size_t size = module_stack();
        memset(static_memory, PAINT, size);
#endif
        MUST(pthread_create(&thread, &attributes, made, &call) == 0 && pthread_join(thread, NULL) == 0);
#ifdef PORTABLE
        shared->module = unpainted(static_memory, static_memory + size);
#endif
        shared->has_ended = true;
        _exit(0);
    }
    int status;
    MUST(waitpid(child, &status, 0) == child);
    return *shared;
}

/* The most that each call takes, over all responses. */
static used most[CALLS], flat[CALLS]; /* flat: of those that nest nothing */
static bool is_bad[CALLS];

static void greater(used *most, used took)
{
    most->c = took.c > most->c ? took.c : most->c;
    most->module = took.module > most->module ? took.module : most->module;
}

static void measure(size_t call, bool is_flat, const char *what, size_t depth)
{
    used took = measured(call);
    if (!took.has_ended && !is_bad[call])
        printf("%s: ended the process, %s nested %u deep\n", calls[call].name, what, (unsigned)depth);
    is_bad[call] = is_bad[call] || !took.has_ended;
    MUST(!is_flat || !took.has_ended || took.is_done);
    greater(&most[call], took);
    if (is_flat)
        greater(&flat[call], took);
}

int main(int count, char **words)
{
    static const size_t depths[] = { 0, 60, 126, 127, DEEPEST };
    enum { DEPTHS = sizeof depths / sizeof depths[0] };
    const long least = sysconf(_SC_THREAD_STACK_MIN);
    stack_size = count > 1 ? strtoul(words[1], NULL, 10) : least > 65536 ? (size_t)least : 65536;
    uint8_t *block = mmap(NULL, GUARD + stack_size, PROT_READ | PROT_WRITE, MAP_PRIVATE | MAP_ANONYMOUS, -1, 0);
    shared = mmap(NULL, sizeof *shared, PROT_READ | PROT_WRITE, MAP_SHARED | MAP_ANONYMOUS, -1, 0);
    MUST(block != MAP_FAILED && (void *)shared != MAP_FAILED && mprotect(block, GUARD, PROT_NONE) == 0);
    stack = block + GUARD;
    MUST(passkey_key_to_cose(&es256, cose, sizeof cose) == 77);
    for (size_t i = 0; i < DEPTHS * 12; i++) {
        size_t depth = depths[i % DEPTHS];
        bool are_objects = i / DEPTHS % 2 == 1;
        respond(depth, are_objects, (uint8_t)(i / DEPTHS / 2 % 3), i / DEPTHS / 6 == 1);
        for (size_t call = 0; call < 4; call++)
            measure(call, depth == 0, are_objects ? "objects" : "arrays", depth);
    }
    for (size_t i = 0; i < DEPTHS * 2; i++) {
        canonical = cbor_nested(depths[i % DEPTHS], i / DEPTHS == 1);
        measure(6, depths[i % DEPTHS] == 0, "CBOR", depths[i % DEPTHS]);
    }
    for (size_t call = 4; call < CALLS; call++)
        if (call != 6)
            measure(call, true, "nothing", 0);
    bool is_good = true;
    for (size_t call = 0; call < CALLS; call++) {
        const size_t bytes = call < 2 ? PASSKEY_STACK_BYTES : PASSKEY_OTHER_STACK_BYTES;
        is_bad[call] = is_bad[call] || most[call].c > bytes || most[call].module > bytes;
        is_good = is_good && !is_bad[call];
        printf("%s: %u bytes of stack, %u where nothing nests%s", calls[call].name, (unsigned)most[call].c, (unsigned)flat[call].c,
               is_bad[call] ? ", TOO MANY" : "");
#ifdef PORTABLE
        printf("; of the module's %u, %u", (unsigned)most[call].module, (unsigned)flat[call].module);
#endif
        printf("\n");
    }
    return is_good ? 0 : 1;
}
