/* hosts COUNT: how long a verdict on a sign-in takes by passkey.h, and a whole sign-in with OpenSSL's mathematics; beside
 * them libfido2's check of the same assertion, which is the rp id's hash, the flags and the signature, and no other step.
 * The device, the site and the verifier are those of c/example.c. */
#define main example_main
#include "../c/example.c"
#undef main

#include <fido.h>
#include <fido/es256.h>
#include <time.h>

static double now(void)
{
    struct timespec at;
    MUST(clock_gettime(CLOCK_PROCESS_CPUTIME_ID, &at) == 0);
    return (double)at.tv_sec * 1e6 + (double)at.tv_nsec / 1e3;
}

static int by_size(const void *left, const void *right)
{
    double first = *(const double *)left, second = *(const double *)right;
    return (first > second) - (first < second);
}

/* a call that is measured, and what it is called with */
typedef struct measured {
    passkey_assertion_call *call;
    const device_answer *made;
} measured;

static void verdict(const measured *with)
{
    passkey_assertion_out out;
    MUST(passkey_assertion(with->call, &out) == PASSKEY_ACCEPTED);
}

static void whole(const measured *with)
{
    passkey_assertion_out out;
    MUST(sign_in(with->call, &out) == PASSKEY_ACCEPTED);
}

static void by_libfido2(const measured *with)
{
    uint8_t point[64];
    es256_pk_t *key = es256_pk_new();
    fido_assert_t *assertion = fido_assert_new();
    memcpy(point, device_x, 32);
    memcpy(point + 32, device_y, 32);
    MUST(es256_pk_from_ptr(key, point, sizeof point) == FIDO_OK);
    MUST(fido_assert_set_rp(assertion, "example.com") == FIDO_OK);
    MUST(fido_assert_set_clientdata(assertion, (const uint8_t *)with->made->client_data, with->made->client_size) == FIDO_OK);
    MUST(fido_assert_set_count(assertion, 1) == FIDO_OK);
    MUST(fido_assert_set_authdata_raw(assertion, 0, with->made->data, with->made->data_size) == FIDO_OK);
    MUST(fido_assert_set_sig(assertion, 0, with->made->signature, with->made->signature_size) == FIDO_OK);
    MUST(fido_assert_verify(assertion, 0, COSE_ES256, key) == FIDO_OK);
    fido_assert_free(&assertion);
    es256_pk_free(&key);
}

enum { ROUNDS = 150 };

static struct {
    const char *what;
    void (*call)(const measured *);
    passkey_assertion_call lent;
    long count; /* calls a round */
    double rounds[ROUNDS];
} acts[3];

/* Measures the acts by turns, and prints the median and the least of the rounds of each, in microseconds a call. */
static void report(const device_answer *made)
{
    enum { ACTS = sizeof acts / sizeof acts[0] };
    for (size_t i = 0; i < ROUNDS * ACTS; i++) {
        const measured with = { &acts[i % ACTS].lent, made };
        double began = now();
        for (long n = 0; n < acts[i % ACTS].count; n++)
            acts[i % ACTS].call(&with);
        acts[i % ACTS].rounds[i / ACTS] = (now() - began) / (double)acts[i % ACTS].count;
    }
    for (size_t i = 0; i < ACTS; i++) {
        qsort(acts[i].rounds, ROUNDS, sizeof(double), by_size);
        printf("%s: %.2f us, %.2f us at least\n", acts[i].what, acts[i].rounds[ROUNDS / 2], acts[i].rounds[0]);
    }
}

int main(int argc, char **argv)
{
    long count = argc > 1 ? atol(argv[1]) : 20000;
    const passkey_bytes origins[] = { text("https://example.com") };
    uint8_t challenge[32];
    device_answer made;
    fido_init(0);
    device_make();
    new_challenge(1, challenge);
    device_sign_in(&made, 1, challenge);
    passkey_assertion_call call = {
        .party = { text("example.com"), origins, 1, PASSKEY_PROFILE_LEVEL3, NULL, 0 },
        .has_session = true,
        .session = { .challenge = bytes(challenge, 32), .user_verification = true },
        .has_credential = true,
        .credential = { .id = bytes(device_id, sizeof device_id),
                        .user = text("account 7"),
                        .key = { PASSKEY_ES256, bytes(device_x, 32), bytes(device_y, 32) },
                        .is_eligibility_known = true },
        .response = device_response(&made),
    };
    acts[0].what = "C, a sign-in", acts[0].call = whole, acts[0].lent = call, acts[0].count = count / 20;
    call.verified.key = call.credential.key;
    call.verified.message = bytes(made.message, made.data_size + 32);
    call.verified.signature = call.response.signature;
    call.has_verified = true;
    acts[1].what = "C, a verdict", acts[1].call = verdict, acts[1].lent = call, acts[1].count = count;
    acts[2].what = "libfido2, an assertion", acts[2].call = by_libfido2, acts[2].lent = call, acts[2].count = count / 20;
    report(&made);
    return 0;
}
