/* A registration and a sign-in by passkey.h, with OpenSSL's signatures. The browser and its authenticator are played
 * here too, so that the example runs by itself: see device_..; all else is what a site does.
 *
 *   gcc -std=c11 example.c libpasskey.a -lcrypto -o example && ./example
 *
 * with passkey.h and libpasskey.a in the same folder. docs/EMBED.md says how to get the library, with the Rattle kit or
 * without it. */
#include "passkey.h"

#include <openssl/bn.h>
#include <openssl/core_names.h>
#include <openssl/ec.h>
#include <openssl/evp.h>
#include <openssl/param_build.h>
#include <openssl/rand.h>
#include <openssl/sha.h>
#include <stdio.h>
#include <stdlib.h>
#include <string.h>

#define MUST(what) ((what) ? (void)0 : fail(#what, __LINE__))

static void fail(const char *what, int line)
{
    fprintf(stderr, "example.c:%d: %s\n", line, what);
    exit(1);
}

static passkey_bytes bytes(const void *data, size_t size)
{
    passkey_bytes lent = { data, size };
    return lent;
}

static passkey_bytes text(const char *chars)
{
    return bytes(chars, strlen(chars));
}

/* ---- the site: whether a signature is valid, by OpenSSL (ES256, EdDSA or RS256) */

static passkey_key lent_key(const passkey_key_out *told)
{
    passkey_key key = { told->algorithm, bytes(told->x, told->x_size), bytes(told->y, told->y_size) };
    return key;
}

/* a public key of these parameters, which are freed */
static EVP_PKEY *key_of(const char *type, OSSL_PARAM *params)
{
    EVP_PKEY *made = NULL;
    EVP_PKEY_CTX *context = EVP_PKEY_CTX_new_from_name(NULL, type, NULL);
    if (context == NULL || params == NULL || EVP_PKEY_fromdata_init(context) != 1 ||
        EVP_PKEY_fromdata(context, &made, EVP_PKEY_PUBLIC_KEY, params) != 1)
        made = NULL; /* as where the point is not on its curve */
    EVP_PKEY_CTX_free(context);
    OSSL_PARAM_free(params);
    return made;
}

static EVP_PKEY *rsa_key(const passkey_key *key)
{
    OSSL_PARAM_BLD *numbers = OSSL_PARAM_BLD_new();
    BIGNUM *n = BN_bin2bn(key->x.data, (int)key->x.size, NULL), *e = BN_bin2bn(key->y.data, (int)key->y.size, NULL);
    MUST(numbers != NULL && n != NULL && e != NULL);
    MUST(OSSL_PARAM_BLD_push_BN(numbers, OSSL_PKEY_PARAM_RSA_N, n) == 1);
    MUST(OSSL_PARAM_BLD_push_BN(numbers, OSSL_PKEY_PARAM_RSA_E, e) == 1);
    EVP_PKEY *made = key_of("RSA", OSSL_PARAM_BLD_to_param(numbers));
    OSSL_PARAM_BLD_free(numbers);
    BN_free(n);
    BN_free(e);
    return made;
}

static EVP_PKEY *public_key(const passkey_key *key)
{
    if (key->algorithm == PASSKEY_EDDSA)
        return EVP_PKEY_new_raw_public_key(EVP_PKEY_ED25519, NULL, key->x.data, key->x.size);
    if (key->algorithm == PASSKEY_RS256)
        return rsa_key(key);
    uint8_t point[65] = { 4 };
    memcpy(point + 1, key->x.data, 32);
    memcpy(point + 33, key->y.data, 32);
    OSSL_PARAM params[] = {
        OSSL_PARAM_construct_utf8_string(OSSL_PKEY_PARAM_GROUP_NAME, (char *)"prime256v1", 0),
        OSSL_PARAM_construct_octet_string(OSSL_PKEY_PARAM_PUB_KEY, point, sizeof point),
        OSSL_PARAM_construct_end(),
    };
    return key_of("EC", OSSL_PARAM_dup(params));
}

static bool is_valid(const passkey_verified *verified)
{
    EVP_PKEY *key = public_key(&verified->key);
    EVP_MD_CTX *context = EVP_MD_CTX_new();
    const EVP_MD *hash = verified->key.algorithm == PASSKEY_EDDSA ? NULL : EVP_sha256();
    bool valid = key != NULL && context != NULL && EVP_DigestVerifyInit(context, NULL, hash, NULL, key) == 1 &&
                 EVP_DigestVerify(context, verified->signature.data, verified->signature.size, verified->message.data,
                                  verified->message.size) == 1;
    EVP_MD_CTX_free(context);
    EVP_PKEY_free(key);
    return valid;
}

/* ---- the site: a sign-in, whose signature is verified between two calls */

static uint32_t sign_in(passkey_assertion_call *call, passkey_assertion_out *out)
{
    call->has_verified = false;
    uint32_t answer = passkey_assertion(call, out);
    if (answer != PASSKEY_BAD_SIGNATURE)
        return answer;

    size_t message_room = call->response.auth_data.size + 32, signature_room = call->response.signature.size;
    uint8_t *message = malloc(message_room), *signature = malloc(signature_room + 1);
    MUST(message != NULL && signature != NULL);
    passkey_signature_call asked = { .assertion = call->response, .key = call->credential.key };
    passkey_signature_out told;
    MUST(passkey_signature_asked(&asked, message, message_room, signature, signature_room, &told) == PASSKEY_ACCEPTED);
    passkey_verified verified = {
        .key = lent_key(&told.key),
        .message = bytes(message, told.message_size),
        .signature = bytes(signature, told.signature_size),
    };
    if (is_valid(&verified)) {
        call->has_verified = true;
        call->verified = verified;
        answer = passkey_assertion(call, out);
    }
    free(message);
    free(signature);
    return answer;
}

/* ---- the device: a key of P-256, authenticator data, client data */

static EVP_PKEY *device_key;
static uint8_t device_x[32], device_y[32];
static uint8_t device_id[16];

static void device_make(void)
{
    uint8_t point[65];
    size_t size;
    MUST((device_key = EVP_EC_gen("prime256v1")) != NULL);
    MUST(EVP_PKEY_get_octet_string_param(device_key, OSSL_PKEY_PARAM_PUB_KEY, point, sizeof point, &size) == 1);
    MUST(size == sizeof point);
    memcpy(device_x, point + 1, 32);
    memcpy(device_y, point + 33, 32);
    MUST(RAND_bytes(device_id, sizeof device_id) == 1);
}

static size_t device_data(uint8_t *data, uint8_t flags, uint8_t count)
{
    uint8_t front[5] = { flags, 0, 0, 0, count };
    SHA256((const uint8_t *)"example.com", 11, data);
    memcpy(data + 32, front, sizeof front);
    return 37;
}

static size_t device_object(uint8_t *object)
{
    static const uint8_t head[] = "\xa3\x63" "fmt\x64none\x67" "attStmt\xa0\x68" "authData\x58\x94";
    static const uint8_t key_front[] = { 0xa5, 1, 2, 3, 0x26, 0x20, 1, 0x21, 0x58, 0x20 };
    static const uint8_t key_back[] = { 0x22, 0x58, 0x20 };
    uint8_t *at = object;
    memcpy(at, head, sizeof head - 1);
    at += sizeof head - 1;
    at += device_data(at, 0x45, 0);
    memset(at, 0, 18);
    at[17] = sizeof device_id;
    at += 18;
    memcpy(at, device_id, sizeof device_id);
    at += sizeof device_id;
    memcpy(at, key_front, sizeof key_front);
    at += sizeof key_front;
    memcpy(at, device_x, 32);
    at += 32;
    memcpy(at, key_back, sizeof key_back);
    at += sizeof key_back;
    memcpy(at, device_y, 32);
    at += 32;
    return (size_t)(at - object);
}

static size_t device_client_data(char *data, const char *type, const uint8_t *challenge)
{
    uint8_t made[43];
    MUST(passkey_challenge_text(challenge, 32, made, sizeof made));
    return (size_t)sprintf(data,
                           "{\"type\":\"%s\",\"challenge\":\"%.43s\",\"origin\":\"https://example.com\","
                           "\"crossOrigin\":false}",
                           type, (const char *)made);
}

static size_t device_sign(const uint8_t *message, size_t size, uint8_t *signature)
{
    size_t length = 128;
    EVP_MD_CTX *context = EVP_MD_CTX_new();
    MUST(EVP_DigestSignInit(context, NULL, EVP_sha256(), NULL, device_key) == 1);
    MUST(EVP_DigestSign(context, signature, &length, message, size) == 1);
    EVP_MD_CTX_free(context);
    return length;
}

/* what the device answers to a sign-in */
typedef struct {
    uint8_t data[64], message[96], signature[128];
    char client_data[256];
    size_t data_size, client_size, signature_size;
} device_answer;

static void device_sign_in(device_answer *made, uint8_t count, const uint8_t *challenge)
{
    made->data_size = device_data(made->data, 0x05, count);
    made->client_size = device_client_data(made->client_data, "webauthn.get", challenge);
    memcpy(made->message, made->data, made->data_size);
    SHA256((const uint8_t *)made->client_data, made->client_size, made->message + made->data_size);
    made->signature_size = device_sign(made->message, made->data_size + 32, made->signature);
}

static passkey_assertion_response device_response(const device_answer *made)
{
    return (passkey_assertion_response){ .credential = bytes(device_id, sizeof device_id),
                                         .has_user = true,
                                         .user = text("account 7"),
                                         .auth_data = bytes(made->data, made->data_size),
                                         .signature = bytes(made->signature, made->signature_size),
                                         .client_data = bytes(made->client_data, made->client_size) };
}

/* ---- both */

static void show(const char *what, bool is_registration, uint32_t answer)
{
    uint8_t line[128];
    size_t size = passkey_refusal_text(is_registration, answer, line, sizeof line);
    printf("%s: %u, %.*s\n", what, (unsigned)answer, (int)size, (const char *)line);
}

static void new_challenge(uint64_t session, uint8_t *challenge)
{
    uint8_t words[24];
    MUST(RAND_bytes(words, sizeof words) == 1);
    MUST(passkey_challenge(session, words, sizeof words, challenge, 32));
}

int main(void)
{
    MUST(passkey_abi_version() == PASSKEY_ABI_VERSION);
    const passkey_bytes origins[] = { text("https://example.com") };
    const passkey_party party = { text("example.com"), origins, 1, 1, NULL, 0 };
    uint8_t challenge[32], object[256];
    char client_data[256];
    device_answer made;
    device_make();

    /* a registration */
    new_challenge(1, challenge);
    passkey_registration_call registration = {
        .party = party,
        .accept_none = true,
        .has_session = true,
        .session = { .challenge = bytes(challenge, 32), .user = text("account 7"), .offers_es256 = true, .offers_eddsa = true, .offers_rs256 = true },
        .is_free = true, /* the site looked rawId up in its table, and found none */
        .raw_id = bytes(device_id, sizeof device_id),
    };
    registration.response.object = bytes(object, device_object(object));
    registration.response.client_data = bytes(client_data, device_client_data(client_data, "webauthn.create", challenge));
    passkey_registration_out credential;
    uint32_t answer = passkey_registration(&registration, &credential);
    show("registration", true, answer);
    MUST(answer == PASSKEY_ACCEPTED && credential.id_size == sizeof device_id);

    /* a sign-in with it */
    new_challenge(2, challenge);
    device_sign_in(&made, 1, challenge);
    passkey_assertion_call call = {
        .party = party,
        .has_session = true,
        .session = { .challenge = bytes(challenge, 32), .user_verification = true },
        .has_credential = true, /* the site found the row by rawId */
        .credential = { .id = bytes(credential.id, credential.id_size),
                        .user = text("account 7"),
                        .key = lent_key(&credential.key),
                        .sign_count = credential.sign_count,
                        .is_eligibility_known = true,
                        .eligible = credential.eligible },
        .response = device_response(&made),
    };
    passkey_assertion_out out = { .sign_count = 99 };
    answer = sign_in(&call, &out);
    show("sign-in", false, answer);
    MUST(answer == PASSKEY_ACCEPTED && out.sign_count == 1);

    /* the same response again: its counter is not greater */
    call.credential.sign_count = out.sign_count;
    answer = sign_in(&call, &out);
    show("the same again", false, answer);
    MUST(answer == PASSKEY_COUNTER_NOT_GREATER);

    /* a signature that is not valid, and one of another message that the host verified by mistake */
    call.credential.sign_count = 0;
    made.signature[made.signature_size - 1] ^= 1;
    answer = sign_in(&call, &out);
    show("a signature that was changed", false, answer);
    MUST(answer == PASSKEY_BAD_SIGNATURE);
    made.signature_size = device_sign((const uint8_t *)"another message", 15, made.signature);
    call.response.signature = bytes(made.signature, made.signature_size);
    call.has_verified = true;
    call.verified.key = call.credential.key;
    call.verified.message = text("another message");
    call.verified.signature = call.response.signature;
    MUST(is_valid(&call.verified));
    answer = passkey_assertion(&call, &out);
    show("a signature of another message", false, answer);
    MUST(answer == PASSKEY_BAD_SIGNATURE);
    EVP_PKEY_free(device_key);
    return 0;
}
