/* Want of memory: a registration and a sign-in of which each allocation in turn is refused answer PASSKEY_NO_MEMORY, write
 * nothing and leave nothing; with all of them they are accepted. A key that is written as COSE_Key bytes is tried in the same
 * way. Linked with --wrap=malloc and --wrap=realloc. The site and the device are those of example.c. Prints one line. */
#define main example_main
#include "example.c"
#undef main

void *__real_malloc(size_t size);
void *__real_realloc(void *block, size_t size);
void *__wrap_malloc(size_t size);
void *__wrap_realloc(void *block, size_t size);

static long before_refusal = -1; /* how many are given before one is refused; none is where it is negative */

static bool is_refused(void)
{
    return before_refusal >= 0 && before_refusal-- == 0;
}

void *__wrap_malloc(size_t size)
{
    return is_refused() ? NULL : __real_malloc(size);
}

void *__wrap_realloc(void *block, size_t size)
{
    return is_refused() ? NULL : __real_realloc(block, size);
}

static passkey_registration_call enrol;
static passkey_registration_out credential, credential_before;
static passkey_assertion_call call;
static passkey_assertion_out out, out_before;

static uint32_t registration(void)
{
    uint32_t answer = passkey_registration(&enrol, &credential);
    MUST(answer == 0 || memcmp(&credential, &credential_before, sizeof credential) == 0);
    return answer;
}

static uint32_t assertion(void)
{
    uint32_t answer = passkey_assertion(&call, &out);
    MUST(answer == 0 || memcmp(&out, &out_before, sizeof out) == 0);
    return answer;
}

/* The key of the registration as COSE_Key bytes, in a room that is just large enough. */
static uint32_t cose_key(void)
{
    uint8_t room[77];
    memset(room, 0x5a, sizeof room);
    passkey_key key = lent_key(&credential.key);
    size_t size = passkey_key_to_cose(&key, room, sizeof room);
    for (size_t i = 0; size == 0 && i < sizeof room; i++)
        MUST(room[i] == 0x5a);
    return size == sizeof room ? PASSKEY_ACCEPTED : PASSKEY_NO_MEMORY;
}

/* How many allocations the call makes: with so many it is accepted, and with one fewer it is not. */
static long refused(uint32_t (*judge)(void))
{
    for (long count = 0;; count++) {
        before_refusal = count;
        uint32_t answer = judge();
        bool is_reached = before_refusal < 0;
        before_refusal = -1;
        MUST(answer == (is_reached ? PASSKEY_NO_MEMORY : PASSKEY_ACCEPTED));
        if (!is_reached)
            return count;
    }
}

int main(void)
{
    const passkey_bytes origins[] = { text("https://example.com") };
    const passkey_party party = { text("example.com"), origins, 1, 1, NULL, 0 };
    uint8_t challenge[32], object[256];
    char client_data[256];
    device_answer made;
    device_make();
    new_challenge(1, challenge);
    enrol = (passkey_registration_call){
        .party = party,
        .accept_none = true,
        .has_session = true,
        .session = { .challenge = bytes(challenge, 32), .user = text("account 7"), .offers_es256 = true },
        .is_free = true,
        .raw_id = bytes(device_id, sizeof device_id),
    };
    enrol.response.object = bytes(object, device_object(object));
    enrol.response.client_data = bytes(client_data, device_client_data(client_data, "webauthn.create", challenge));
    long of_registration = refused(registration);

    device_sign_in(&made, 1, challenge);
    passkey_bytes allowed = bytes(device_id, sizeof device_id);
    call = (passkey_assertion_call){
        .party = party,
        .has_session = true,
        .session = { .challenge = bytes(challenge, 32), .has_user = true, .user = text("account 7"), .allow = &allowed, .allow_count = 1 },
        .has_credential = true,
        .credential = { .id = allowed, .user = text("account 7"), .key = lent_key(&credential.key) },
        .response = device_response(&made),
        .has_verified = true,
        .verified = { lent_key(&credential.key), bytes(made.message, made.data_size + 32),
                      bytes(made.signature, made.signature_size) },
    };
    long of_sign_in = refused(assertion), of_key = refused(cose_key);
    EVP_PKEY_free(device_key);
    printf("memory: each of %ld allocations of a registration, of %ld of a sign-in and of %ld of a key refused\n", of_registration,
           of_sign_in, of_key);
    return of_registration > 0 && of_sign_in > 0 && of_key > 0 ? 0 : 1;
}
