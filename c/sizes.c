/* Sizes of what is handed in: client data of each length from the shortest to 5,000 bytes, ids of 1 to 1,023, users of 1 to
 * 64, origins of 1 to 400 bytes and lists of 1 to 100 of them, lists of 1 to 100 ids. Each sign-in is answered 14 without a
 * verified signature and 0 with it, each registration 0; none is answered 127. Prints one line. */
#include "made.h"

static unsigned calls;
static uint8_t letters[1024];
static const uint8_t user_handle[] = "user", credential_id[] = "credential id";

/* What a call is made of; the other members have one value. */
struct sizes {
    passkey_bytes id, user;
    const passkey_bytes *origins, *allow;
    size_t origin_count, allow_count, client_data;
};

static void sign_in(const struct sizes *sizes)
{
    static char client[8192];
    uint8_t data[37];
    size_t client_size = client_data(client, "get", sizes->origins[sizes->origin_count - 1], sizes->client_data);
    passkey_assertion_out out;
    passkey_assertion_call call = {
        .party = { lent("abc", 3), sizes->origins, sizes->origin_count, 1, NULL, 0 },
        .has_session = true,
        .session = { .challenge = lent(challenge, 32), .has_user = true, .user = sizes->user, .allow = sizes->allow,
                     .allow_count = sizes->allow_count },
        .has_credential = true,
        .credential = { .id = sizes->id, .user = sizes->user, .key = es256 },
        .response = { .credential = sizes->id, .has_user = true, .user = sizes->user,
                      .auth_data = lent(data, auth_data(data, PASSKEY_FLAG_UP, 7, lent(NULL, 0))),
                      .signature = lent("signature", 9), .client_data = lent(client, client_size) },
    };
    MUST(sizes->client_data == 0 || client_size == sizes->client_data);
    MUST(passkey_assertion(&call, &out) == PASSKEY_BAD_SIGNATURE);
    verify_sign_in(&call);
    MUST(passkey_assertion(&call, &out) == PASSKEY_ACCEPTED && out.sign_count == 7);
    calls += 2;
}

static void registration(const struct sizes *sizes)
{
    static char client[8192];
    static uint8_t object[4096];
    static passkey_registration_out out;
    size_t client_size = client_data(client, "create", sizes->origins[sizes->origin_count - 1], sizes->client_data);
    size_t size = attestation_object(object, false, PASSKEY_FLAG_UP | PASSKEY_FLAG_AT, sizes->id, &es256, lent(NULL, 0));
    passkey_registration_call call = {
        .party = { lent("abc", 3), sizes->origins, sizes->origin_count, 1, NULL, 0 },
        .accept_none = true,
        .has_session = true,
        .session = { .challenge = lent(challenge, 32), .user = sizes->user, .offers_es256 = true },
        .response = { lent(object, size), lent(client, client_size) },
        .is_free = true,
        .raw_id = sizes->id,
    };
    MUST(sizes->client_data == 0 || client_size == sizes->client_data);
    MUST(passkey_registration(&call, &out) == PASSKEY_ACCEPTED);
    MUST(out.id_size == sizes->id.size && memcmp(out.id, sizes->id.data, out.id_size) == 0);
    calls++;
}

static void both(const struct sizes *sizes)
{
    sign_in(sizes);
    registration(sizes);
}

int main(void)
{
    static passkey_bytes list[100];
    const passkey_bytes origin = lent("https://abc", 11);
    const struct sizes common = { lent(credential_id, 13), lent(user_handle, 4), &origin, NULL, 1, 0, 0 };
    struct sizes sizes = common;
    char room[8192];
    for (size_t i = 0; i < sizeof letters; i++)
        letters[i] = (uint8_t)('a' + i % 26);
    both(&sizes);
    for (sizes.client_data = client_data(room, "get", origin, 0); sizes.client_data < client_data(room, "create", origin, 0);
         sizes.client_data++)
        sign_in(&sizes);
    for (; sizes.client_data <= 5000; sizes.client_data++)
        both(&sizes);
    sizes = common;
    for (size_t size = 1; size <= 1023; size++) {
        sizes.id = lent(letters, size);
        both(&sizes);
    }
    sizes = common;
    for (size_t size = 1; size <= 64; size++) {
        sizes.user = lent(letters, size);
        both(&sizes);
    }
    sizes = common;
    for (size_t size = 1; size <= 400; size++) {
        list[0] = lent(letters, size);
        sizes.origins = list;
        both(&sizes);
    }
    for (size_t count = 1; count <= 100; count++) {
        for (size_t i = 0; i < count; i++)
            list[i] = lent(letters + i, 20);
        sizes.origin_count = count;
        both(&sizes);
    }
    sizes = common;
    for (size_t count = 1; count <= 100; count++) {
        for (size_t i = 0; i < count; i++)
            list[i] = lent(letters + i, 20 + i);
        sizes.allow = list, sizes.allow_count = count, sizes.id = list[count - 1];
        both(&sizes);
    }
    printf("%u calls\n", calls);
    return 0;
}
