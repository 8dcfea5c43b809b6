/* What a static memory of passkey.c serves: sign-ins whose client data grow, and whose JSON nests deeper, until the answer is
 * PASSKEY_NO_MEMORY, which no larger one may better. Built with PASSKEY_STATIC_MEMORY. Prints the largest that were judged. */
#include "made.h"

static char client[400000];

static uint32_t judged(size_t size)
{
    static const uint8_t id[] = "id";
    uint8_t data[37];
    const passkey_bytes origin = lent("https://abc", 11), bytes = lent(id, 2);
    passkey_assertion_call call = {
        .party = { lent("abc", 3), &origin, 1, 0, NULL, 0 },
        .has_session = 1,
        .session = { .challenge = lent(challenge, 32) },
        .has_credential = 1,
        .credential = { .id = bytes, .user = bytes, .key = es256 },
        .response = { .credential = bytes, .has_user = 1, .user = bytes, .signature = lent("signature", 9),
                      .auth_data = lent(data, auth_data(data, PASSKEY_FLAG_UP, 7, lent(NULL, 0))),
                      .client_data = lent(client, size) },
    };
    passkey_assertion_out out;
    uint32_t answer = passkey_assertion(&call, &out);
    MUST(answer == PASSKEY_BAD_SIGNATURE || answer == PASSKEY_NO_MEMORY);
    return answer;
}

int main(void)
{
    const passkey_bytes origin = lent("https://abc", 11);
    size_t largest = 0, deepest = 0;
    for (size_t size = 200; size < sizeof client; size += 200)
        if (judged(client_data(client, "get", origin, size)) == PASSKEY_BAD_SIGNATURE) {
            MUST(size == 200 || largest == size - 200);
            largest = size;
        }
    for (size_t depth = 1; depth <= 126; depth++) {
        size_t size = client_data(client, "get", origin, 0) - 1;
        size += (size_t)sprintf(client + size, ",\"a\":");
        for (size_t i = 0; i < depth; i++, size += 5)
            memcpy(client + size, "{\"b\":", 5);
        client[size++] = '1';
        memset(client + size, '}', depth + 1), size += depth + 1;
        if (judged(size) == PASSKEY_BAD_SIGNATURE)
            deepest = depth;
    }
    MUST(largest != 0 && largest + 200 < sizeof client);
    printf("client data of %u bytes, objects nested %u deep\n", (unsigned)largest, (unsigned)deepest);
    return 0;
}
