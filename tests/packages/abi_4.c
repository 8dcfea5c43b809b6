/* A host of ABI 4, with as much of that ABI's passkey.h as it uses. A library of another ABI would read the members of its call
 * where they are not, so it may not link with one. */
#include <stdbool.h>
#include <stddef.h>
#include <stdint.h>

typedef struct passkey_bytes {
    const uint8_t *data;
    size_t size;
} passkey_bytes;

typedef struct passkey_key {
    int32_t algorithm;
    passkey_bytes x, y;
} passkey_key;

typedef struct passkey_assertion_call {
    struct {
        passkey_bytes rp_id;
        const passkey_bytes *origins;
        size_t origin_count;
        uint8_t profile;
        const passkey_bytes *top_origins;
        size_t top_origin_count;
    } party;
    uint8_t has_session;
    struct {
        passkey_bytes challenge;
        uint8_t user_verification, has_user;
        passkey_bytes user;
        const passkey_bytes *allow;
        size_t allow_count;
    } session;
    uint8_t has_credential;
    struct {
        passkey_bytes id, user;
        passkey_key key;
        uint32_t sign_count;
        uint8_t is_eligibility_known, eligible, retired;
    } credential;
    struct {
        passkey_bytes credential;
        uint8_t has_user;
        passkey_bytes user, auth_data, signature, client_data;
    } response;
    uint8_t has_verified;
    struct {
        passkey_key key;
        passkey_bytes message, signature;
    } verified;
} passkey_assertion_call;

typedef struct passkey_assertion_out {
    uint32_t sign_count;
    bool eligible, backed_up, user_verified;
    uint8_t flags;
    size_t extensions_size;
} passkey_assertion_out;

uint32_t passkey_assertion(const passkey_assertion_call *call, passkey_assertion_out *out);

int main(void)
{
    passkey_assertion_call call = { .has_session = 0 };
    passkey_assertion_out out;
    return (int)passkey_assertion(&call, &out);
}
