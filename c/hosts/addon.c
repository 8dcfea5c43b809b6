/* passkey.h for Node, as an addon of Node-API: `judge(parts, verified)` judges a sign-in, with the signature that was verified
 * or with null; `asked(parts)` tells which key, message and signature are to be verified. Parts are a Buffer each:
 * rp_id, origin, challenge, id, user, x, y, auth_data, signature and client_data, of a key of ES256. */
#include <node_api.h>
#include <stdlib.h>
#include "passkey.h"

/* The bytes of a member, lent until the call returns. */
static passkey_bytes part(napi_env env, napi_value parts, const char *name)
{
    napi_value value;
    passkey_bytes bytes = { NULL, 0 };
    void *data;
    bool is_buffer = false;
    if (napi_get_named_property(env, parts, name, &value) != napi_ok || napi_is_buffer(env, value, &is_buffer) != napi_ok ||
        !is_buffer || napi_get_buffer_info(env, value, &data, &bytes.size) != napi_ok)
        napi_throw_type_error(env, NULL, name);
    else if (bytes.size != 0)
        bytes.data = data;
    return bytes;
}

static passkey_key key_in(napi_env env, napi_value parts)
{
    passkey_key key = { PASSKEY_ES256, part(env, parts, "x"), part(env, parts, "y") };
    return key;
}

static passkey_assertion_response response_in(napi_env env, napi_value parts)
{
    passkey_assertion_response response = {
        .credential = part(env, parts, "id"),
        .has_user = 1,
        .user = part(env, parts, "user"),
        .auth_data = part(env, parts, "auth_data"),
        .signature = part(env, parts, "signature"),
        .client_data = part(env, parts, "client_data"),
    };
    return response;
}

static void set_number(napi_env env, napi_value object, const char *name, uint32_t number)
{
    napi_value value;
    napi_create_uint32(env, number, &value);
    napi_set_named_property(env, object, name, value);
}

static void set_bytes(napi_env env, napi_value object, const char *name, const uint8_t *data, size_t size)
{
    napi_value value;
    napi_create_buffer_copy(env, size, data, NULL, &value);
    napi_set_named_property(env, object, name, value);
}

static bool is_pending(napi_env env)
{
    bool pending = true;
    napi_is_exception_pending(env, &pending);
    return pending;
}

static napi_value judge(napi_env env, napi_callback_info info)
{
    napi_value words[2], result;
    size_t count = 2;
    napi_valuetype type = napi_undefined;
    napi_get_cb_info(env, info, &count, words, NULL, NULL);
    passkey_bytes origin = part(env, words[0], "origin");
    passkey_assertion_out out = { .sign_count = 0 };
    passkey_assertion_call call = {
        .party = { part(env, words[0], "rp_id"), &origin, 1, PASSKEY_PROFILE_LEVEL3, NULL, 0 },
        .has_session = 1,
        .session = { .challenge = part(env, words[0], "challenge") },
        .has_credential = 1,
        .credential = { .id = part(env, words[0], "id"), .user = part(env, words[0], "user"), .key = key_in(env, words[0]),
                        .sign_count = 1, .is_eligibility_known = 1 },
        .response = response_in(env, words[0]),
    };
    napi_typeof(env, words[1], &type);
    if (type == napi_object) {
        call.has_verified = 1;
        call.verified.key = key_in(env, words[1]);
        call.verified.message = part(env, words[1], "message");
        call.verified.signature = part(env, words[1], "signature");
    }
    if (is_pending(env))
        return NULL;
    uint8_t text[128];
    uint32_t answer = passkey_assertion(&call, &out);
    size_t size = passkey_refusal_text(0, answer, text, sizeof text);
    napi_create_object(env, &result);
    set_number(env, result, "answer", answer);
    set_number(env, result, "signCount", out.sign_count);
    set_bytes(env, result, "text", text, size);
    return result;
}

static napi_value asked(napi_env env, napi_callback_info info)
{
    napi_value parts, result;
    size_t count = 1;
    napi_get_cb_info(env, info, &count, &parts, NULL, NULL);
    passkey_signature_call call = { .assertion = response_in(env, parts), .key = key_in(env, parts) };
    if (is_pending(env))
        return NULL;
    size_t message_room = call.assertion.auth_data.size + 32, signature_room = call.assertion.signature.size;
    uint8_t *message = malloc(message_room), *signature = malloc(signature_room + 1);
    passkey_signature_out out;
    if (message == NULL || signature == NULL ||
        passkey_signature_asked(&call, message, message_room, signature, signature_room, &out) != PASSKEY_ACCEPTED) {
        napi_throw_error(env, NULL, "no signature is asked");
        result = NULL;
    } else {
        napi_create_object(env, &result);
        set_bytes(env, result, "x", out.key.x, out.key.x_size);
        set_bytes(env, result, "y", out.key.y, out.key.y_size);
        set_bytes(env, result, "message", message, out.message_size);
        set_bytes(env, result, "signature", signature, out.signature_size);
    }
    free(message);
    free(signature);
    return result;
}

NAPI_MODULE_INIT()
{
    napi_value function;
    if (passkey_abi_version() != PASSKEY_ABI_VERSION) {
        napi_throw_error(env, NULL, "libpasskey has another ABI than this addon");
        return NULL;
    }
    napi_create_function(env, "judge", NAPI_AUTO_LENGTH, judge, NULL, &function);
    napi_set_named_property(env, exports, "judge", function);
    napi_create_function(env, "asked", NAPI_AUTO_LENGTH, asked, NULL, &function);
    napi_set_named_property(env, exports, "asked", function);
    return exports;
}
