/* Responses for tests of passkey.h, made without mathematics: whatever signature is asked counts as verified. The rp id is
 * "abc", and the challenge is 32 bytes of 0. */
#ifndef MADE_H
#define MADE_H

#include "passkey.h"

#include <stdio.h>
#include <stdlib.h>
#include <string.h>

#define MUST(what) ((what) ? (void)0 : fail(#what, __FILE__, __LINE__))

static void fail(const char *what, const char *file, int line)
{
    fprintf(stderr, "%s:%d: %s\n", file, line, what);
    exit(1);
}

/* SHA-256 of "abc" (FIPS 180-4) */
static const uint8_t rp_id_hash[32] = { 0xba, 0x78, 0x16, 0xbf, 0x8f, 0x01, 0xcf, 0xea, 0x41, 0x41, 0x40,
                                        0xde, 0x5d, 0xae, 0x22, 0x23, 0xb0, 0x03, 0x61, 0xa3, 0x96, 0x17,
                                        0x7a, 0x9c, 0xb4, 0x10, 0xff, 0x61, 0xf2, 0x00, 0x15, 0xad };
static const uint8_t challenge[32];
static const uint8_t coordinate[32] = { 1 };
static const passkey_key es256 = { PASSKEY_ES256, { coordinate, 32 }, { coordinate, 32 } };

static inline passkey_bytes lent(const void *data, size_t size)
{
    passkey_bytes bytes = { (const uint8_t *)data, size };
    return bytes;
}

/* Client data of at least so many bytes, filled up by spaces or a member that is passed over: their size. */
static inline size_t client_data(char *room, const char *type, passkey_bytes origin, size_t least)
{
    static const char member[] = ",\"\":\"";
    uint8_t text[43];
    MUST(passkey_challenge_text(challenge, sizeof challenge, text, sizeof text));
    int front = sprintf(room, "{\"type\":\"webauthn.%s\",\"challenge\":\"%.43s\",\"origin\":\"%.*s\"", type, (const char *)text,
                        (int)origin.size, (const char *)origin.data);
    MUST(front > 0);
    size_t size = (size_t)front;
    if (size + sizeof member + 1 <= least) {
        memcpy(room + size, member, sizeof member - 1), size += sizeof member - 1;
        while (size + 2 < least)
            room[size++] = 'a';
        room[size++] = '"';
    }
    while (size + 1 < least)
        room[size++] = ' ';
    room[size++] = '}';
    return size;
}

/* Authenticator data of a sign-in: 37 bytes, and the extensions. */
static inline size_t auth_data(uint8_t *room, uint8_t flags, uint32_t count, passkey_bytes extensions)
{
    memcpy(room, rp_id_hash, sizeof rp_id_hash);
    room[32] = flags;
    for (int place = 0; place < 4; place++)
        room[33 + place] = (uint8_t)(count >> (24 - 8 * place));
    if (extensions.size != 0)
        memcpy(room + 37, extensions.data, extensions.size);
    return 37 + extensions.size;
}

/* A CBOR byte string's head for so many bytes, of two bytes or three. */
static inline size_t byte_string_head(uint8_t *room, size_t size)
{
    room[0] = size < 256 ? 0x58 : 0x59;
    room[1] = (uint8_t)(size < 256 ? size : size >> 8);
    room[2] = (uint8_t)size;
    return size < 256 ? 2 : 3;
}

/* An attestation object of this credential, without attestation or with a signature of its own key, of ES256. */
static inline size_t attestation_object(uint8_t *room, bool is_packed, uint8_t flags, passkey_bytes id, const passkey_key *key,
                                        passkey_bytes extensions)
{
    /* before each text its head: 0x63 'c', 0x64 'd', 0x66 'f', 0x67 'g' and 0x68 'h' */
    static const char none[] = "\xa3" "cfmt" "dnone" "gattStmt" "\xa0" "hauthData";
    static const char packed[] = "\xa3" "cfmt" "fpacked" "gattStmt" "\xa2" "calg" "\x26" "csig" "\x41\x07" "hauthData";
    static uint8_t data[2048];
    size_t size = auth_data(data, flags, 0, lent(NULL, 0)), at = is_packed ? sizeof packed - 1 : sizeof none - 1;
    memset(data + size, 0xaa, 16), size += 16;
    data[size++] = (uint8_t)(id.size >> 8), data[size++] = (uint8_t)id.size;
    memcpy(data + size, id.data, id.size), size += id.size;
    size_t key_size = passkey_key_to_cose(key, data + size, sizeof data - size);
    MUST(key_size != 0);
    size += key_size;
    if (extensions.size != 0)
        memcpy(data + size, extensions.data, extensions.size), size += extensions.size;
    memcpy(room, is_packed ? packed : none, at);
    at += byte_string_head(room + at, size);
    memcpy(room + at, data, size);
    return at + size;
}

/* Where a signature is asked, it counts as verified. The bytes are lent until the next call. */
static inline void verify(const passkey_signature_call *asked, uint8_t *has_verified, passkey_verified *verified)
{
    static uint8_t message[8192], signature[8192];
    static passkey_signature_out out;
    MUST(passkey_signature_asked(asked, message, sizeof message, signature, sizeof signature, &out) == PASSKEY_ACCEPTED);
    *has_verified = out.is_asked;
    verified->key.algorithm = out.key.algorithm;
    verified->key.x = lent(out.key.x, out.key.x_size);
    verified->key.y = lent(out.key.y, out.key.y_size);
    verified->message = lent(message, out.message_size);
    verified->signature = lent(signature, out.signature_size);
}

static inline void verify_sign_in(passkey_assertion_call *call)
{
    passkey_signature_call asked = { .assertion = call->response, .key = call->credential.key };
    verify(&asked, &call->has_verified, &call->verified);
}

static inline void verify_registration(passkey_registration_call *call)
{
    passkey_signature_call asked = { .is_registration = 1, .profile = call->party.profile, .registration = call->response,
                                     .attestation = call->session.attestation };
    verify(&asked, &call->has_verified, &call->verified);
}

#endif
