/* The malformed responses of tests/crates/site_tests/malformed.rt.txt, from C: ./malformed FILE. Each is answered by the
 * step that the line says. Prints how often each step refused, and fails where one answer is another. */
#include "passkey.h"

#include <stdio.h>
#include <stdlib.h>
#include <string.h>

enum { PARTS = 12, ROOM = 512 };

static struct part {
    char kind[16], name[16];
    uint8_t data[ROOM];
    size_t size;
} parts[PARTS * 3];
static size_t part_count;

static struct part *part_of(const char *kind, const char *name)
{
    for (size_t i = 0; i < part_count; i++)
        if (strcmp(parts[i].kind, kind) == 0 && strcmp(parts[i].name, name) == 0)
            return &parts[i];
    struct part *made = &parts[part_count++];
    snprintf(made->kind, sizeof made->kind, "%s", kind);
    snprintf(made->name, sizeof made->name, "%s", name);
    return made;
}

/* Appends a word: digits, digits and how often, or characters after '. */
static void append(struct part *part, const char *word)
{
    if (*word == '\'') {
        memcpy(part->data + part->size, word + 1, strlen(word + 1));
        part->size += strlen(word + 1);
        return;
    }
    const char *star = strchr(word, '*');
    size_t digits = star ? (size_t)(star - word) : strlen(word);
    for (int times = star ? atoi(star + 1) : 1; times > 0; times--)
        for (size_t i = 0; i < digits; i += 2) {
            unsigned byte;
            sscanf(word + i, "%2x", &byte);
            part->data[part->size++] = (uint8_t)byte;
        }
}

static passkey_bytes lent(const struct part *part)
{
    passkey_bytes bytes = { part->data, part->size };
    return bytes;
}

static passkey_bytes bytes(const void *data, size_t size)
{
    passkey_bytes made = { data, size };
    return made;
}

static const uint8_t challenge[32] = { 0, 0, 0, 0, 0, 0, 0, 1 };
static uint8_t x[32], y[32];

static passkey_verified verified(const char *kind)
{
    passkey_verified made = { { PASSKEY_ES256, bytes(x, 32), bytes(y, 32) }, lent(part_of(kind, "message")),
                              lent(part_of(kind, "verified")) };
    return made;
}

static uint32_t sign_in(passkey_party party)
{
    const char *kind = "sign-in";
    passkey_bytes id = lent(part_of(kind, "credential"));
    passkey_assertion_call call = {
        .party = party,
        .has_session = true,
        .session = { .challenge = bytes(challenge, 32), .has_user = true, .user = bytes("\1", 1) },
        .has_credential = id.size == 1 && id.data[0] == 0x0a,
        .credential = { .id = bytes("\x0a", 1), .user = bytes("\1", 1), .key = { PASSKEY_ES256, bytes(x, 32), bytes(y, 32) } },
        .response = { .credential = id,
                      .has_user = true,
                      .user = lent(part_of(kind, "user")),
                      .auth_data = lent(part_of(kind, "auth_data")),
                      .signature = lent(part_of(kind, "signature")),
                      .client_data = lent(part_of(kind, "client_data")) },
        .has_verified = true,
        .verified = verified(kind),
    };
    passkey_assertion_out out;
    return passkey_assertion(&call, &out);
}

static uint32_t registration(passkey_party party, const char *kind)
{
    passkey_registration_call call = {
        .party = party,
        .accept_none = true,
        .accept_self = true,
        .has_session = true,
        .session = { .challenge = bytes(challenge, 32), .user = bytes("\1", 1), .offers_es256 = true, .offers_eddsa = true },
        .response = { lent(part_of(kind, "object")), lent(part_of(kind, "client_data")) },
        .is_free = true,
        .raw_id = bytes("\x0a\x0b", 2),
        .has_verified = true,
        .verified = verified(kind),
    };
    passkey_registration_out out;
    return passkey_registration(&call, &out);
}

static uint32_t judged(const char *kind)
{
    const passkey_bytes origin = bytes("https://abc", 11);
    passkey_party party = { bytes("abc", 3), &origin, 1, 0, NULL, 0 };
    return strcmp(kind, "sign-in") == 0 ? sign_in(party) : registration(party, kind);
}

static unsigned refused[2][20], responses;

/* Judges the response with the byte of the part at an index changed. */
static uint32_t judged_changed(const char *kind, struct part *part, const char *how, size_t index)
{
    static struct part whole;
    whole = *part;
    if (strcmp(how, "cut") == 0)
        part->size = index;
    else
        part->data[index] ^= strcmp(how, "01") == 0 ? 0x01 : 0x80;
    uint32_t answer = judged(kind);
    *part = whole;
    return answer;
}

static int is_as_said(char *kind, char *name, char *how, char *answers)
{
    struct part *part = part_of(kind, name);
    size_t index = 0;
    for (char *word = strtok(answers, " "); word != NULL; word = strtok(NULL, " ")) {
        const char *star = strchr(word, '*');
        for (int times = star ? atoi(star + 1) : 1; times > 0; times--, index++) {
            uint32_t answer = judged_changed(kind, part, how, index);
            uint32_t wanted = (uint32_t)atoi(word);
            if (answer != wanted) {
                fprintf(stderr, "%s %s %s, byte %zu: %u, and not %u\n", kind, name, how, index, (unsigned)answer, (unsigned)wanted);
                return 0;
            }
            refused[strcmp(kind, "sign-in") != 0][answer]++;
            responses++;
        }
    }
    return index == part->size;
}

int main(int count, char **words)
{
    memset(x, 0x11, sizeof x);
    memset(y, 0x33, sizeof y);
    FILE *file = count == 2 ? fopen(words[1], "r") : NULL;
    if (file == NULL)
        return 2;
    static char line[1024], kind[16], name[16], how[16], rest[512];
    int is_good = 1;
    while (fgets(line, sizeof line, file) != NULL) {
        const char *from = strstr(line, "r#\"");
        if (sscanf(from ? from + 3 : line, "%15[a-z-]|%15[a-z_]|%15[a-z0-9]|%511[^\n]", kind, name, how, rest) != 4)
            continue;
        char *end = strstr(rest, "\"#;");
        if (end != NULL)
            *end = 0;
        if (strcmp(how, "is") != 0)
            is_good = is_as_said(kind, name, how, rest) && is_good;
        else if (rest[0] == '\'')
            append(part_of(kind, name), rest);
        else
            for (char *word = strtok(rest, " "); word != NULL; word = strtok(NULL, " "))
                append(part_of(kind, name), word);
    }
    fclose(file);
    is_good = is_good && judged("sign-in") == 0 && judged("none") == 0 && judged("packed") == 0;
    for (int of = 0; of < 2; of++) {
        printf("%s:", of ? "registrations" : "sign-ins");
        for (int step = 0; step <= 19; step++)
            if (refused[of][step] != 0)
                printf(" %s%d %u", of ? "G" : "W", step, refused[of][step]);
        printf("\n");
    }
    printf("%u responses\n", responses);
    return is_good && responses == 2103 ? 0 : 1;
}
