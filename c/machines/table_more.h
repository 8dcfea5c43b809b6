/* Of table.c: each limit, keys and texts, and random calls. */

static uint64_t seed;

static uint32_t draw(uint32_t below)
{
    seed = seed * 6364136223846793005u + 1442695040888963407u;
    return (uint32_t)(seed >> 33) % below;
}

/* Bytes of this size, all the same but for the first and the last. */
static passkey_bytes filled(size_t size, uint8_t first, uint8_t last)
{
    static uint8_t rooms[2][ROOM], which;
    uint8_t *room = rooms[which ^= 1];
    memset(room, 0x55, ROOM);
    room[0] = first;
    if (size > 1)
        room[size - 1] = last;
    return (passkey_bytes){ room, size };
}

/* ---- each limit of passkey.h */

static record first_of(const uint8_t *at, unsigned kind)
{
    record made = { 0 };
    while (made.kind != kind)
        at = read_record(at, &made);
    return made;
}

/* A record with one member of another size or with other bytes. */
static void judge_with(record of, int member, passkey_bytes bytes)
{
    of.members[member] = bytes;
    judged(&of, NULL);
}

static void judge_key(record of, int32_t algorithm, passkey_bytes x, passkey_bytes y)
{
    passkey_verified verified = { { algorithm, x, y }, of.members[13], of.members[12] };
    judged(&of, &verified);
    if (of.kind == SIGN_IN) {
        of.algorithm = algorithm, of.members[7] = x, of.members[8] = y;
        judged(&of, NULL);
        asked(&of, ROOM, ROOM, &verified);
    }
}

static void judge_limits(void)
{
    static const size_t rsa_sizes[] = { 0, 1, 255, 256, 257, 383, 384, 385, 511, 512, 513, 1024 };
    static const uint8_t ends[] = { 0, 1, 2, 3, 0xff };
    static const int32_t algorithms[] = { -7, -8, -257, -6, -9, 0, 7, INT32_MIN, INT32_MAX };
    static const char *const texts[] = { "a", "\x7f", "\x80", "\xc2\x80", "\xc1\x80", "\xe0\xa0\x80", "\xe0\x9f\xbf", "\xed\xa0\x80",
                                         "\xf0\x90\x80\x80", "\xf4\x90\x80\x80", "\xef\xbf\xbf", "\xff", "a\xc2" };
    const record of[] = { first_of(chromium, SIGN_IN), first_of(chromium, REGISTRATION), first_of(rsa, SIGN_IN) };
    static uint8_t nested[ROOM];
    passkey_verified verified;
    for (size_t k = 0; k < 3; k++) {
        for (int i = 0; i < (of[k].kind == SIGN_IN ? 14 : 9); i++)
            for (size_t size = 0; size < 2200; size += size < 70 ? 1 : 71)
                judge_with(of[k], i, filled(size, 0x55, 0x55));
        for (size_t i = 0; i < sizeof texts / sizeof *texts; i++)
            for (int member = 0; member < 2; member++)
                judge_with(of[k], member, (passkey_bytes){ (const uint8_t *)texts[i], strlen(texts[i]) });
        for (size_t i = 0; i < sizeof algorithms / sizeof *algorithms; i++)
            for (size_t size = 30; size < 35; size++)
                judge_key(of[k], algorithms[i], filled(size, 1, 1), filled(64 - size, 1, 1));
        for (size_t i = 0; i < sizeof rsa_sizes / sizeof *rsa_sizes; i++)
            for (size_t e = 0; e < 6; e++)
                for (size_t end = 0; end < 25; end++)
                    judge_key(of[k], -257, filled(rsa_sizes[i], ends[end % 5], ends[end / 5]), filled(e, ends[end / 5], ends[end % 5]));
        for (size_t message = 0; message < 120; message++)
            for (size_t signature = 0; signature < 600; signature += 37)
                asked(&of[k], message, signature, &verified);
        for (unsigned flag = 0; flag < 2048; flag++) {
            record changed = of[k];
            changed.flags ^= flag;
            judged(&changed, NULL);
        }
        /* client data whose one more member nests arrays or objects */
        const passkey_bytes client_data = of[k].members[of[k].kind == SIGN_IN ? 13 : 8];
        for (size_t depth = 1; depth < 600; depth += depth < 140 ? 1 : 97)
            for (int is_array = 0; is_array < 2; is_array++) {
                size_t size = client_data.size - 1;
                memcpy(nested, client_data.data, size), memcpy(nested + size, ",\"a\":", 5), size += 5;
                const size_t each = is_array ? 1 : 5, most = (ROOM - size - 2) / (each + 1), count = depth < most ? depth : most;
                for (size_t i = 0; i < count; i++, size += each)
                    memcpy(nested + size, is_array ? "[" : "{\"b\":", each);
                nested[size++] = '1';
                for (size_t i = 0; i < count; i++)
                    nested[size++] = is_array ? ']' : '}';
                nested[size++] = '}';
                judge_with(of[k], of[k].kind == SIGN_IN ? 13 : 8, (passkey_bytes){ nested, size });
            }
    }
}

/* ---- keys as COSE_Key bytes, challenges, canonical CBOR, texts */

static void judge_cose(const uint8_t *bytes, size_t size)
{
    static passkey_key_out out;
    memset(&out, 0x5a, sizeof out);
    bool is_key = passkey_key_from_cose(bytes, size, &out);
    fold_answer(is_key);
    fold_answer(passkey_is_canonical(bytes, size));
    if (is_key)
        fold_key(&out);
    else
        is_untouched(&out, sizeof out);
}

static size_t write_cose(const passkey_key *key, uint8_t *room, size_t size)
{
    memset(room, 0x5a, ROOM);
    size_t written = passkey_key_to_cose(key, room, size);
    fold_answer(written != 0);
    fold_number(written), fold(room, written);
    is_untouched(room + written, ROOM - written);
    return written;
}

static void judge_keys(void)
{
    static uint8_t room[ROOM], text[128];
    const record of[] = { first_of(chromium, SIGN_IN), first_of(rsa, SIGN_IN) };
    for (size_t k = 0; k < 3; k++) {
        passkey_key key = key_of(&of[k != 0]);
        key.algorithm = k == 1 ? -8 : key.algorithm;
        if (k == 1)
            key.x.size = 32;
        for (size_t size = 0; size < 600; size += size < 80 ? 1 : 13)
            write_cose(&key, room, size);
        size_t size = write_cose(&key, room, ROOM);
        for (size_t front = 0; front <= size + 1; front++)
            judge_cose(room, front);
        for (size_t i = 0; i < size; i++)
            for (int bit = 0; bit < 8; bit++) {
                room[i] ^= 1 << bit;
                judge_cose(room, size);
                room[i] ^= 1 << bit;
            }
    }
    for (uint32_t answer = 0; answer < 130; answer++)
        for (uint32_t size = 0; size <= 128; size += 8)
            for (uint32_t kind = 0; kind < 3; kind++) {
                memset(text, 0x5a, sizeof text);
                size_t written = passkey_refusal_text(kind, answer, text, size);
                fold_answer(written != 0), fold_number(written), fold(text, written);
                is_untouched(text + written, sizeof text - written);
            }
    for (size_t size = 20; size < 50; size++) {
        memset(text, 0x5a, sizeof text);
        fold_answer(passkey_challenge((uint64_t)size << 40 | size, filled(size, 1, 2).data, size, text, 32));
        fold_answer(passkey_challenge_text(filled(size, 1, 2).data, size, text + 40, 43));
        fold_answer(passkey_challenge_text(filled(32, 1, 2).data, 32, text + 83, size));
        fold(text, sizeof text);
    }
    fold_answer(passkey_abi_version());
}

/* ---- random calls: what browsers made, with up to three changes */

static void change(record *of, uint8_t rooms[MEMBERS][ROOM])
{
    static const int32_t algorithms[] = { -7, -8, -257, -6 };
    const uint32_t which = draw(of->kind == SIGN_IN ? 14 : 9), how = draw(10);
    passkey_bytes *member = &of->members[which];
    uint8_t *room = rooms[which];
    if (how == 0)
        of->flags ^= 1u << draw(11);
    else if (how == 1)
        of->algorithm = algorithms[draw(4)];
    else if (how == 2)
        of->count = draw(8);
    if (how <= 2)
        return;
    if (member->data != room && member->size != 0)
        memcpy(room, member->data, member->size);
    size_t size = member->size;
    if (how <= 5 && size != 0)
        room[draw((uint32_t)size)] ^= 1 << draw(8);
    else if (how == 6 && size != 0)
        room[draw((uint32_t)size)] = (uint8_t)draw(256);
    else if (how == 7)
        size = draw((uint32_t)size + 1);
    else if (how == 8 && size < ROOM)
        room[size++] = (uint8_t)draw(256);
    else if (how == 9)
        for (size = draw(80); size != 0 && draw(8) != 0;)
            room[draw((uint32_t)size)] = (uint8_t)draw(256);
    *member = (passkey_bytes){ room, size };
}

static void judge_random(void)
{
    static uint8_t rooms[MEMBERS][ROOM], bytes[600];
    static const uint8_t *starts[512];
    const uint8_t *const groups[] = { chromium, firefox, rsa };
    uint32_t count = 0;
    record of;
    for (int group = 0; group < 3; group++)
        for (const uint8_t *at = groups[group]; *at != 0 && count < sizeof starts / sizeof *starts; at = read_record(at, &of))
            starts[count++] = at;
    memset(rooms, 0, sizeof rooms);
    for (seed = SEED; calls < CALLS;) {
        passkey_verified verified;
        read_record(starts[draw(count)], &of);
        for (uint32_t changes = draw(4); changes != 0; changes--)
            change(&of, rooms);
        const size_t message_room = draw(16) == 0 ? draw(200) : ROOM;
        const size_t signature_room = draw(16) == 0 ? draw(100) : ROOM;
        const bool is_asked = asked(&of, message_room, signature_room, &verified);
        if (draw(8) == 0)
            change(&of, rooms); /* after what was verified */
        judged(&of, is_asked ? &verified : NULL);
        if (draw(16) == 0) {
            const size_t size = draw(sizeof bytes);
            for (size_t i = 0; i < size; i++)
                bytes[i] = (uint8_t)draw(256);
            judge_cose(bytes, size);
        }
    }
}
