/* The header's structs have the sizes and the offsets that the library's have. The library says what it lays out by what it
 * answers: each struct that crosses over is filled with numbers that all differ, and every field must come back where the
 * header has it. */
#include "tulgranie.h"

#include <stdio.h>
#include <string.h>

static int wrong = 0;

static void check(bool ok, const char *what)
{
    if (!ok) {
        printf("layout: %s\n", what);
        wrong++;
    }
}

#define SIZE(type, size) check(sizeof(type) == (size), "size of " #type)
#define PLACE(type, field, place) check(offsetof(type, field) == (place), "place of " #field " in " #type)

int main(void)
{
    SIZE(tulgranie_secrets, 64);
    PLACE(tulgranie_secrets, secrets, 8);
    SIZE(tulgranie_value, 16);
    SIZE(tulgranie_settings, 72);
    PLACE(tulgranie_settings, avalanche, 64);
    PLACE(tulgranie_settings, is_protected, 65);
    SIZE(tulgranie_stream, 272);
    PLACE(tulgranie_stream, lanes, 72);
    PLACE(tulgranie_stream, count, 128);
    PLACE(tulgranie_stream, waiting, 136);
    PLACE(tulgranie_stream, buffer, 144);
    SIZE(tulgranie_stream_wrote, 16);
    PLACE(tulgranie_stream_wrote, room, 8);
    SIZE(tulgranie_stream_end, 24);
    SIZE(tulgranie_answer, 48);
    PLACE(tulgranie_answer, fingerprint, 40);

    /* secrets: reseed keeps all seven where they are, and each is found by its index */
    tulgranie_secrets s = {11, {21, 22, 23, 24, 25, 26, 27}};
    tulgranie_secrets t = tulgranie_reseed(s);
    check(t.seed != s.seed && memcmp(t.secrets, s.secrets, sizeof s.secrets) == 0, "secrets go over and come back");
    for (size_t i = 0; i < 7; i++) check(tulgranie_secret(s, i).value == 21 + i, "a secret by index");
    check(tulgranie_secret(s, 7).number == 3, "a number beside a value");

    /* a struct of zeros is a sound state, as the header warns: the opening with seed 0, secrets 0 and both flags off */
    tulgranie_stream zeros;
    tulgranie_secrets all_zero = {0, {0, 0, 0, 0, 0, 0, 0}};
    memset(&zeros, 0, sizeof zeros);
    tulgranie_stream opening = tulgranie_stream_open(all_zero, false, false);
    check(tulgranie_stream_write(&zeros, (const uint8_t *)"AT", 2).number == 0, "a struct of zeros takes bytes");
    check(tulgranie_stream_write(&opening, (const uint8_t *)"AT", 2).number == 0, "an opening takes bytes");
    check(tulgranie_stream_finish(&zeros).hash == tulgranie_stream_finish(&opening).hash, "a struct of zeros is that opening");

    /* a state that is not sound comes back as it is, byte for byte, beside its number */
    for (int flags = 0; flags < 4; flags++) {
        tulgranie_stream h;
        memset(&h, 0, sizeof h);
        h.settings.secrets = s;
        h.settings.avalanche = flags & 1;
        h.settings.is_protected = flags & 2;
        for (int i = 0; i < 7; i++) h.lanes[i] = 31 + (uint64_t)i;
        h.count = 41;
        h.waiting = 113;
        for (int i = 0; i < 128; i++) h.buffer[i] = (uint8_t)(i + 1);
        tulgranie_stream g = h;
        tulgranie_stream_wrote a = tulgranie_stream_write(&g, (const uint8_t *)"x", 1);
        check(a.number == 1 && a.room == 0, "a refused write's number");
        check(memcmp(&g.settings.secrets, &s, sizeof s) == 0, "secrets in a state");
        check(g.settings.avalanche == (flags & 1), "avalanche in a state");
        check(g.settings.is_protected == !!(flags & 2), "protected in a state");
        check(memcmp(g.lanes, h.lanes, sizeof h.lanes) == 0, "lanes in a state");
        check(g.count == 41 && g.waiting == 113, "count and waiting bytes in a state");
        check(memcmp(g.buffer, h.buffer, sizeof h.buffer) == 0, "the buffer in a state");
        check(tulgranie_stream_finish(&g).number == 1, "no end of such a state");
        tulgranie_stream_reset(&g);
        check(g.lanes[0] == 11 && g.lanes[6] == 11 && g.count == 0 && g.waiting == 0 && g.buffer[127] == 0, "a state reset");
        check(memcmp(&g.settings.secrets, &s, sizeof s) == 0 && g.settings.avalanche == (flags & 1), "settings kept");
    }

    /* a write in place changes what it must and nothing behind the state */
    struct {
        tulgranie_stream stream;
        uint8_t behind[16];
    } pair;
    memset(&pair, 0xa5, sizeof pair);
    pair.stream = tulgranie_stream_open(s, true, false);
    tulgranie_stream before = pair.stream;
    uint8_t data[113];
    for (int i = 0; i < 113; i++) data[i] = (uint8_t)(i + 1);
    check(tulgranie_stream_write(&pair.stream, data, 112).number == 0, "a write");
    check(pair.stream.count == 0 && pair.stream.waiting == 112 && memcmp(pair.stream.buffer + 16, data, 112) == 0, "112 bytes wait");
    check(tulgranie_stream_write(&pair.stream, data + 112, 1).number == 0, "one byte more");
    check(pair.stream.count == 1 && pair.stream.waiting == 1 && pair.stream.buffer[16] == 113, "a chunk is mixed");
    check(memcmp(pair.stream.buffer, data + 96, 16) == 0, "the chunk's last bytes are kept");
    check(tulgranie_stream_finish(&pair.stream).hash == tulgranie_full(data, 113, s, true, false, false), "the hash of both");
    tulgranie_stream_reset(&pair.stream);
    check(memcmp(pair.stream.lanes, before.lanes, sizeof before.lanes) == 0 && pair.stream.waiting == 0, "reset in place");
    for (int i = 0; i < 16; i++) check(pair.behind[i] == 0xa5, "bytes behind the state");

    /* a full sound stream: the room beside number 2 */
    tulgranie_stream full = tulgranie_stream_open(s, true, false);
    full.count = 164703072086692425u;
    full.waiting = 15;
    for (int i = 0; i < 15; i++) full.buffer[16 + i] = 1;
    tulgranie_stream_wrote r = tulgranie_stream_write(&full, (const uint8_t *)"xy", 2);
    check(r.number == 2 && r.room == 0, "room beside number 2");
    tulgranie_stream_end e = tulgranie_stream_finish(&full);
    check(e.number == 0 && e.count == 164703072086692425u, "the count of an end");

    /* an answer about a record has every field in its place */
    static const uint8_t record[] = {1, 1, 0, 'A', 2, 0, 0, 128, 2, 0, 'x', 'y'};
    static const uint8_t tags[] = {128};
    tulgranie_answer a = tulgranie_find(record, sizeof record, tags, 1);
    check(a.number == 0 && a.place == 7 && a.tag == 128 && a.start == 10 && a.length == 2 && a.fingerprint == 0, "a field");
    a = tulgranie_fingerprint(record, sizeof record, s);
    check(a.number == 0 && a.fingerprint == tulgranie_full(record + 3, 1, s, true, false, false), "a fingerprint");
    a = tulgranie_read(record, 9);
    check(a.number == 6 && a.place == 7 && a.tag == 0 && a.start == 0 && a.length == 0, "a refusal");

    /* no bytes, from nowhere */
    check(tulgranie_read(NULL, 0).number == 10, "no record");
    check(tulgranie_find(record, sizeof record, NULL, 0).number == 11, "no tags");
    check(tulgranie_word8(NULL, 0, 0).number == 3 && tulgranie_word4(NULL, 0, SIZE_MAX).number == 3, "no words");
    check(tulgranie_full(NULL, 0, s, true, false, false) == tulgranie_full(record, 0, s, true, true, false), "no message");
    tulgranie_stream none = tulgranie_stream_open(s, true, false);
    check(tulgranie_stream_write(&none, NULL, 0).number == 0 && none.waiting == 0, "an empty write");

    printf("layout: %s\n", wrong ? "WRONG" : "the header and the library agree");
    return wrong != 0;
}
