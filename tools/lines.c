/* Requests on standard input, one to a line, and `REQUEST = ANSWER` for each on standard output. What stands behind ` = ` in
 * a request is passed over, and so are empty lines and those that start with `#`. A request that cannot be read gets
 * ` = error`. docs/LINES.md has the requests. */
#define _POSIX_C_SOURCE 200809L
#include "tulgranie.h"

#include <stdio.h>
#include <stdlib.h>
#include <string.h>

/* The words of a request that are left. */
typedef struct {
    char *at;
    bool bad;
} words;

typedef struct {
    uint8_t *at;
    size_t length;
} bytes;

/* Cuts off and returns the text before the next `mark`, or what is left. */
static char *part(char **at, char mark)
{
    char *start = *at;
    char *end = start ? strchr(start, mark) : NULL;
    if (end) {
        *end = '\0';
        *at = end + 1;
    } else {
        *at = NULL;
    }
    return start;
}

static char *word(words *w, char mark)
{
    char *text = part(&w->at, mark);
    if (!text || !*text) {
        w->bad = true;
        return "";
    }
    return text;
}

static int digit(char c)
{
    if (c >= '0' && c <= '9') return c - '0';
    if (c >= 'a' && c <= 'f') return c - 'a' + 10;
    return -1;
}

/* 1 to 16 hexadecimal digits. */
static uint64_t hex(words *w, char mark)
{
    const char *text = word(w, mark);
    size_t n = strlen(text);
    uint64_t value = 0;
    if (n > 16) w->bad = true;
    for (size_t i = 0; i < n && i < 16; i++) {
        int d = digit(text[i]);
        if (d < 0) w->bad = true;
        value = value << 4 | (uint64_t)(d < 0 ? 0 : d);
    }
    return value;
}

/* A decimal number that a setting or a size can have. */
static uint64_t decimal(words *w, char mark)
{
    const char *text = word(w, mark);
    uint64_t value = 0;
    if (strlen(text) > 9) w->bad = true;
    for (const char *c = text; *c && !w->bad; c++) {
        if (*c < '0' || *c > '9') w->bad = true;
        value = value * 10 + (uint64_t)(*c - '0');
    }
    return value;
}

static bool bit(words *w, char mark)
{
    const char *text = word(w, mark);
    if (strcmp(text, "0") != 0 && strcmp(text, "1") != 0) w->bad = true;
    return strcmp(text, "1") == 0;
}

/* Two digits a byte, written over the text itself. */
static bytes digits(char *text, bool *bad)
{
    bytes b = {(uint8_t *)text, strlen(text) / 2};
    if (strlen(text) % 2) *bad = true;
    for (size_t i = 0; i < b.length; i++) {
        int high = digit(text[2 * i]), low = digit(text[2 * i + 1]);
        if (high < 0 || low < 0) {
            *bad = true;
            break;
        }
        b.at[i] = (uint8_t)(high * 16 + low);
    }
    return b;
}

/* `-` stands for no bytes. */
static bytes hex_bytes(words *w, char mark)
{
    char *text = word(w, mark);
    if (w->bad || strcmp(text, "-") == 0) return (bytes){NULL, 0};
    return digits(text, &w->bad);
}

static tulgranie_secrets secrets(words *w, char mark)
{
    tulgranie_secrets s;
    s.seed = hex(w, mark);
    for (int i = 0; i < 7; i++) s.secrets[i] = hex(w, mark);
    return s;
}

static tulgranie_stream state(words *w)
{
    tulgranie_stream s;
    words in = {word(w, ' '), w->bad};
    memset(&s, 0, sizeof s);
    if (decimal(&in, ',') != 7) in.bad = true;
    s.settings.secrets = secrets(&in, ',');
    s.settings.avalanche = bit(&in, ',');
    s.settings.is_protected = bit(&in, ',');
    for (int i = 0; i < 7; i++) s.lanes[i] = hex(&in, ',');
    s.count = hex(&in, ',');
    s.waiting = (size_t)hex(&in, ',');
    bytes buffer = hex_bytes(&in, ',');
    if (decimal(&in, ',') != 0 || in.at || buffer.length != sizeof s.buffer) in.bad = true;
    if (in.bad) w->bad = true;
    else memcpy(s.buffer, buffer.at, sizeof s.buffer);
    return s;
}

static void show_hex(uint64_t value)
{
    printf("%016llx", (unsigned long long)value);
}

static void show_bytes(const uint8_t *at, size_t length)
{
    static const char glyphs[] = "0123456789abcdef";
    if (length == 0) putchar('-');
    for (size_t i = 0; i < length; i++) {
        putchar(glyphs[at[i] >> 4]);
        putchar(glyphs[at[i] & 15]);
    }
}

static void show_secrets(tulgranie_secrets s, char mark)
{
    show_hex(s.seed);
    for (int i = 0; i < 7; i++) {
        putchar(mark);
        show_hex(s.secrets[i]);
    }
}

static void show_state(tulgranie_stream s)
{
    printf("7,");
    show_secrets(s.settings.secrets, ',');
    printf(",%d,%d", s.settings.avalanche, s.settings.is_protected);
    for (int i = 0; i < 7; i++) {
        putchar(',');
        show_hex(s.lanes[i]);
    }
    putchar(',');
    show_hex(s.count);
    putchar(',');
    show_hex((uint64_t)s.waiting);
    putchar(',');
    show_bytes(s.buffer, sizeof s.buffer);
    printf(",0");
}

static void show_value(tulgranie_value v)
{
    printf("%llu ", (unsigned long long)v.number);
    show_hex(v.value);
}

/* One call of a sequence, and its answer; false if it cannot be read. */
static bool call(tulgranie_stream *s, char *text)
{
    if (text[0] == 'W') {
        bool bad = false;
        bytes data = digits(text + 1, &bad);
        if (bad) return false;
        tulgranie_stream_wrote a = tulgranie_stream_write(s, data.at, data.length);
        printf("W%llu:", (unsigned long long)a.number);
        show_hex(a.room);
    } else if (strcmp(text, "F") == 0) {
        tulgranie_stream_end e = tulgranie_stream_finish(s);
        printf("F%llu:", (unsigned long long)e.number);
        show_hex(e.hash);
        putchar(':');
        show_hex(e.count);
    } else if (strcmp(text, "R") == 0) {
        tulgranie_stream_reset(s);
        putchar('R');
    } else {
        return false;
    }
    return true;
}

/* Every call must be one before the first is answered, so that an error stands alone. */
static bool are_calls(const char *text)
{
    while (*text) {
        size_t n = strcspn(text, "/");
        if (text[0] == 'W') {
            if (n % 2 == 0 || strspn(text + 1, "0123456789abcdef") != n - 1) return false;
        } else if (n > 1 || (n == 1 && text[0] != 'F' && text[0] != 'R')) {
            return false;
        }
        text += n + (text[n] == '/');
    }
    return true;
}

static bool answer_calls(words *w)
{
    uint64_t lanes = decimal(w, ' ');
    bool avalanche = bit(w, ' '), is_protected = bit(w, ' ');
    tulgranie_secrets s = secrets(w, ' ');
    uint64_t number = decimal(w, ' ');
    char *calls = word(w, ' ');
    if (w->bad || w->at || lanes != 7 || number != 0 || !are_calls(calls)) return false;
    tulgranie_stream stream = tulgranie_stream_open(s, avalanche, is_protected);
    bool some = false;
    while (calls) {
        char *text = part(&calls, '/');
        if (!*text) continue;
        if (some) putchar('/');
        call(&stream, text);
        some = true;
    }
    putchar(' ');
    show_state(stream);
    return true;
}

static bool answer_record(const char *kind, words *w)
{
    if (strcmp(kind, "read") == 0) {
        bytes record = hex_bytes(w, ' ');
        if (w->bad || w->at) return false;
        tulgranie_answer a = tulgranie_read(record.at, record.length);
        printf("%llu %llu %llu", (unsigned long long)a.number, (unsigned long long)a.place, (unsigned long long)a.tag);
    } else if (strcmp(kind, "find") == 0) {
        bytes record = hex_bytes(w, ' '), tags = hex_bytes(w, ' ');
        if (w->bad || w->at) return false;
        tulgranie_answer a = tulgranie_find(record.at, record.length, tags.at, tags.length);
        printf("%llu %llu %llu ", (unsigned long long)a.number, (unsigned long long)a.tag, (unsigned long long)a.place);
        show_bytes(a.length ? record.at + a.start : NULL, (size_t)a.length);
    } else {
        tulgranie_secrets s = secrets(w, ' ');
        bytes record = hex_bytes(w, ' ');
        if (w->bad || w->at) return false;
        tulgranie_answer a = tulgranie_fingerprint(record.at, record.length, s);
        printf("%llu %llu %llu ", (unsigned long long)a.number, (unsigned long long)a.place, (unsigned long long)a.tag);
        show_hex(a.fingerprint);
    }
    return true;
}

static bool answer_hash(const char *kind, words *w)
{
    bool avalanche = bit(w, ' '), is_protected = bit(w, ' '), compact = bit(w, ' ');
    tulgranie_secrets s = secrets(w, ' ');
    bytes data = hex_bytes(w, ' ');
    if (w->bad || w->at) return false;
    if (kind[0] == 'f') show_hex(tulgranie_full(data.at, data.length, s, avalanche, compact, is_protected));
    else if (kind[0] == 'm') show_hex(tulgranie_micro(data.at, data.length, s, avalanche, is_protected));
    else show_hex(tulgranie_nano(data.at, data.length, s, avalanche, is_protected));
    return true;
}

/* The file form: a stream with the default secrets, written to in parts of 8,192 bytes. */
static bool answer_file(const char *kind, words *w)
{
    (void)kind;
    bytes data = hex_bytes(w, ' ');
    if (w->bad || w->at) return false;
    tulgranie_stream stream = tulgranie_stream_open(tulgranie_default_secrets(), true, false);
    for (size_t at = 0; at < data.length;) {
        size_t n = data.length - at < 8192 ? data.length - at : 8192;
        tulgranie_stream_write(&stream, data.at + at, n);
        at += n;
    }
    show_hex(tulgranie_stream_finish(&stream).hash);
    return true;
}

static bool answer_secrets(const char *kind, words *w)
{
    if (strcmp(kind, "default") == 0) {
        if (w->at) return false;
        show_secrets(tulgranie_default_secrets(), ' ');
    } else if (strcmp(kind, "reseed") == 0) {
        tulgranie_secrets s = secrets(w, ' ');
        if (w->bad || w->at) return false;
        show_secrets(tulgranie_reseed(s), ' ');
    } else if (strcmp(kind, "secret") == 0) {
        tulgranie_secrets s = {0, {0}};
        for (int i = 0; i < 7; i++) s.secrets[i] = hex(w, ' ');
        uint64_t index = hex(w, ' ');
        if (w->bad || w->at) return false;
        show_value(tulgranie_secret(s, (size_t)index));
    } else {
        uint64_t number = hex(w, ' ');
        if (w->bad || w->at) return false;
        show_secrets(strcmp(kind, "seed") == 0 ? tulgranie_seed(number) : tulgranie_seed_cpp(number), ' ');
    }
    return true;
}

static bool answer_word(const char *kind, words *w)
{
    bytes b = hex_bytes(w, ' ');
    uint64_t offset = hex(w, ' ');
    if (w->bad || w->at) return false;
    if (strcmp(kind, "word8") == 0) show_value(tulgranie_word8(b.at, b.length, (size_t)offset));
    else show_value(tulgranie_word4(b.at, b.length, (size_t)offset));
    return true;
}

static bool answer_state(const char *kind, words *w)
{
    tulgranie_stream s = state(w);
    if (strcmp(kind, "swrite") == 0) {
        bytes data = hex_bytes(w, ' ');
        if (w->bad || w->at) return false;
        tulgranie_stream_wrote a = tulgranie_stream_write(&s, data.at, data.length);
        printf("%llu ", (unsigned long long)a.number);
        show_hex(a.room);
        putchar(' ');
        show_state(s);
        return true;
    }
    if (w->bad || w->at) return false;
    if (strcmp(kind, "sfinish") == 0) {
        tulgranie_stream_end e = tulgranie_stream_finish(&s);
        printf("%llu ", (unsigned long long)e.number);
        show_hex(e.hash);
        putchar(' ');
        show_hex(e.count);
    } else {
        tulgranie_stream_reset(&s);
        show_state(s);
    }
    return true;
}

static const struct {
    const char *kind;
    bool (*answer)(const char *, words *);
} kinds[] = {
    {"word8", answer_word},   {"word4", answer_word},     {"full", answer_hash},      {"micro", answer_hash},
    {"nano", answer_hash},    {"seed", answer_secrets},   {"seed_cpp", answer_secrets}, {"reseed", answer_secrets},
    {"default", answer_secrets}, {"secret", answer_secrets}, {"swrite", answer_state}, {"sfinish", answer_state},
    {"sreset", answer_state}, {"read", answer_record},    {"find", answer_record},    {"finger", answer_record},
    {"file", answer_file},
};

static bool answer(char *request)
{
    words w = {request, false};
    const char *kind = word(&w, ' ');
    if (strcmp(kind, "calls") == 0) return answer_calls(&w);
    for (size_t i = 0; i < sizeof kinds / sizeof kinds[0]; i++)
        if (strcmp(kind, kinds[i].kind) == 0) return kinds[i].answer(kind, &w);
    return false;
}

int main(void)
{
    char *line = NULL;
    size_t room = 0;
    ssize_t n;
    while ((n = getline(&line, &room, stdin)) >= 0) {
        if (n > 0 && line[n - 1] == '\n') line[--n] = '\0';
        if (n == 0 || line[0] == '#') continue;
        char *stored = strstr(line, " = ");
        if (stored) *stored = '\0';
        printf("%s = ", line);
        if (strlen(line) != (size_t)(stored ? stored - line : n) || !answer(line)) printf("error");
        putchar('\n');
    }
    free(line);
    if (fflush(stdout) != 0 || ferror(stdin)) return 1;
    return 0;
}
