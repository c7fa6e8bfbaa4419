/* The questions of the program `answers`, one a line, answered through include/millettie.h: README.md says which there are. agree/run holds
   the two, and the same program in Rust, to the same answers. */
#define _POSIX_C_SOURCE 200809L
#include "millettie.h"
#include <inttypes.h>
#include <stdio.h>
#include <stdlib.h>
#include <string.h>

enum { MOST_WORDS = 6 };

struct bytes {
    uint8_t *at;
    size_t length;
};

/* A question's words after its name, taken from the front one by one; good stays true while each could be read as what it should spell. */
struct question {
    char *words[MOST_WORDS];
    int count;
    int taken;
    bool good;
};

static char *word(struct question *q) {
    static char none[] = "";
    if (q->taken < q->count) {
        return q->words[q->taken++];
    }
    q->good = false;
    return none;
}

/* A decimal number up to most. */
static uint64_t number(struct question *q, uint64_t most) {
    const char *s = word(q);
    uint64_t n = 0;
    if (*s == 0) {
        q->good = false;
    }
    for (; *s; s++) {
        if (*s < '0' || *s > '9' || n > (most - (uint64_t)(*s - '0')) / 10) {
            q->good = false;
            return 0;
        }
        n = n * 10 + (uint64_t)(*s - '0');
    }
    return n;
}

static bool big(struct question *q) {
    const char *s = word(q);
    bool is_big = strcmp(s, "B") == 0;
    if (!is_big && strcmp(s, "l") != 0) {
        q->good = false;
    }
    return is_big;
}

static int digit(char c) {
    if (c >= '0' && c <= '9') {
        return c - '0';
    }
    return c >= 'a' && c <= 'f' ? c - 'a' + 10 : -1;
}

/* The bytes stand where their digits stood. */
static struct bytes bytes(struct question *q) {
    char *s = word(q);
    size_t digits = strlen(s);
    struct bytes b = {(uint8_t *)s, digits / 2};
    if (strcmp(s, "-") == 0) {
        return b;
    }
    if (digits == 0 || digits % 2 != 0) {
        q->good = false;
    }
    for (size_t i = 0; i + 1 < digits; i += 2) {
        int high = digit(s[i]), low = digit(s[i + 1]);
        if (high < 0 || low < 0) {
            q->good = false;
            return b;
        }
        b.at[i / 2] = (uint8_t)(high * 16 + low);
    }
    return b;
}

/* Whether all words could be read and none is left. */
static bool asked(const struct question *q) { return q->good && q->taken == q->count; }

static void hex(const uint8_t *at, size_t length) {
    if (length == 0) {
        printf("-");
    }
    for (size_t i = 0; i < length; i++) {
        printf("%02x", at[i]);
    }
}

/* The length that was accepted, counted from a place; or the refusal. */
static void answer(struct mt_answer a, uint64_t place) {
    if (a.number == 0) {
        printf("ok %" PRIu64, place + a.length);
    } else {
        printf("no %" PRIu64 " %" PRIu64, a.position, a.number);
    }
}

static void written(struct mt_answer a, uint64_t place, struct bytes buf) {
    answer(a, place);
    printf(" ");
    hex(buf.at, buf.length);
}

static bool sig(struct question *q) {
    struct bytes s = bytes(q);
    if (!asked(q)) {
        return false;
    }
    answer(mt_check_signature(s.at, s.length), 0);
    return true;
}

static bool value(struct question *q) {
    bool order = big(q);
    uint64_t offset = number(q, UINT64_MAX);
    struct bytes s = bytes(q), buf = bytes(q);
    if (!asked(q)) {
        return false;
    }
    answer(mt_check_value(order, offset, buf.at, buf.length, s.at, s.length), 0);
    return true;
}

static bool fixed(struct question *q) {
    bool order = big(q);
    uint64_t offset = number(q, UINT64_MAX);
    struct bytes s = bytes(q), buf = bytes(q);
    if (!asked(q)) {
        return false;
    }
    struct mt_fixed f = mt_read_fixed(order, offset, buf.at, buf.length, s.at, s.length);
    if (f.answer.number != 0) {
        answer(f.answer, 0);
        return true;
    }
    printf("ok %c ", f.kind);
    if (f.kind == 'd' || f.kind == 'N') {
        printf("%016" PRIx64, f.bits);
    } else if (f.kind == 'n' || f.kind == 'i' || f.kind == 'x') {
        printf("%" PRId64, (int64_t)f.bits);
    } else {
        printf("%" PRIu64, f.bits);
    }
    return true;
}

static bool message(struct question *q) {
    struct bytes buf = bytes(q);
    if (!asked(q)) {
        return false;
    }
    answer(mt_check_message(buf.at, buf.length), 0);
    return true;
}

static bool next(struct question *q) {
    struct bytes buf = bytes(q);
    if (!asked(q)) {
        return false;
    }
    struct mt_next n = mt_next_message(buf.at, buf.length);
    if (n.state == MT_REFUSED) {
        printf("no %" PRIu64 " %" PRIu64, n.position, n.number);
    } else {
        printf("%s %" PRIu64, n.state == MT_WHOLE ? "whole" : "cut", n.length);
    }
    return true;
}

static void entry(struct mt_entry e) {
    if (e.kind == MT_ABSENT) {
        printf(" -");
    } else if (e.kind == MT_NUMBER) {
        printf(" n:%" PRIu64, e.value);
    } else {
        printf(" t:%" PRIu64 ":%" PRIu64, e.value, e.length);
    }
}

static bool header(struct question *q) {
    struct bytes buf = bytes(q);
    if (!asked(q)) {
        return false;
    }
    struct mt_header h = mt_read_header(buf.at, buf.length);
    answer(h.answer, 0);
    if (h.answer.number != 0) {
        return true;
    }
    printf(" %c %u %u %u %" PRIu32, h.big ? 'B' : 'l', h.type, h.flags, h.version, h.serial);
    printf(" %" PRIu64 " %" PRIu64, h.body_place, h.body_length);
    for (int i = 0; i < 9; i++) {
        entry(h.fields[i]);
    }
    return true;
}

static bool field(struct question *q) {
    uint64_t n = number(q, UINT64_MAX);
    /* a code above 255 is no field's, as 0 is none */
    uint8_t code = n <= UINT8_MAX ? (uint8_t)n : 0;
    struct bytes m = bytes(q), fallback = bytes(q);
    if (!asked(q)) {
        return false;
    }
    struct mt_part p = mt_lookup(m.at, m.length, code, fallback.at, fallback.length);
    printf("text ");
    if (p.in_message) {
        hex(m.at + p.place, p.length);
    } else {
        hex(fallback.at, fallback.length);
    }
    return true;
}

static bool pad(struct question *q) {
    uint64_t place = number(q, UINT64_MAX), alignment = number(q, UINT64_MAX);
    struct bytes buf = bytes(q);
    if (!asked(q)) {
        return false;
    }
    written(mt_write_padding(buf.at, buf.length, place, alignment), place, buf);
    return true;
}

static bool w16(struct question *q) {
    bool order = big(q);
    uint64_t place = number(q, UINT64_MAX);
    uint16_t n = (uint16_t)number(q, UINT16_MAX);
    struct bytes buf = bytes(q);
    if (!asked(q)) {
        return false;
    }
    written(mt_write_u16(buf.at, buf.length, place, n, order), place, buf);
    return true;
}

static bool w32(struct question *q) {
    bool order = big(q);
    uint64_t place = number(q, UINT64_MAX);
    uint32_t n = (uint32_t)number(q, UINT32_MAX);
    struct bytes buf = bytes(q);
    if (!asked(q)) {
        return false;
    }
    written(mt_write_u32(buf.at, buf.length, place, n, order), place, buf);
    return true;
}

static bool w64(struct question *q) {
    bool order = big(q);
    uint64_t place = number(q, UINT64_MAX), n = number(q, UINT64_MAX);
    struct bytes buf = bytes(q);
    if (!asked(q)) {
        return false;
    }
    written(mt_write_u64(buf.at, buf.length, place, n, order), place, buf);
    return true;
}

static bool wstr(struct question *q) {
    bool order = big(q);
    uint64_t place = number(q, UINT64_MAX);
    struct bytes text = bytes(q), buf = bytes(q);
    if (!asked(q)) {
        return false;
    }
    written(mt_write_string(buf.at, buf.length, place, text.at, text.length, order), place, buf);
    return true;
}

static bool wsig(struct question *q) {
    uint64_t place = number(q, UINT64_MAX);
    struct bytes s = bytes(q), buf = bytes(q);
    if (!asked(q)) {
        return false;
    }
    written(mt_write_signature(buf.at, buf.length, place, s.at, s.length), place, buf);
    return true;
}

static const struct {
    const char *name;
    bool (*ask)(struct question *);
} QUESTIONS[] = {{"sig", sig},     {"value", value}, {"fixed", fixed}, {"message", message}, {"next", next}, {"header", header}, {"field", field},
                 {"pad", pad},     {"w16", w16},     {"w32", w32},     {"w64", w64},         {"wstr", wstr}, {"wsig", wsig}};

/* Takes the line apart, at each space, into a name and words, and answers it; false if it is no question. */
static bool line(char *text) {
    struct question q = {.count = 0, .taken = 0, .good = true};
    char *rest = text;
    for (char *space; (space = strchr(rest, ' ')); rest = space + 1) {
        *space = 0;
        if (q.count == MOST_WORDS) {
            return false;
        }
        q.words[q.count++] = space + 1;
    }
    for (size_t i = 0; i < sizeof QUESTIONS / sizeof QUESTIONS[0]; i++) {
        if (strcmp(text, QUESTIONS[i].name) == 0) {
            return QUESTIONS[i].ask(&q);
        }
    }
    return false;
}

int main(void) {
    char *text = NULL;
    size_t room = 0;
    for (ssize_t n; (n = getline(&text, &room, stdin)) > 0;) {
        if (text[n - 1] == '\n') {
            text[--n] = 0;
        }
        /* a zero byte inside would end the text early */
        bool whole = strlen(text) == (size_t)n;
        printf("%s\n", whole && line(text) ? "" : "bad");
    }
    free(text);
    return fflush(stdout) == 0 && !ferror(stdout) ? 0 : 1;
}
