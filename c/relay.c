/* A relay loop in C: takes the messages out of standard input, however the reads cut it, and hands each on whole. To hand on is here to say how
   long the message is. It ends at the end of the input or at the first refusal, and says why.
   usage: relay [BYTES A READ, 4096 if not said] */
#include "millettie.h"

#include <errno.h>
#include <stdio.h>
#include <stdlib.h>
#include <string.h>
#include <unistd.h>

/* The Specification's limit for a message. The library itself has none, so a relay that holds bytes for a peer must. */
#define LONGEST ((size_t)128 << 20)

struct held {
    uint8_t *bytes;
    size_t length, room;
};

static void hand_on(const uint8_t *message, size_t length) {
    printf("%zu bytes, type %u\n", length, message[1]);
}

/* Hands on every whole message that is held: what stands behind them, and in taken how many bytes they took. */
static struct mt_next hand_on_held(const struct held *held, size_t *taken) {
    for (*taken = 0;;) {
        const uint8_t *rest = held->bytes + *taken;
        struct mt_next next = mt_next_message(rest, held->length - *taken);
        if (next.state != MT_WHOLE) return next;
        hand_on(rest, next.length);
        *taken += next.length;
    }
}

/* Reads until at least `wanted` bytes are held; 0 if the stream ends before, -1 if it cannot go on. */
static int fill(struct held *held, size_t wanted, size_t piece) {
    if (held->room < wanted + piece) {
        uint8_t *more = realloc(held->bytes, wanted + piece);
        if (!more) return -1;
        held->bytes = more;
        held->room = wanted + piece;
    }
    while (held->length < wanted) {
        ssize_t n = read(STDIN_FILENO, held->bytes + held->length, piece);
        if (n == 0) return 0;
        if (n > 0) held->length += n;
        else if (errno != EINTR) return -1;
    }
    return 1;
}

/* Why it stops, for whoever reads the log. */
static int stopped(size_t passed, const char *why, uint64_t number, uint64_t position) {
    printf("stopped after %zu good bytes: %s", passed, why);
    if (number) printf(" %llu at byte %llu of the message", (unsigned long long)number, (unsigned long long)position);
    printf("\n");
    return 1;
}

static int relay(struct held *held, size_t piece) {
    for (size_t passed = 0;;) {
        size_t taken;
        struct mt_next next = hand_on_held(held, &taken);
        passed += taken;
        held->length -= taken;
        if (taken) memmove(held->bytes, held->bytes + taken, held->length);
        if (next.state == MT_REFUSED) return stopped(passed, "refusal", next.number, next.position);
        if (next.length > LONGEST) return stopped(passed, "a message is too long", 0, 0);
        int filled = fill(held, next.length, piece);
        if (filled < 0) return stopped(passed, strerror(errno), 0, 0);
        if (filled == 0 && held->length) return stopped(passed, "the stream ends inside a message", 0, 0);
        if (filled == 0) return printf("all of %zu bytes handed on\n", passed) < 0;
    }
}

int main(int count, char **words) {
    struct held held = {NULL, 0, 0};
    size_t piece = count > 1 ? strtoul(words[1], NULL, 10) : 4096;
    if (mt_interface() != MT_INTERFACE || piece == 0) {
        fprintf(stderr, piece ? "library and header do not fit\n" : "usage: relay [BYTES A READ]\n");
        return 2;
    }
    int status = relay(&held, piece);
    free(held.bytes);
    return status;
}
