/* Asks libdbus, one question a line of standard input, bytes in hex (`-` for none):
     message BYTES   the message at the start: `ok LENGTH` or `no`
     sig BYTES, path BYTES, utf8 BYTES   `ok` or `no`; `none` with a zero byte inside, since libdbus takes C strings here */
#include <dbus/dbus.h>
#include <stdio.h>
#include <stdlib.h>
#include <string.h>

static int digit(char c) { return c <= '9' ? c - '0' : c - 'a' + 10; }

/* The bytes of a hex word, and a zero behind them. */
static char *unhex(const char *word, size_t *length) {
    size_t digits = word[0] == '-' ? 0 : strspn(word, "0123456789abcdef");
    char *bytes = malloc(digits / 2 + 1);
    if (!bytes) abort();
    *length = digits / 2;
    for (size_t i = 0; i < *length; i++) bytes[i] = (char)(digit(word[2 * i]) << 4 | digit(word[2 * i + 1]));
    bytes[*length] = 0;
    return bytes;
}

/* libdbus says first how long the message is that begins here, and judges exactly these bytes: it would also judge what is behind them. */
static void message(const char *bytes, int length) {
    int needed = dbus_message_demarshal_bytes_needed(bytes, length);
    DBusMessage *message = needed > 0 && needed <= length ? dbus_message_demarshal(bytes, needed, NULL) : NULL;
    if (message) {
        printf("ok %d\n", needed);
        dbus_message_unref(message);
    } else {
        puts("no");
    }
}

static void text(const char *kind, const char *bytes, size_t length) {
    if (memchr(bytes, 0, length)) {
        puts("none");
        return;
    }
    dbus_bool_t ok = !strcmp(kind, "sig")    ? dbus_signature_validate(bytes, NULL)
                     : !strcmp(kind, "path") ? dbus_validate_path(bytes, NULL)
                                             : dbus_validate_utf8(bytes, NULL);
    puts(ok ? "ok" : "no");
}

int main(void) {
    char *line = NULL;
    size_t room = 0;
    while (getline(&line, &room, stdin) > 0) {
        char *word = strchr(line, ' ');
        if (!word) return 2;
        *word++ = 0;
        size_t length;
        char *bytes = unhex(word, &length);
        if (!strcmp(line, "message")) message(bytes, (int)length);
        else text(line, bytes, length);
        free(bytes);
    }
    free(line);
    return 0;
}
