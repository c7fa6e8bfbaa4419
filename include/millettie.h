/* Millettie: the wire core of D-Bus, proved. Link libmillettie.a (`tools/archive` makes it).

   No function stops for any input, none keeps a pointer, and none allocates. A slice is a pointer and a length; with length 0 the pointer is
   not read. Readers write nothing. A buffer to write into must not overlap the text that is written. How much stack the calls need is said in
   README.md, "Stack". */
#ifndef MILLETTIE_H
#define MILLETTIE_H

#include <stdbool.h>
#include <stddef.h>
#include <stdint.h>

#ifdef __cplusplus
extern "C" {
#endif

/* The interface that this header describes. It grows when a function, a struct or a refusal changes: a program asks once whether the library
   that it was linked with has the same. */
#define MT_INTERFACE 2
uint32_t mt_interface(void);

/* Why something is refused. 2 and 3 mean "too short", and not "wait for ever": a whole message with a fault inside gets them too, where no further
   byte helps. mt_next_message tells the two apart. The other refusals of a reader, but for 1, stay whatever follows. */
enum mt_refusal { /* written by tools/refusals from docs/refusals.txt */
    MT_BAD_OFFSET = 1,                       /* the offset or the writing place lies behind the end of the bytes */
    MT_NOT_ENOUGH_BYTES = 2,                 /* a value, a field or a padding runs past its end, or an array's length is not a whole number of elements */
    MT_NOT_ENOUGH_BYTES_FOR_COLLECTION = 3,  /* the contents of an array or a dict run past the end of the bytes that they stand in */
    MT_PADDING_CONTAINED_DATA = 4,           /* a byte that only fills up to an alignment is not zero */
    MT_INVALID_BOOLEAN = 5,                  /* a boolean is neither 0 nor 1 */
    MT_INVALID_UTF8 = 6,                     /* a text is not UTF-8 */
    MT_STRING_CONTAINS_NULL_BYTE = 7,        /* a text has a zero byte inside */
    MT_MISSING_TERMINATOR = 8,               /* the byte after a text, which has to be zero, is not */
    MT_INVALID_OBJECT_PATH = 9,              /* an object path is neither / nor one or more names of A-Z a-z 0-9 _ with a / before each */
    MT_INVALID_SIGNATURE = 10,               /* a signature has a byte or a bracket that the grammar does not allow there */
    MT_EMPTY_SIGNATURE = 11,                 /* a signature is empty where a type has to stand */
    MT_EMPTY_STRUCT = 12,                    /* a signature has a struct without fields */
    MT_SIGNATURE_TOO_LONG = 13,              /* a signature has more than 255 bytes */
    MT_NESTING_TOO_DEEP = 14,                /* a signature nests more than 31 arrays or more than 31 structs */
    MT_WRONG_SIGNATURE = 15,                 /* a variant's signature is not exactly one type, or a known header field has another type than its own */
    MT_VARIANT_TOO_DEEP = 16,                /* a variant stands inside 16 others */
    MT_INVALID_BYTE_ORDER = 17,              /* the first byte is neither l nor B, so no message begins here */
    MT_INVALID_MESSAGE_TYPE = 18,            /* the second byte, the message's type, is not 1 to 4 */
    MT_NO_SIGNATURE = 19,                    /* a header field's signature is not exactly one type */
    MT_INVALID_HEADER_FIELD = 20,            /* a header field has the code 0 */
    MT_INVALID_HEADER_FIELDS = 21,           /* a header field that this type of message needs is absent, or a known one stands twice */
    MT_BODY_LEFT = 22,                       /* bytes of the body remain after the last value of its signature */
    MT_NO_ROOM = 23,                         /* there are fewer bytes after the place than the write needs */
    MT_BAD_ALIGNMENT = 24,                   /* the alignment asked for is not 1, 2, 4 or 8 */
    MT_TEXT_TOO_LONG = 25,                   /* a string to write has more than 4,294,967,295 bytes */
    MT_BAD_ARGUMENT = 26,                    /* the signature asked about is not exactly one type, or not one that this call takes */
};

/* number 0: accepted, and length counts. Any other number is an mt_refusal: position counts, and length is 0. */
struct mt_answer {
    uint64_t number;
    uint64_t position;
    uint64_t length;
};

enum mt_entry_kind { MT_ABSENT = 0, MT_NUMBER = 1, MT_TEXT = 2 };

/* A header field: absent (value and length 0), a number (value; length 0), or a text (its place in the message and its length). */
struct mt_entry {
    uint64_t kind;
    uint64_t value;
    uint64_t length;
};

/* A message's header. Where answer is a refusal, all else is 0. The field with code c (1 path, 2 interface, 3 member, 4 error name, 5 reply
   serial, 6 destination, 7 sender, 8 signature, 9 number of file descriptors) is fields[c - 1]. */
struct mt_header {
    struct mt_answer answer;
    bool big;
    uint8_t type;
    uint8_t flags;
    uint8_t version;
    uint32_t serial;
    uint64_t body_place;
    uint64_t body_length;
    struct mt_entry fields[9];
};

/* A value of fixed width. kind is the letter of its type, or 'N' for a double that is a NaN; bits are its bits, with its sign carried on to
   all 64. Where answer is a refusal, both are 0. answer.length is what mt_check_value answers: the padding and the value. */
struct mt_fixed {
    struct mt_answer answer;
    uint8_t kind;
    uint64_t bits;
};

/* A part of the message, or all of the caller's fallback. */
struct mt_part {
    bool in_message;
    uint64_t place;
    uint64_t length;
};

enum mt_state { MT_WHOLE = 0, MT_CUT = 1, MT_REFUSED = 2 };

/* What stands next in a stream. MT_WHOLE: a message of `length` bytes, all of it checked; it stays that, whatever follows. MT_CUT: fewer bytes are
   there than its first 16 state (or fewer than 16), and `length` is how many to wait for. MT_REFUSED: no message, whatever follows; `number` is
   an mt_refusal, and `position` counts. What does not count is 0. */
struct mt_next {
    uint64_t state;
    uint64_t number;
    uint64_t position;
    uint64_t length;
};

/* Checks a bare signature; length: how many types it spells. */
struct mt_answer mt_check_signature(const uint8_t *sig, size_t sig_len);

/* Checks the value of the one type that sig spells, at offset in buf; length: its bytes, padding before it included. */
struct mt_answer mt_check_value(bool big, size_t offset, const uint8_t *buf, size_t buf_len, const uint8_t *sig, size_t sig_len);

/* Checks the message at the start of buf; length: its bytes. The next message begins right behind them. */
struct mt_answer mt_check_message(const uint8_t *buf, size_t buf_len);

/* Says what stands at the start of buf, for whoever takes messages out of a stream: c/relay.c shows how. */
struct mt_next mt_next_message(const uint8_t *buf, size_t buf_len);

/* Reads the header of the message at the start of buf, once all of the message is checked; answer is mt_check_message's. */
struct mt_header mt_read_header(const uint8_t *buf, size_t buf_len);

/* Reads the value of fixed width at offset in buf, whose type (one of y b n q i u x t d h) sig spells. */
struct mt_fixed mt_read_fixed(bool big, size_t offset, const uint8_t *buf, size_t buf_len, const uint8_t *sig, size_t sig_len);

/* Finds the text of the header field with that code in a message. The fallback, whole, where there is none: no such field, a refused message,
   or a code that is not 1 2 3 4 6 7 or 8. It checks the whole message each time: who wants several fields reads them all by mt_read_header. */
struct mt_part mt_lookup(const uint8_t *message, size_t message_len, uint8_t code, const uint8_t *fallback, size_t fallback_len);

/* Writers put bytes at place in buf; length: how many. A refused write changes no byte. Only mt_write_padding pads. */

/* Writes zeros up to the next multiple of alignment: 1, 2, 4 or 8. */
struct mt_answer mt_write_padding(uint8_t *buf, size_t buf_len, size_t place, size_t alignment);

/* Writes an integer of 16 bits. */
struct mt_answer mt_write_u16(uint8_t *buf, size_t buf_len, size_t place, uint16_t value, bool big);

/* Writes an integer of 32 bits. */
struct mt_answer mt_write_u32(uint8_t *buf, size_t buf_len, size_t place, uint32_t value, bool big);

/* Writes an integer of 64 bits. */
struct mt_answer mt_write_u64(uint8_t *buf, size_t buf_len, size_t place, uint64_t value, bool big);

/* Writes a string: its length in 32 bits, its bytes, a zero. */
struct mt_answer mt_write_string(uint8_t *buf, size_t buf_len, size_t place, const uint8_t *text, size_t text_len, bool big);

/* Writes a signature: its length in one byte, its bytes, a zero. */
struct mt_answer mt_write_signature(uint8_t *buf, size_t buf_len, size_t place, const uint8_t *sig, size_t sig_len);

#ifdef __cplusplus
}
#endif

#endif
