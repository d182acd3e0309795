/* Thriftbell for C: the proved encoder's entries, each with the contract that crates/capi_c/src/lib.rt states.
 *
 * Link with target/staticlib/libcapi.a, which rust/library proves and writes, for x86-64:
 *     cc -o example c/example.c target/staticlib/libcapi.a
 *
 * A slice passes as a pointer and then its length, in elements; where the length is 0 the pointer may be null. Every other pointer points to one number. Pointers
 * to words and numbers are aligned as their type is. What is lent to be written overlaps nothing else that is lent.
 * Threads: no entry keeps anything between calls, so calls may run at once where none writes what another is lent.
 *
 * Every entry that answers uint32_t answers a number of enum thriftbell_answer. Beside any other answer than THRIFTBELL_OK every number lent is 0,
 * but for the room used, which stays, and every byte stays. Beside THRIFTBELL_OK, output past the result stays. */
#ifndef THRIFTBELL_H
#define THRIFTBELL_H

#include <stdbool.h>
#include <stddef.h>
#include <stdint.h>

enum thriftbell_answer {
    THRIFTBELL_OK = 0,               /* accepted */
    THRIFTBELL_STORE_OVER = 1,       /* store over its limit, or room used above its length */
    THRIFTBELL_NO_RECORD = 2,        /* words are no record, too many, or some left over */
    THRIFTBELL_BAD_TEXT = 3,         /* text too long, or a span ends past it */
    THRIFTBELL_BAD_NAME = 4,         /* a name is not UTF-8 */
    THRIFTBELL_BAD_EXPR = 5,         /* an expression is not one of the constant expressions */
    THRIFTBELL_ITEM_LARGE = 6,       /* item too long */
    THRIFTBELL_STORE_FULL = 7,       /* room used + item length + THRIFTBELL_FRAME_HEAD above store length */
    THRIFTBELL_BAD_ORDER = 8,        /* order list too long, or with a number that is no enum thriftbell_section */
    THRIFTBELL_NO_FRAMES = 9,        /* the store's frames do not end at room used */
    THRIFTBELL_OUTPUT_SHORT = 10,    /* output shorter than the result */
    THRIFTBELL_NOTHING_TO_READ = 11, /* no item of that section, or no number of that kind, begins the bytes */
    THRIFTBELL_BAD_LINE = 12         /* hex line malformed, too long, or with a wrong sum: told in the answer line alone */
};

/* The ids of sections: a record's first word, the members of an order list, and what thriftbell_read_item is told. */
enum thriftbell_section {
    THRIFTBELL_SECTION_TYPE = 1,
    THRIFTBELL_SECTION_IMPORT = 2,
    THRIFTBELL_SECTION_TABLE = 4,
    THRIFTBELL_SECTION_ELEMENT = 9,
    THRIFTBELL_SECTION_DATA = 11,
    THRIFTBELL_SECTION_DATA_COUNT = 12 /* in an order list alone */
};

enum thriftbell_limit {
    THRIFTBELL_MAX_STORE = 16777216, /* bytes of a store */
    THRIFTBELL_MAX_WORDS = 4096,     /* words of a record */
    THRIFTBELL_MAX_TEXT = 65536,     /* bytes of a record's text */
    THRIFTBELL_MAX_ITEM = 65536,     /* bytes of an item; reading one looks at no more */
    THRIFTBELL_MAX_ORDER = 32,       /* ids of an order list */
    THRIFTBELL_MAX_LINE = 8192,      /* digits of a hex line */
    THRIFTBELL_FRAME_HEAD = 5,       /* what an item takes in the store beside its own bytes */
    THRIFTBELL_MAX_NUMBER_32 = 5,    /* bytes of a number of 32 bits */
    THRIFTBELL_MAX_NUMBER_64 = 10,   /* bytes of a number of 64 bits */
    THRIFTBELL_MAX_CONST = 12        /* bytes of an expression made from a number */
};

#ifdef __cplusplus
extern "C" {
#endif

/* Writes a number in LEB128, in its shortest form, at the front of out: 0 and its length, or 10. */
uint32_t thriftbell_encode_u32(uint32_t v, uint8_t *out, size_t out_len, size_t *length);
uint32_t thriftbell_encode_u64(uint64_t v, uint8_t *out, size_t out_len, size_t *length);
uint32_t thriftbell_encode_i32(int32_t v, uint8_t *out, size_t out_len, size_t *length);
uint32_t thriftbell_encode_i64(int64_t v, uint8_t *out, size_t out_len, size_t *length);
/* The same for the index of a heap type: a signed number of 64 bits. */
uint32_t thriftbell_encode_index(uint32_t v, uint8_t *out, size_t out_len, size_t *length);

/* Reads a number, in its shortest form alone, from s at the place at: 0, its value and the place behind it, or 11. */
uint32_t thriftbell_decode_u32(const uint8_t *s, size_t s_len, size_t at, uint32_t *value, size_t *end);
uint32_t thriftbell_decode_u64(const uint8_t *s, size_t s_len, size_t at, uint64_t *value, size_t *end);
uint32_t thriftbell_decode_i32(const uint8_t *s, size_t s_len, size_t at, int32_t *value, size_t *end);
uint32_t thriftbell_decode_i64(const uint8_t *s, size_t s_len, size_t at, int64_t *value, size_t *end);
/* The same for the index of a heap type. */
uint32_t thriftbell_decode_index(const uint8_t *s, size_t s_len, size_t at, uint32_t *value, size_t *end);

/* How many bytes thriftbell_encode_u32 writes for n. No answer of the table. */
size_t thriftbell_encoding_size(uint32_t n);

/* Whether s is UTF-8, as names are. No answer of the table. */
bool thriftbell_is_name(const uint8_t *s, size_t s_len);

/* Whether the whole of s is a constant expression with its last 0B: 0 or 5. */
uint32_t thriftbell_check_expr(const uint8_t *s, size_t s_len);

/* Writes the expression 41 v 0B or 42 v 0B at the front of out: 0 and its length, or 10. */
uint32_t thriftbell_i32_const(int32_t v, uint8_t *out, size_t out_len, size_t *length);
uint32_t thriftbell_i64_const(int64_t v, uint8_t *out, size_t out_len, size_t *length);

/* Adds a record, its words and its text, to a store, of which used is the room used, 0 when fresh: 0, and used has grown by the frame, or the lowest of
 * 1 to 7 that applies, and used and the store stay. */
uint32_t thriftbell_add(size_t *used, uint8_t *store, size_t store_len, const uint32_t *words, size_t words_len, const uint8_t *text, size_t text_len);

/* Writes the module of a store's frames, by an order list of section ids and the data count, which section 12 says: 0 and its length, or the first of 1, 8, 9, 10
 * that applies. */
uint32_t thriftbell_finish(size_t used, const uint8_t *store, size_t store_len, const uint8_t *order, size_t order_len, uint32_t count, uint8_t *out, size_t out_len, size_t *length);

/* Reads the item of section id that begins the first THRIFTBELL_MAX_ITEM bytes, and writes its record's words, whose spans point into bytes: 0, how many words were
 * written and bytes taken, or 11, or 10. */
uint32_t thriftbell_read_item(uint8_t id, const uint8_t *bytes, size_t bytes_len, uint32_t *out, size_t out_len, size_t *words, size_t *taken);

/* Answers one hex line, without its line feed, by one line, without one, in out: 0 and the answer line's length, or 10 where out is shorter than the
 * longest answer, 2 + 2 * buffer_len. What the line draws, THRIFTBELL_BAD_LINE among it, stands in the answer line's first two digits. A finish writes its
 * module to buffer. */
uint32_t thriftbell_answer_line(const uint8_t *line, size_t line_len, size_t *used, uint8_t *store, size_t store_len, uint8_t *buffer, size_t buffer_len, uint8_t *out, size_t out_len, size_t *length);

#ifdef __cplusplus
}
#endif

#endif
