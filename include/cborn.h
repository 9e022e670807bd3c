/* cborn: CBOR (RFC 8949) in its one deterministic encoding, checked, compared
 * and shown in diagnostic notation.
 *
 * Every call is a function of its arguments. Nothing is kept between calls, and
 * no file, environment or clock is read. Any number of threads may call at once.
 * Memory comes from malloc, and all of it is freed before a call returns.
 *
 * For every input it is proved that a call ends, reads and writes nothing but its
 * arguments and its own memory, and answers what the comment at its declaration
 * says. That holds of the functions in the library, on the terms of cborn's
 * README. This header, the linking and the bindings are tested, not proved.
 *
 * What the caller has to ensure, since nothing checks it:
 *  - input points to input_len readable bytes, out to out_len writable bytes, told
 *    and place to one aligned value each. If a length is 0, its pointer may be
 *    NULL.
 *  - out, told and place overlap neither each other nor an input, and no other
 *    thread writes an input, or touches the others, while the call runs.
 *  - a length is at most SIZE_MAX / 2.
 *  - the thread has the stack that the call takes: CBORN_STACK(depth) bytes.
 *    With less, deeply nested input can overflow the stack and crash the process.
 *    So choose the depth by the stack.
 *
 * A fault is why an input is refused: it is malformed, or has a validity error. A
 * defect is why a valid input isn't in the deterministic encoding.
 */
#ifndef CBORN_H
#define CBORN_H

#include <stddef.h>
#include <stdint.h>

#ifdef __cplusplus
extern "C" {
#endif

/* The version of this header as one number: the major version times 65536, the minor one times 256,
 * and the patch. After a release the source has the number of the next one: this is 0.6.0-dev. */
#define CBORN_VERSION 0x000600

/* The format of an input or an output. As output both notations are the same. */
enum {
    CBORN_WIRE = 0,      /* CBOR bytes: data items one after another (RFC 8742) */
    CBORN_NOTATION = 1,  /* diagnostic notation (RFC 8949 section 8, RFC 8610 Appendix G) */
    CBORN_NOTATION_2 = 2 /* diagnostic notation with comments from # to the end of a line, and trailing commas */
};

/* The sort order of map keys: by encoded bytes (RFC 8949 section 4.2.1), or
 * shortest first (section 4.2.3). */
enum { CBORN_BYTEWISE = 0, CBORN_LENGTH_FIRST = 1 };

/* The maximum nesting depth of arrays, maps and tags: from 1 to CBORN_MOST_DEPTH. */
enum { CBORN_USUAL_DEPTH = 128, CBORN_MOST_DEPTH = 1024 };

/* What a call answers, other than a fault or a defect. */
enum {
    CBORN_OK = 0,            /* done; the same; deterministic */
    CBORN_TOO_SMALL = 1,     /* out is too small, and unchanged; told->length is the length needed */
    CBORN_BAD_ARGUMENT = 2,  /* an invalid format, order, depth, start or number; *told and *place are unchanged */
    CBORN_OUT_OF_MEMORY = 3, /* malloc or realloc refused */
    CBORN_TOO_LONG = 4,      /* an input has more than 2^30 bytes */
    CBORN_DIFFERENT = 5      /* cborn_compare, cborn_same, cborn_compare_one: the items differ; of cborn_compare, *place says where */
};

/* The faults of an input: the class in the high byte, the reason in the low one.
 * No number ever changes its meaning; docs/FORMATS.md says when each applies. */
enum {
    /* malformed bytes */
    CBORN_RESERVED_ADDITIONAL_INFORMATION = 0x101, /* reserved additional information */
    CBORN_INDEFINITE_LENGTH_NOT_ALLOWED = 0x102,   /* indefinite length not allowed */
    CBORN_BAD_CHUNK = 0x103,                       /* bad chunk */
    CBORN_UNEXPECTED_BREAK = 0x104,                /* unexpected break */
    CBORN_FLOAT_LEFT_OUT = 0x105,                  /* float left out */
    CBORN_BAD_SIMPLE = 0x106,                      /* bad simple */
    CBORN_TOO_DEEP = 0x107,                        /* too deep */
    CBORN_TRUNCATED = 0x108,                       /* truncated */
    /* notation with an invalid token */
    CBORN_TEXT_UNEXPECTED_CHARACTER = 0x201,       /* unexpected character */
    CBORN_TEXT_UNCLOSED_STRING = 0x202,            /* unclosed string */
    CBORN_TEXT_UNCLOSED_COMMENT = 0x203,           /* unclosed comment */
    CBORN_TEXT_BAD_ESCAPE = 0x204,                 /* bad escape */
    CBORN_TEXT_BAD_HEX = 0x205,                    /* bad hex */
    CBORN_TEXT_BAD_BASE64 = 0x206,                 /* bad base64 */
    CBORN_TEXT_UNKNOWN_PREFIX = 0x207,             /* unknown prefix */
    CBORN_TEXT_BAD_NUMBER = 0x208,                 /* bad number */
    CBORN_TEXT_NUMBER_TOO_LARGE = 0x209,           /* number too large */
    CBORN_TEXT_BAD_INDICATOR = 0x20a,              /* bad indicator */
    CBORN_TEXT_FLOAT_LEFT_OUT = 0x20b,             /* float left out */
    /* notation with a syntax error between tokens, or that notates no item */
    CBORN_TEXT_UNEXPECTED_TOKEN = 0x301,           /* unexpected token */
    CBORN_TEXT_UNEXPECTED_END = 0x302,             /* unexpected end */
    CBORN_TEXT_TOO_DEEP = 0x303,                   /* too deep */
    CBORN_TEXT_INDICATOR_TOO_NARROW = 0x304,       /* indicator too narrow */
    CBORN_TEXT_INDICATOR_NOT_ALLOWED = 0x305,      /* indicator not allowed */
    CBORN_TEXT_MIXED_STRING = 0x306,               /* mixed string */
    CBORN_TEXT_MIXED_CHUNKS = 0x307,               /* mixed chunks */
    CBORN_TEXT_NOT_UTF8 = 0x308,                   /* text not UTF-8 */
    CBORN_TEXT_BAD_SIMPLE = 0x309,                 /* bad simple */
    CBORN_TEXT_TAG_TOO_LARGE = 0x30a,              /* tag too large */
    /* not UTF-8: a whole input of notation, or a text string to be shown */
    CBORN_INPUT_NOT_UTF8 = 0x401,                  /* not UTF-8 */
    CBORN_SHOWN_NOT_UTF8 = 0x402,                  /* not UTF-8 */
    /* a validity error */
    CBORN_INVALID_NOT_UTF8 = 0x501,                /* not UTF-8 */
    CBORN_INVALID_BAD_BIGNUM = 0x502,              /* bad bignum */
    CBORN_INVALID_DUPLICATE_KEY = 0x503,           /* duplicate key */
    /* the defects, of cborn_check alone: valid, but not deterministic */
    CBORN_DEFECT_LONG_HEAD = 0x601,                /* long head */
    CBORN_DEFECT_INDEFINITE_LENGTH = 0x602,        /* indefinite length */
    CBORN_DEFECT_LOOSE_BIGNUM = 0x603,             /* loose bignum */
    CBORN_DEFECT_KEY_ORDER = 0x604,                /* key order */
    /* of the calls .._one: the input has no other fault, but isn't one item; and of cborn_item_end */
    CBORN_NO_ITEM = 0x701,                         /* no item */
    CBORN_MORE_ITEMS = 0x702,                      /* more than one item */
    /* cborn_compare, cborn_same and cborn_compare_one: added to a fault of the second input */
    CBORN_OF_SECOND = 0x10000
};

/* How many bytes are enough for the words of any fault or defect, with the zero at their end. */
enum { CBORN_MOST_WORDS = 64 };

/* The most bytes of stack that a call takes, as measured. */
#define CBORN_STACK(depth) (20480 + 480 * (depth))

/* What a call reports in addition to its answer. */
typedef struct {
    uint64_t place;  /* the offset of a fault, in bytes from the start of the input, else 0 */
    uint64_t length; /* the length of the output in bytes, even if it didn't fit; 0 at a fault */
} cborn_told;

/* The version of the library that is linked, as CBORN_VERSION. */
uint32_t cborn_version(void);

/* Writes the canonical form of the items in the input to the start of out: their
 * deterministic encodings, or these in notation. Returns CBORN_OK if it did; the
 * bytes of out after told->length are then unchanged. Any other answer leaves out
 * unchanged: it is the input's fault, CBORN_TOO_SMALL, CBORN_BAD_ARGUMENT or
 * CBORN_OUT_OF_MEMORY.
 * From bytes to bytes, input_len + input_len / 3 bytes of room are always enough. */
uint32_t cborn_normalise(uint32_t from, uint32_t to, uint32_t order, uint64_t depth,
                         const uint8_t *input, size_t input_len,
                         uint8_t *out, size_t out_len, cborn_told *told);

/* Writes the items as they are encoded, each head in its own width, as bytes or in
 * notation, and returns what cborn_normalise returns. Validity errors are no faults
 * here, with one exception: a text string that isn't UTF-8 can't be written in
 * notation. */
uint32_t cborn_show(uint32_t from, uint32_t to, uint64_t depth,
                    const uint8_t *input, size_t input_len,
                    uint8_t *out, size_t out_len, cborn_told *told);

/* Returns CBORN_OK if the input is deterministic: cborn_normalise would write the
 * same bytes. Otherwise it returns the first defect or the fault, and sets *place to
 * its offset. The contents of byte strings aren't checked, even if they are CBOR. */
uint32_t cborn_check(uint32_t order, uint64_t depth,
                     const uint8_t *input, size_t input_len, uint64_t *place);

/* Returns CBORN_OK if both inputs hold the same items, and CBORN_DIFFERENT if they
 * don't, with *place the index of the first item that differs. Otherwise it returns
 * the fault of the first input, or that of the second plus CBORN_OF_SECOND, and sets
 * *place to its offset in that input. */
uint32_t cborn_compare(uint32_t from_a, uint32_t from_b, uint64_t depth,
                       const uint8_t *first, size_t first_len,
                       const uint8_t *second, size_t second_len, uint64_t *place);

/* Returns CBORN_OK if both inputs hold the same items, so that their canonical forms
 * are equal, and CBORN_DIFFERENT if they don't. It doesn't look for where they differ,
 * as cborn_compare does, and sets *place to 0. Otherwise it returns what cborn_compare
 * returns, and sets *place as that does. */
uint32_t cborn_same(uint32_t from_a, uint32_t from_b, uint64_t depth,
                    const uint8_t *first, size_t first_len,
                    const uint8_t *second, size_t second_len, uint64_t *place);

/* The calls for inputs that have to hold exactly one item, such as what is signed or
 * hashed: an empty input is a sequence of no items, and valid for the calls above.
 * They do what the calls of the same name do, and return the same. Of an input that
 * has no other fault they return CBORN_NO_ITEM if it holds no item, with its length
 * as the place, and CBORN_MORE_ITEMS if it holds more than one, with the offset of
 * the second item as the place; out is unchanged then. cborn_check_one returns them
 * even if the input has a defect. */
uint32_t cborn_normalise_one(uint32_t from, uint32_t to, uint32_t order, uint64_t depth,
                             const uint8_t *input, size_t input_len,
                             uint8_t *out, size_t out_len, cborn_told *told);

uint32_t cborn_show_one(uint32_t from, uint32_t to, uint64_t depth,
                        const uint8_t *input, size_t input_len,
                        uint8_t *out, size_t out_len, cborn_told *told);

uint32_t cborn_check_one(uint32_t order, uint64_t depth,
                         const uint8_t *input, size_t input_len, uint64_t *place);

/* Returns CBORN_OK if both inputs hold the same item, and CBORN_DIFFERENT if they
 * don't, with *place 0. Faults are those of cborn_normalise_one, returned as
 * cborn_compare returns them: those of the first input before those of the second. */
uint32_t cborn_compare_one(uint32_t from_a, uint32_t from_b, uint64_t depth,
                           const uint8_t *first, size_t first_len,
                           const uint8_t *second, size_t second_len, uint64_t *place);

/* Finds the end of the item that starts at the offset start of the input, CBOR bytes.
 * Returns CBORN_OK, and sets *place to the offset after the item: where the next item of
 * a sequence (RFC 8742) starts, if there is one. Returns CBORN_NO_ITEM, with *place
 * input_len, if the input ends at start. Otherwise it returns why the item is malformed,
 * and sets *place to the offset of that fault, from the start of the input. What follows
 * the item isn't read, so finding all items takes linear time, and the input may have
 * more than 2^30 bytes. Validity errors are no faults here. */
uint32_t cborn_item_end(uint64_t depth, const uint8_t *input, size_t input_len,
                        uint64_t start, uint64_t *place);

/* Writes the words of a fault or a defect to the start of out, as the program prints
 * them and with a zero at their end: "duplicate key". number is what another call
 * returned. A fault of the second input has the same words, and CBORN_OUT_OF_MEMORY
 * and CBORN_TOO_LONG have words too. They are ASCII. out_len counts the zero;
 * CBORN_MOST_WORDS bytes are always enough.
 * Returns CBORN_OK; CBORN_TOO_SMALL; or CBORN_BAD_ARGUMENT if no fault and no defect
 * has this number. At the latter two, out is unchanged. */
uint32_t cborn_words(uint32_t number, char *out, size_t out_len);

/* Writes an explanation of a fault or a defect to the start of out: lines of UTF-8
 * that say where in the input it is, what is there, and why. They are the lines that
 * the program adds with --explain, and docs/FORMATS.md says what is in them. There is
 * no zero at their end. from and depth are those of the call that refused the input,
 * number is what it returned, and place is the offset that it reported. For a fault of
 * a second input, pass that input; the number may have CBORN_OF_SECOND added or not.
 * A place beyond the end counts as the end.
 * Returns CBORN_OK; CBORN_TOO_SMALL, with told->length the length that is needed;
 * CBORN_OUT_OF_MEMORY; or CBORN_BAD_ARGUMENT if no input of that format has a fault
 * or a defect of this number (CBORN_TOO_LONG has no place, and no explanation), or
 * the format or the depth is invalid. At all but CBORN_OK, out is unchanged.
 * told->place is 0. The call walks over the input up to the place, and keeps a tree of
 * the item there, which can take eighty times the size of that item. */
uint32_t cborn_explain(uint32_t from, uint64_t depth,
                       const uint8_t *input, size_t input_len,
                       uint32_t number, uint64_t place,
                       char *out, size_t out_len, cborn_told *told);

/* Writes where two inputs differ to the start of out: the lines that the program adds
 * with compare --explain, in UTF-8 and without a zero at their end; docs/FORMATS.md says
 * what is in them. If both inputs hold the same items, the lines say where their encodings
 * first differ; if both spell the same bytes, there are none. from_a, from_b and depth
 * are those of cborn_compare; order is the order of keys in which maps are gone through.
 * Returns CBORN_OK; CBORN_TOO_SMALL, with told->length the length that is needed;
 * CBORN_OUT_OF_MEMORY; CBORN_BAD_ARGUMENT; or, if an input is refused, what
 * cborn_compare returns, with told->place the offset of the fault. At all but CBORN_OK,
 * out is unchanged. */
uint32_t cborn_explain_comparison(uint32_t from_a, uint32_t from_b, uint32_t order,
                                  uint64_t depth,
                                  const uint8_t *first, size_t first_len,
                                  const uint8_t *second, size_t second_len,
                                  char *out, size_t out_len, cborn_told *told);

#ifdef __cplusplus
}
#endif
#endif
