/* Fringewell: a BSON reader and writer, proved. This header is all that a C or C++ program needs.
 *
 * It is for x86-64 Linux, and for C11 or C++11 at the least.
 * Papers: RULES.md, cited here by section, CLAIMS.md and TRUST.md are installed with it.
 * Proved (CLAIMS.md): every call of the library ends and is memory-safe on every input; its answer, and what it leaves in a lent buffer and
 *   in a state, are fixed by a definition written from BSON 1.1 and RULES.md. It follows that a refused call changes no byte of either.
 * Not proved, but thin and tested: what is `static inline` here: words, typed getters, and the writer that keeps its buffer.
 * Trusted: what TRUST.md lists, compiler, C library and machine among it, and that a caller keeps to what is said here.
 *
 * Ownership: nothing is allocated. No call of the library keeps a pointer; a fringewell_writer keeps that of its buffer.
 * Slices: a pointer and a length of at most PTRDIFF_MAX. With length 0 the pointer may be any, NULL too. A pointer to a state, to a writer,
 *   to what a getter writes, and to the bytes of an ObjectId or a decimal128, must be valid.
 * Offsets are of the document that was given, and mean nothing in another one.
 * Aliasing: `out` and the state overlap nothing else that is lent to the call. Slices that are only read may overlap each other.
 * Threads: there is no global state. Calls are reentrant, and run at the same time on whatever no other call writes to.
 * Stack: no call that was measured has taken more than FRINGEWELL_STACK_BYTES. That is not proved: a test runs the deepest checks and
 *   the longest path on a thread whose stack was filled with a pattern, and looks how far down the pattern is gone.
 */
#ifndef FRINGEWELL_H
#define FRINGEWELL_H

#if !defined(__x86_64__) || !defined(__LP64__) || !defined(__linux__)
#error "Fringewell is built for x86-64 Linux with 64-bit pointers only"
#endif

#include <stdbool.h>
#include <stddef.h>
#include <stdint.h>
#include <string.h>

#ifdef __cplusplus
extern "C" {
#endif

#define FRINGEWELL_VERSION "0.10.0"
#define FRINGEWELL_VERSION_MAJOR 0
#define FRINGEWELL_VERSION_MINOR 10
#define FRINGEWELL_VERSION_PATCH 0
#define FRINGEWELL_VERSION_NUMBER (FRINGEWELL_VERSION_MAJOR * 1000000 + FRINGEWELL_VERSION_MINOR * 1000 + FRINGEWELL_VERSION_PATCH)

/* The version of the library that is linked, as FRINGEWELL_VERSION_NUMBER is that of this header. */
uint32_t fringewell_version(void);

#define FRINGEWELL_STACK_BYTES 98304

/* The numbers (RULES.md, "Numbers returned", with what to do about each). `number` in an answer is 0, or the number of the refusal; 1 to
 * 13 mean damage, and under a limit 22. What a refusal does not give is 0. `place` is the offset, in the slice given, of the tag byte of
 * the element that the refusal is about; for 4 it is the offset where the step would begin, for 16 that of the terminator, for 1 to 3 of
 * the given slice 0, and for 21 0. The terminator is a document's last byte. No call gives 20: it is for programs that read a frame. */
enum {
    FRINGEWELL_OK = 0,              /* nothing is refused */
    FRINGEWELL_TOO_SHORT = 1,       /* the document has under 5 bytes */
    FRINGEWELL_LENGTH_DIFFERS = 2,  /* the declared length differs from the slice's */
    FRINGEWELL_NO_TERMINATOR = 3,   /* the last byte of the document is not zero */
    FRINGEWELL_STEP_OUTSIDE = 4,    /* a step begins before offset 4 or past the terminator */
    FRINGEWELL_NO_ZERO = 5,         /* pattern or options have no zero byte */
    FRINGEWELL_NOT_UTF8 = 6,        /* a key, pattern, options or text is not UTF-8 */
    FRINGEWELL_UNKNOWN_TAG = 7,     /* the tag is not in the tag table */
    FRINGEWELL_BAD_LENGTH = 8,      /* a length field does not fit, is negative, or is below its least */
    FRINGEWELL_PAST_THE_SLICE = 9,  /* the value runs past the slice */
    FRINGEWELL_NOT_ENDED = 10,      /* a string or embedded document does not end in zero */
    FRINGEWELL_BAD_BOOLEAN = 11,    /* a boolean byte is above 1 */
    FRINGEWELL_BAD_SHAPE = 12,      /* an old binary or a code with scope has a wrong inner shape */
    FRINGEWELL_TOO_DEEP = 13,       /* the value lies deeper than 200 */
    FRINGEWELL_NO_ROOM = 14,        /* there is no room in the output */
    FRINGEWELL_BAD_TEXT = 15,       /* a text or key to write is not UTF-8, or a key, pattern or options has a zero byte */
    FRINGEWELL_ABSENT = 16,         /* the key is absent, or the place is the terminator */
    FRINGEWELL_OTHER_TYPE = 17,     /* the value is of another type than asked */
    FRINGEWELL_OUT_OF_TURN = 18,    /* the writer's call or state is out of turn */
    FRINGEWELL_BAD_ARRAY_KEY = 19,  /* a key of an array is not its position in decimal */
    FRINGEWELL_INPUT_TOO_LONG = 20, /* the input is over 65,535 bytes */
    FRINGEWELL_PATH_TOO_LONG = 21,  /* the path has more than 201 keys */
    FRINGEWELL_TOO_LONG = 22        /* a key, pattern or options is longer than the limit, or has no zero byte within it */
};

/* The tags: all that there are (RULES.md, "Admission and one step"). */
enum {
    FRINGEWELL_TAG_DOUBLE = 0x01,
    FRINGEWELL_TAG_STRING = 0x02,
    FRINGEWELL_TAG_DOCUMENT = 0x03,
    FRINGEWELL_TAG_ARRAY = 0x04,
    FRINGEWELL_TAG_BINARY = 0x05,
    FRINGEWELL_TAG_UNDEFINED = 0x06,
    FRINGEWELL_TAG_OBJECT_ID = 0x07,
    FRINGEWELL_TAG_BOOL = 0x08,
    FRINGEWELL_TAG_DATETIME = 0x09,
    FRINGEWELL_TAG_NULL = 0x0A,
    FRINGEWELL_TAG_REGEX = 0x0B,
    FRINGEWELL_TAG_DBPOINTER = 0x0C,
    FRINGEWELL_TAG_CODE = 0x0D,
    FRINGEWELL_TAG_SYMBOL = 0x0E,
    FRINGEWELL_TAG_CODE_WITH_SCOPE = 0x0F,
    FRINGEWELL_TAG_INT32 = 0x10,
    FRINGEWELL_TAG_TIMESTAMP = 0x11,
    FRINGEWELL_TAG_INT64 = 0x12,
    FRINGEWELL_TAG_DECIMAL128 = 0x13,
    FRINGEWELL_TAG_MAX_KEY = 0x7F,
    FRINGEWELL_TAG_MIN_KEY = 0xFF
};

/* ---- Answers ----
 *
 * In each, `number` is 0 or that of the refusal. */

typedef struct {
    uint32_t number;
    size_t place;
    size_t count;
} fringewell_verdict;

/* A value: of a lookup, of a path, of a reading at a place, and of an element in an iteration. */
typedef struct {
    uint32_t number;
    uint8_t tag;
    size_t place;                      /* of the element's tag byte */
    size_t framed_offset, framed_size; /* the value's framed bytes, length fields and all */
    uint64_t bits;                     /* a double's bits; a bool; an int32, int64 or datetime sign-extended; a timestamp as
                                          increment + 2^32 * seconds; a binary's subtype; else 0 */
    size_t offset, size;               /* the text, without length and final zero; the document or array, whole; a binary's data, of
                                          subtype 2 without the inner length; the ObjectId; the decimal128; pattern, namespace or code;
                                          else 0 */
    size_t offset2, size2;             /* a regex's options, a DBPointer's ObjectId, a code's scope, whole; else 0 */
} fringewell_value;

typedef struct {
    uint32_t number;
    uint8_t tag;
    bool ended; /* `next` and `ended`: the cursor behind the step, always */
    size_t place;
    size_t next;
    size_t key_offset, key_size; /* without the key's zero */
    size_t framed_offset, framed_size;
} fringewell_stepped;

/* An element with its value. Where the value is refused, value.number says why, tag and framed bytes are given all the same, and `ended` is
 * false: one may go on behind it. Where the step is refused or at its end, `ended` is true, and no element is given. */
typedef struct {
    fringewell_value value;
    size_t key_offset, key_size; /* without the key's zero */
    size_t next;
    bool ended; /* `next` and `ended`: the cursor behind the step, always */
} fringewell_element;

typedef struct {
    uint32_t number;
    uint32_t which; /* the refused document: 1 the first, 2 the second; 0 for none */
    size_t place;
    size_t length;
} fringewell_joined;

typedef struct {
    uint32_t number;
    size_t used; /* where number is 0: the bytes of `out` used now */
} fringewell_written;

/* ---- Words ---- */

/* A key or a text written out, as the two arguments of a call: FRINGEWELL_TEXT("battery"). */
#define FRINGEWELL_TEXT(literal) ("" literal ""), (sizeof(literal) - 1)

/* A path of one to eight keys written out, as the two arguments of a call: FRINGEWELL_PATH("power", "battery"). Any other path is bytes,
 * with a zero byte between the keys. In a literal, `cells` and then `0` is "cells\0" "0": "\00" would be one byte, written in octal. */
#define FRINGEWELL_PATH(...) FRINGEWELL_TEXT(FRINGEWELL_KEYS(__VA_ARGS__))
#define FRINGEWELL_KEYS(...) \
    FRINGEWELL_NINTH(__VA_ARGS__, FRINGEWELL_KEYS_8, FRINGEWELL_KEYS_7, FRINGEWELL_KEYS_6, FRINGEWELL_KEYS_5, FRINGEWELL_KEYS_4, \
                     FRINGEWELL_KEYS_3, FRINGEWELL_KEYS_2, FRINGEWELL_KEYS_1, 0)(__VA_ARGS__)
#define FRINGEWELL_NINTH(a, b, c, d, e, f, g, h, ninth, ...) ninth
#define FRINGEWELL_KEYS_1(key) key
#define FRINGEWELL_KEYS_2(key, ...) key "\0" FRINGEWELL_KEYS_1(__VA_ARGS__)
#define FRINGEWELL_KEYS_3(key, ...) key "\0" FRINGEWELL_KEYS_2(__VA_ARGS__)
#define FRINGEWELL_KEYS_4(key, ...) key "\0" FRINGEWELL_KEYS_3(__VA_ARGS__)
#define FRINGEWELL_KEYS_5(key, ...) key "\0" FRINGEWELL_KEYS_4(__VA_ARGS__)
#define FRINGEWELL_KEYS_6(key, ...) key "\0" FRINGEWELL_KEYS_5(__VA_ARGS__)
#define FRINGEWELL_KEYS_7(key, ...) key "\0" FRINGEWELL_KEYS_6(__VA_ARGS__)
#define FRINGEWELL_KEYS_8(key, ...) key "\0" FRINGEWELL_KEYS_7(__VA_ARGS__)

/* A number in words; never NULL. */
static inline const char *fringewell_describe(uint32_t number) {
    switch (number) {
    case FRINGEWELL_OK:
        return "nothing is refused";
    case FRINGEWELL_TOO_SHORT:
        return "the document has under 5 bytes";
    case FRINGEWELL_LENGTH_DIFFERS:
        return "the declared length differs from the slice's";
    case FRINGEWELL_NO_TERMINATOR:
        return "the last byte of the document is not zero";
    case FRINGEWELL_STEP_OUTSIDE:
        return "a step begins before offset 4 or past the terminator";
    case FRINGEWELL_NO_ZERO:
        return "pattern or options have no zero byte";
    case FRINGEWELL_NOT_UTF8:
        return "a key, pattern, options or text is not UTF-8";
    case FRINGEWELL_UNKNOWN_TAG:
        return "the tag is not in the tag table";
    case FRINGEWELL_BAD_LENGTH:
        return "a length field does not fit, is negative, or is below its least";
    case FRINGEWELL_PAST_THE_SLICE:
        return "the value runs past the slice";
    case FRINGEWELL_NOT_ENDED:
        return "a string or embedded document does not end in zero";
    case FRINGEWELL_BAD_BOOLEAN:
        return "a boolean byte is above 1";
    case FRINGEWELL_BAD_SHAPE:
        return "an old binary or a code with scope has a wrong inner shape";
    case FRINGEWELL_TOO_DEEP:
        return "the value lies deeper than 200";
    case FRINGEWELL_NO_ROOM:
        return "there is no room in the output";
    case FRINGEWELL_BAD_TEXT:
        return "a text or key to write is not UTF-8, or a key, pattern or options has a zero byte";
    case FRINGEWELL_ABSENT:
        return "the key is absent, or the place is the terminator";
    case FRINGEWELL_OTHER_TYPE:
        return "the value is of another type than asked";
    case FRINGEWELL_OUT_OF_TURN:
        return "the writer's call or state is out of turn";
    case FRINGEWELL_BAD_ARRAY_KEY:
        return "a key of an array is not its position in decimal";
    case FRINGEWELL_INPUT_TOO_LONG:
        return "the input is over 65,535 bytes";
    case FRINGEWELL_PATH_TOO_LONG:
        return "the path has more than 201 keys";
    case FRINGEWELL_TOO_LONG:
        return "a key, pattern or options is longer than the limit, or has no zero byte within it";
    default:
        return "this is no number of the library";
    }
}

/* A tag in a word; never NULL, "unknown" for one that is not in the table. */
static inline const char *fringewell_tag_name(uint8_t tag) {
    switch (tag) {
    case FRINGEWELL_TAG_DOUBLE:
        return "double";
    case FRINGEWELL_TAG_STRING:
        return "string";
    case FRINGEWELL_TAG_DOCUMENT:
        return "document";
    case FRINGEWELL_TAG_ARRAY:
        return "array";
    case FRINGEWELL_TAG_BINARY:
        return "binary";
    case FRINGEWELL_TAG_UNDEFINED:
        return "undefined";
    case FRINGEWELL_TAG_OBJECT_ID:
        return "object id";
    case FRINGEWELL_TAG_BOOL:
        return "bool";
    case FRINGEWELL_TAG_DATETIME:
        return "datetime";
    case FRINGEWELL_TAG_NULL:
        return "null";
    case FRINGEWELL_TAG_REGEX:
        return "regex";
    case FRINGEWELL_TAG_DBPOINTER:
        return "dbpointer";
    case FRINGEWELL_TAG_CODE:
        return "code";
    case FRINGEWELL_TAG_SYMBOL:
        return "symbol";
    case FRINGEWELL_TAG_CODE_WITH_SCOPE:
        return "code with scope";
    case FRINGEWELL_TAG_INT32:
        return "int32";
    case FRINGEWELL_TAG_TIMESTAMP:
        return "timestamp";
    case FRINGEWELL_TAG_INT64:
        return "int64";
    case FRINGEWELL_TAG_DECIMAL128:
        return "decimal128";
    case FRINGEWELL_TAG_MAX_KEY:
        return "max key";
    case FRINGEWELL_TAG_MIN_KEY:
        return "min key";
    default:
        return "unknown";
    }
}

/* ---- Reading (RULES.md, "Admission and one step", "Values", "The whole check") ----
 *
 * Every call admits the document first: 1, 2, 3, in this order; only 21, which is about a path alone, comes before.
 *
 * Limits (RULES.md, request 2). A call whose name ends in `_under` answers as the call in front of it, but under a limit: with limit m a
 * key, a pattern or options may have at most m bytes, at every level, else 22, before 6. What is answered of such a text depends on the
 * first m + 1 bytes from where it begins alone, and 22 stands in the place of 5. These calls always have a limit set, SIZE_MAX too; the
 * others have none. Not limited are the key that is looked up, the keys of a path, and texts with their length in front. */

/* The whole check: every element of every level, its value read, none deeper than 200 (top values have depth 0; inside documents and
 * arrays it is one more, inside a scope two). Refused by 1 to 13, the first met in the document's order: at an element that steps from
 * offset 4 yield, in it or where it ends, or as these steps are refused; else `count` is the number of values. A document that passed is
 * then refused by none of 1 to 13 in a lookup, along a path, in a step from offset 4 or from where the last one ended, or in reading at a
 * place that a step gave. It has one meaning: no other bytes read as the same elements, and each of its bytes is of its length, of one
 * element's tag, key, zero or value, or its last zero; the same holds of every document inside. */
fringewell_verdict fringewell_check(const void *document, size_t length);

/* The whole check under a limit. Refused by 1 to 4, 6 to 13 and 22. A document that passed is then refused by none of 1 to 13 and 22 in
 * those calls under the same limit; and it passes without one, with the same count. */
fringewell_verdict fringewell_check_under(const void *document, size_t length, size_t limit);

/* The whole check, and each key of an array, at every level, is exactly the element's position in it in decimal: 0, 1, 2 on, without
 * leading zeros. Else 19, at the first element whose key is another, once a step has given it and before its value is read. The keys of
 * documents and scopes may be any. Refused by 1 to 13 and 19. */
fringewell_verdict fringewell_check_strict(const void *document, size_t length);

/* The strict check under a limit. Refused by 1 to 4, 6 to 13, 19 and 22; at one element by 22 before 19. */
fringewell_verdict fringewell_check_strict_under(const void *document, size_t length, size_t limit);

/* `count` is 1 where the document has no element, else 0. Refused by 1 to 3. */
fringewell_verdict fringewell_is_empty(const void *document, size_t length);

/* The first element whose key has these bytes, and its value. Refused by 16 where there is none, and by 1 to 12 for damage before it or in
 * its value; damage behind it is not seen. A key with a zero byte, or not UTF-8, matches nothing. */
fringewell_value fringewell_lookup(const void *document, size_t length, const void *key, size_t key_length);

/* The lookup under a limit. Refused by 16, and by 1 to 4, 6 to 12 and 22 for damage before the element or in it. */
fringewell_value fringewell_lookup_under(const void *document, size_t length, const void *key, size_t key_length, size_t limit);

/* The lookup of a value that must have this tag: else 17, at the element found, once its value is read. */
fringewell_value fringewell_lookup_typed(const void *document, size_t length, const void *key, size_t key_length, uint8_t tag);

/* The typed lookup under a limit. Refused by 16, by 1 to 4, 6 to 12 and 22 for damage before the element or in it, and then by 17. */
fringewell_value fringewell_lookup_typed_under(const void *document, size_t length, const void *key, size_t key_length, uint8_t tag,
                                               size_t limit);

/* The value that a path leads to (RULES.md, request 1): keys with a zero byte between them, as FRINGEWELL_PATH("power", "battery") writes
 * them. The path is split at every zero byte, so that no key holds one: `a\0` is `a` and then the empty key, and the empty path is the one
 * empty key. Each key is looked up where the one before led, in a document or in an array, whose keys are "0", "1" on; a code with scope is
 * not entered. The last value may be of any type. Refused by 21 for more than 201 keys, before the document is looked at; then, at each
 * level, as the lookup is, by 16 where there is no such element, at the terminator of the document or array searched, and by 1 to 12 for
 * damage before it or in its value; and then by 17, at that element, where keys are left and its value is neither document nor array.
 * Offsets are of the document given, at every level. The answer is that of one lookup after another, and what is found is what
 * fringewell_read answers at its place. */
fringewell_value fringewell_path(const void *document, size_t length, const void *path, size_t path_length);

/* The path under a limit, the same at every level. Refused by 21; then, at each level, by 16, by 1 to 4, 6 to 12 and 22 for damage before
 * the element or in it, and then by 17. What is found is what fringewell_read_under answers at its place under this limit. */
fringewell_value fringewell_path_under(const void *document, size_t length, const void *path, size_t path_length, size_t limit);

/* The path to a value that must have this tag: else 17, at the last element, once its value is read. */
fringewell_value fringewell_path_typed(const void *document, size_t length, const void *path, size_t path_length, uint8_t tag);

/* The typed path under a limit. Refused as the path under a limit is, and then by 17. */
fringewell_value fringewell_path_typed_under(const void *document, size_t length, const void *path, size_t path_length, uint8_t tag,
                                             size_t limit);

/* Where an iteration starts, with `ended` false. */
#define FRINGEWELL_START 4

/* One step of an iteration, and the reading of what it yields: the next element with its value. It steps as fringewell_step does, and
 * reads as fringewell_read does at that place, in one go. Refused by 1 to 10 where the step is, and then `ended` is true; by 6, 11, 12 and,
 * of a code with scope, by 1 to 3 and 8 to 10 where the value is, and then the iteration can go on. All of a document:
 *
 *     fringewell_element at = fringewell_next(document, length, FRINGEWELL_START, false);
 *     for (; !at.ended; at = fringewell_next(document, length, at.next, at.ended))
 *         ..
 *
 * Behind it at.value.number is 0 exactly where the end is at the terminator. An `at` that is declared inside the loop spares some compilers
 * a copy. */
fringewell_element fringewell_next(const void *document, size_t length, size_t offset, bool ended);

/* The next element under a limit. Refused by 1 to 4, 6 to 10 and 22 where the step is; then as without a limit. */
fringewell_element fringewell_next_under(const void *document, size_t length, size_t offset, bool ended, size_t limit);

/* One step alone, from FRINGEWELL_START and `ended` false, and then from `next` and `ended`. number 0 and ended false: an element, framed
 * but not read: place is the offset given, key_offset place + 1, framed_offset key_offset + key_size + 1, next framed_offset + framed_size,
 * so that elements lie one behind the other, in a damaged document too. number 0 and ended true: the end, at the terminator or where the
 * cursor had ended. Refused by 1 to 10, by 4 and above at the offset given, which is where the elements so far end. An end or a refusal
 * sets the mark and keeps the offset. Any cursor gets an answer. */
fringewell_stepped fringewell_step(const void *document, size_t length, size_t offset, bool ended);

/* One step under a limit. Refused by 1 to 4, 6 to 10 and 22, by 4 and above at the offset given. */
fringewell_stepped fringewell_step_under(const void *document, size_t length, size_t offset, bool ended, size_t limit);

/* The element whose tag byte is at this place, and its value. Refused by 16 where the place is the terminator, and by 1 to 12. Any place
 * gets an answer. */
fringewell_value fringewell_read(const void *document, size_t length, size_t place);

/* The value at a place under a limit. Refused by 16, and by 1 to 4, 6 to 12 and 22. */
fringewell_value fringewell_read_under(const void *document, size_t length, size_t place, size_t limit);

/* ---- Doubles: BSON compares them by their bits, and so do these calls ---- */

static inline uint64_t fringewell_double_bits(double x) {
    uint64_t bits;
    memcpy(&bits, &x, sizeof bits);
    return bits;
}

static inline double fringewell_bits_double(uint64_t bits) {
    double x;
    memcpy(&x, &bits, sizeof x);
    return x;
}

/* ---- Typed getters: inline C over the calls above ----
 *
 * Each fringewell_get_.. is the typed lookup, each fringewell_path_.. the typed path, and each fringewell_as_.. takes a value that another
 * call answered of this document. They return the number: of the lookup, of the path or of the value, or 17 where the value is of another
 * type; and write `out` only where that is 0. What is handed back as a pointer lies in the document, and lives as long. */

/* A text in a document: without a final zero, and zero bytes may be inside. */
typedef struct {
    const char *data;
    size_t length;
} fringewell_text;

typedef struct {
    const uint8_t *data;
    size_t length;
} fringewell_bytes;

/* Of subtype 2 the data are without their inner length. */
typedef struct {
    const uint8_t *data;
    size_t length;
    uint8_t subtype;
} fringewell_binary;

typedef struct {
    fringewell_text pattern, options;
} fringewell_regex;

typedef struct {
    uint32_t increment, seconds;
} fringewell_timestamp;

/* The number of an answer whose value must have this tag. */
static inline uint32_t fringewell_typed(fringewell_value value, uint8_t tag) {
    if (value.number == FRINGEWELL_OK && value.tag != tag)
        return FRINGEWELL_OTHER_TYPE;
    return value.number;
}

static inline uint32_t fringewell_as_double(fringewell_value value, double *out) {
    uint32_t number = fringewell_typed(value, FRINGEWELL_TAG_DOUBLE);
    if (number == FRINGEWELL_OK)
        *out = fringewell_bits_double(value.bits);
    return number;
}

static inline uint32_t fringewell_as_bool(fringewell_value value, bool *out) {
    uint32_t number = fringewell_typed(value, FRINGEWELL_TAG_BOOL);
    if (number == FRINGEWELL_OK)
        *out = value.bits != 0;
    return number;
}

static inline uint32_t fringewell_as_int32(fringewell_value value, int32_t *out) {
    uint32_t number = fringewell_typed(value, FRINGEWELL_TAG_INT32);
    if (number == FRINGEWELL_OK)
        *out = (int32_t)value.bits;
    return number;
}

static inline uint32_t fringewell_as_int64(fringewell_value value, int64_t *out) {
    uint32_t number = fringewell_typed(value, FRINGEWELL_TAG_INT64);
    if (number == FRINGEWELL_OK)
        *out = (int64_t)value.bits;
    return number;
}

/* Milliseconds since 1970. */
static inline uint32_t fringewell_as_datetime(fringewell_value value, int64_t *out) {
    uint32_t number = fringewell_typed(value, FRINGEWELL_TAG_DATETIME);
    if (number == FRINGEWELL_OK)
        *out = (int64_t)value.bits;
    return number;
}

static inline uint32_t fringewell_as_timestamp(fringewell_value value, fringewell_timestamp *out) {
    uint32_t number = fringewell_typed(value, FRINGEWELL_TAG_TIMESTAMP);
    if (number == FRINGEWELL_OK) {
        out->increment = (uint32_t)value.bits;
        out->seconds = (uint32_t)(value.bits >> 32);
    }
    return number;
}

static inline uint32_t fringewell_as_string(fringewell_value value, const void *document, fringewell_text *out) {
    uint32_t number = fringewell_typed(value, FRINGEWELL_TAG_STRING);
    if (number == FRINGEWELL_OK) {
        out->data = (const char *)document + value.offset;
        out->length = value.size;
    }
    return number;
}

static inline uint32_t fringewell_as_document(fringewell_value value, const void *document, fringewell_bytes *out) {
    uint32_t number = fringewell_typed(value, FRINGEWELL_TAG_DOCUMENT);
    if (number == FRINGEWELL_OK) {
        out->data = (const uint8_t *)document + value.offset;
        out->length = value.size;
    }
    return number;
}

static inline uint32_t fringewell_as_array(fringewell_value value, const void *document, fringewell_bytes *out) {
    uint32_t number = fringewell_typed(value, FRINGEWELL_TAG_ARRAY);
    if (number == FRINGEWELL_OK) {
        out->data = (const uint8_t *)document + value.offset;
        out->length = value.size;
    }
    return number;
}

static inline uint32_t fringewell_as_binary(fringewell_value value, const void *document, fringewell_binary *out) {
    uint32_t number = fringewell_typed(value, FRINGEWELL_TAG_BINARY);
    if (number == FRINGEWELL_OK) {
        out->data = (const uint8_t *)document + value.offset;
        out->length = value.size;
        out->subtype = (uint8_t)value.bits;
    }
    return number;
}

static inline uint32_t fringewell_as_regex(fringewell_value value, const void *document, fringewell_regex *out) {
    uint32_t number = fringewell_typed(value, FRINGEWELL_TAG_REGEX);
    if (number == FRINGEWELL_OK) {
        out->pattern.data = (const char *)document + value.offset;
        out->pattern.length = value.size;
        out->options.data = (const char *)document + value.offset2;
        out->options.length = value.size2;
    }
    return number;
}

/* A copy of the twelve bytes. */
static inline uint32_t fringewell_as_object_id(fringewell_value value, const void *document, uint8_t out[12]) {
    uint32_t number = fringewell_typed(value, FRINGEWELL_TAG_OBJECT_ID);
    if (number == FRINGEWELL_OK)
        memcpy(out, (const uint8_t *)document + value.offset, 12);
    return number;
}

static inline uint32_t fringewell_get_double(const void *document, size_t length, const void *key, size_t key_length, double *out) {
    return fringewell_as_double(fringewell_lookup_typed(document, length, key, key_length, FRINGEWELL_TAG_DOUBLE), out);
}

static inline uint32_t fringewell_get_bool(const void *document, size_t length, const void *key, size_t key_length, bool *out) {
    return fringewell_as_bool(fringewell_lookup_typed(document, length, key, key_length, FRINGEWELL_TAG_BOOL), out);
}

static inline uint32_t fringewell_get_int32(const void *document, size_t length, const void *key, size_t key_length, int32_t *out) {
    return fringewell_as_int32(fringewell_lookup_typed(document, length, key, key_length, FRINGEWELL_TAG_INT32), out);
}

static inline uint32_t fringewell_get_int64(const void *document, size_t length, const void *key, size_t key_length, int64_t *out) {
    return fringewell_as_int64(fringewell_lookup_typed(document, length, key, key_length, FRINGEWELL_TAG_INT64), out);
}

static inline uint32_t fringewell_get_datetime(const void *document, size_t length, const void *key, size_t key_length, int64_t *out) {
    return fringewell_as_datetime(fringewell_lookup_typed(document, length, key, key_length, FRINGEWELL_TAG_DATETIME), out);
}

static inline uint32_t fringewell_get_timestamp(const void *document, size_t length, const void *key, size_t key_length,
                                                fringewell_timestamp *out) {
    return fringewell_as_timestamp(fringewell_lookup_typed(document, length, key, key_length, FRINGEWELL_TAG_TIMESTAMP), out);
}

static inline uint32_t fringewell_get_string(const void *document, size_t length, const void *key, size_t key_length,
                                             fringewell_text *out) {
    return fringewell_as_string(fringewell_lookup_typed(document, length, key, key_length, FRINGEWELL_TAG_STRING), document, out);
}

static inline uint32_t fringewell_get_document(const void *document, size_t length, const void *key, size_t key_length,
                                               fringewell_bytes *out) {
    return fringewell_as_document(fringewell_lookup_typed(document, length, key, key_length, FRINGEWELL_TAG_DOCUMENT), document, out);
}

static inline uint32_t fringewell_get_array(const void *document, size_t length, const void *key, size_t key_length,
                                            fringewell_bytes *out) {
    return fringewell_as_array(fringewell_lookup_typed(document, length, key, key_length, FRINGEWELL_TAG_ARRAY), document, out);
}

static inline uint32_t fringewell_get_binary(const void *document, size_t length, const void *key, size_t key_length,
                                             fringewell_binary *out) {
    return fringewell_as_binary(fringewell_lookup_typed(document, length, key, key_length, FRINGEWELL_TAG_BINARY), document, out);
}

static inline uint32_t fringewell_get_regex(const void *document, size_t length, const void *key, size_t key_length,
                                            fringewell_regex *out) {
    return fringewell_as_regex(fringewell_lookup_typed(document, length, key, key_length, FRINGEWELL_TAG_REGEX), document, out);
}

static inline uint32_t fringewell_get_object_id(const void *document, size_t length, const void *key, size_t key_length, uint8_t out[12]) {
    return fringewell_as_object_id(fringewell_lookup_typed(document, length, key, key_length, FRINGEWELL_TAG_OBJECT_ID), document, out);
}

static inline uint32_t fringewell_path_double(const void *document, size_t length, const void *path, size_t path_length, double *out) {
    return fringewell_as_double(fringewell_path_typed(document, length, path, path_length, FRINGEWELL_TAG_DOUBLE), out);
}

static inline uint32_t fringewell_path_bool(const void *document, size_t length, const void *path, size_t path_length, bool *out) {
    return fringewell_as_bool(fringewell_path_typed(document, length, path, path_length, FRINGEWELL_TAG_BOOL), out);
}

static inline uint32_t fringewell_path_int32(const void *document, size_t length, const void *path, size_t path_length, int32_t *out) {
    return fringewell_as_int32(fringewell_path_typed(document, length, path, path_length, FRINGEWELL_TAG_INT32), out);
}

static inline uint32_t fringewell_path_int64(const void *document, size_t length, const void *path, size_t path_length, int64_t *out) {
    return fringewell_as_int64(fringewell_path_typed(document, length, path, path_length, FRINGEWELL_TAG_INT64), out);
}

static inline uint32_t fringewell_path_datetime(const void *document, size_t length, const void *path, size_t path_length, int64_t *out) {
    return fringewell_as_datetime(fringewell_path_typed(document, length, path, path_length, FRINGEWELL_TAG_DATETIME), out);
}

static inline uint32_t fringewell_path_timestamp(const void *document, size_t length, const void *path, size_t path_length,
                                                 fringewell_timestamp *out) {
    return fringewell_as_timestamp(fringewell_path_typed(document, length, path, path_length, FRINGEWELL_TAG_TIMESTAMP), out);
}

static inline uint32_t fringewell_path_string(const void *document, size_t length, const void *path, size_t path_length,
                                              fringewell_text *out) {
    return fringewell_as_string(fringewell_path_typed(document, length, path, path_length, FRINGEWELL_TAG_STRING), document, out);
}

static inline uint32_t fringewell_path_document(const void *document, size_t length, const void *path, size_t path_length,
                                                fringewell_bytes *out) {
    return fringewell_as_document(fringewell_path_typed(document, length, path, path_length, FRINGEWELL_TAG_DOCUMENT), document, out);
}

static inline uint32_t fringewell_path_array(const void *document, size_t length, const void *path, size_t path_length,
                                             fringewell_bytes *out) {
    return fringewell_as_array(fringewell_path_typed(document, length, path, path_length, FRINGEWELL_TAG_ARRAY), document, out);
}

static inline uint32_t fringewell_path_binary(const void *document, size_t length, const void *path, size_t path_length,
                                              fringewell_binary *out) {
    return fringewell_as_binary(fringewell_path_typed(document, length, path, path_length, FRINGEWELL_TAG_BINARY), document, out);
}

static inline uint32_t fringewell_path_regex(const void *document, size_t length, const void *path, size_t path_length,
                                             fringewell_regex *out) {
    return fringewell_as_regex(fringewell_path_typed(document, length, path, path_length, FRINGEWELL_TAG_REGEX), document, out);
}

static inline uint32_t fringewell_path_object_id(const void *document, size_t length, const void *path, size_t path_length,
                                                 uint8_t out[12]) {
    return fringewell_as_object_id(fringewell_path_typed(document, length, path, path_length, FRINGEWELL_TAG_OBJECT_ID), document, out);
}

/* ---- Joining (RULES.md, "Writer and joining") ---- */

/* Writes one document of both bodies, the first's elements before the second's, to the front of `out`; its `length` is the sum of both
 * less 5, and the bytes behind it stay. Refused by 1 to 13 where the check refuses the first, then the second, with `which`; then by 14
 * exactly where the length exceeds `out_length` or 2,147,483,647. */
fringewell_joined fringewell_join(const void *first, size_t first_length, const void *second, size_t second_length, void *out,
                                  size_t out_length);

/* ---- Writing into a lent state and a lent buffer (RULES.md, "Writer and joining") ----
 *
 * These are the proved calls. The next section has shorter ones over them.
 *
 * With a fresh state one opens the top document, appends, opens and closes documents and arrays, and closes the top: then the first `used`
 * bytes of `out` are a document that passes the check, also the strict one, and reads back as what was given. Each call takes the same
 * state, `out` and `out_length`, and leaves the bytes behind those used as they were.
 *
 * Refused in this order: 18 where nothing is open, the top was opened before, or the state is impossible; 13 where the value would lie
 * deeper than 200; 15 where a key or text is not UTF-8, or a key, pattern or options has a zero byte; 14 exactly where the bytes used, the
 * new ones and one zero for each document then open exceed `out_length` or 2,147,483,647. Then nothing has changed.
 *
 * Inside an array the keys are made, 0, 1, 2 on, and the key given is not looked at. */

/* The words are the library's own, but any 406 words are safe to pass: those that no calls lead to are refused (18) or written on from as
 * they stand, never outside `out`. A copy of a state is a state. */
typedef struct {
    uint32_t words[406];
} fringewell_state;

/* A fresh state: nothing used, nothing open. */
fringewell_state fringewell_state_new(void);

/* Opens the top. Refused by 18, 14. */
fringewell_written fringewell_state_open(fringewell_state *state, void *out, size_t out_length);

/* Opens a document, or an array, in the innermost that is open. Refused by 18, 13, 15, 14. */
fringewell_written fringewell_state_open_document(fringewell_state *state, void *out, size_t out_length, const void *key,
                                                  size_t key_length);
fringewell_written fringewell_state_open_array(fringewell_state *state, void *out, size_t out_length, const void *key, size_t key_length);

/* Closes the innermost, with its zero and its true length. Refused by 18 alone: there is always room. */
fringewell_written fringewell_state_close(fringewell_state *state, void *out, size_t out_length);

/* Each of these appends one element to the innermost; a double by its bits. Refused by 18, 13, 15, 14. */
fringewell_written fringewell_state_append_double(fringewell_state *state, void *out, size_t out_length, const void *key, size_t key_length,
                                                  uint64_t bits);
fringewell_written fringewell_state_append_bool(fringewell_state *state, void *out, size_t out_length, const void *key, size_t key_length,
                                                bool b);
fringewell_written fringewell_state_append_int32(fringewell_state *state, void *out, size_t out_length, const void *key, size_t key_length,
                                                 int32_t n);
fringewell_written fringewell_state_append_int64(fringewell_state *state, void *out, size_t out_length, const void *key, size_t key_length,
                                                 int64_t n);
fringewell_written fringewell_state_append_datetime(fringewell_state *state, void *out, size_t out_length, const void *key,
                                                    size_t key_length, int64_t n);
fringewell_written fringewell_state_append_timestamp(fringewell_state *state, void *out, size_t out_length, const void *key,
                                                     size_t key_length, uint32_t increment, uint32_t seconds);
fringewell_written fringewell_state_append_null(fringewell_state *state, void *out, size_t out_length, const void *key, size_t key_length);
fringewell_written fringewell_state_append_undefined(fringewell_state *state, void *out, size_t out_length, const void *key,
                                                     size_t key_length);
fringewell_written fringewell_state_append_min_key(fringewell_state *state, void *out, size_t out_length, const void *key,
                                                   size_t key_length);
fringewell_written fringewell_state_append_max_key(fringewell_state *state, void *out, size_t out_length, const void *key,
                                                   size_t key_length);
fringewell_written fringewell_state_append_string(fringewell_state *state, void *out, size_t out_length, const void *key, size_t key_length,
                                                  const void *text, size_t text_length);
fringewell_written fringewell_state_append_code(fringewell_state *state, void *out, size_t out_length, const void *key, size_t key_length,
                                                const void *text, size_t text_length);
fringewell_written fringewell_state_append_symbol(fringewell_state *state, void *out, size_t out_length, const void *key, size_t key_length,
                                                  const void *text, size_t text_length);
fringewell_written fringewell_state_append_binary(fringewell_state *state, void *out, size_t out_length, const void *key, size_t key_length,
                                                  uint8_t subtype, const void *contents, size_t contents_length);
fringewell_written fringewell_state_append_regex(fringewell_state *state, void *out, size_t out_length, const void *key, size_t key_length,
                                                 const void *pattern, size_t pattern_length, const void *options, size_t options_length);
fringewell_written fringewell_state_append_dbpointer(fringewell_state *state, void *out, size_t out_length, const void *key,
                                                     size_t key_length, const void *name_space, size_t name_space_length,
                                                     const uint8_t id[12]);
fringewell_written fringewell_state_append_object_id(fringewell_state *state, void *out, size_t out_length, const void *key,
                                                     size_t key_length, const uint8_t id[12]);
fringewell_written fringewell_state_append_decimal128(fringewell_state *state, void *out, size_t out_length, const void *key,
                                                      size_t key_length, const uint8_t bits[16]);

/* ---- Writing with a writer: inline C over the calls above ----
 *
 * A writer keeps its state, its buffer and the first refusal. From that one on each call does nothing and returns its number, so that a
 * program tests once, at the end:
 *
 *     fringewell_writer writer;
 *     fringewell_writer_open(&writer, out, sizeof out);
 *     fringewell_append_int32(&writer, FRINGEWELL_TEXT("rssi"), -97);
 *     if (fringewell_writer_close(&writer) == FRINGEWELL_OK)
 *         send(out, writer.length);
 *
 * Each returns the number of the first refusal so far, or 0. */

typedef struct {
    fringewell_state state;
    uint8_t *out;
    size_t out_length;
    size_t length;   /* of the document, once the top is closed and nothing was refused; else 0 */
    uint32_t levels; /* how many documents and arrays are open */
    uint32_t number; /* the first refusal, or 0 */
} fringewell_writer;

#define FRINGEWELL_LENT(writer) &(writer)->state, (writer)->out, (writer)->out_length
#define FRINGEWELL_WRITE(writer, call) \
    ((writer)->number != FRINGEWELL_OK ? (writer)->number : fringewell_writer_keep((writer), (call).number))

/* What the calls of this section do with the number of one that was made. */
static inline uint32_t fringewell_writer_keep(fringewell_writer *writer, uint32_t number) {
    writer->number = number;
    if (number != FRINGEWELL_OK)
        writer->length = 0;
    return number;
}

/* Begins anew, with this buffer, and opens the top. */
static inline uint32_t fringewell_writer_open(fringewell_writer *writer, void *out, size_t out_length) {
    writer->state = fringewell_state_new();
    writer->out = (uint8_t *)out;
    writer->out_length = out_length;
    writer->length = 0;
    writer->levels = 1;
    return fringewell_writer_keep(writer, fringewell_state_open(FRINGEWELL_LENT(writer)).number);
}

static inline uint32_t fringewell_writer_open_document(fringewell_writer *writer, const void *key, size_t key_length) {
    uint32_t number = FRINGEWELL_WRITE(writer, fringewell_state_open_document(FRINGEWELL_LENT(writer), key, key_length));
    writer->levels += number == FRINGEWELL_OK;
    return number;
}

static inline uint32_t fringewell_writer_open_array(fringewell_writer *writer, const void *key, size_t key_length) {
    uint32_t number = FRINGEWELL_WRITE(writer, fringewell_state_open_array(FRINGEWELL_LENT(writer), key, key_length));
    writer->levels += number == FRINGEWELL_OK;
    return number;
}

/* Closes the innermost; with the top, `length` is known. */
static inline uint32_t fringewell_writer_close(fringewell_writer *writer) {
    if (writer->number == FRINGEWELL_OK) {
        fringewell_written closed = fringewell_state_close(FRINGEWELL_LENT(writer));
        if (closed.number == FRINGEWELL_OK && --writer->levels == 0)
            writer->length = closed.used;
        fringewell_writer_keep(writer, closed.number);
    }
    return writer->number;
}

static inline uint32_t fringewell_append_double(fringewell_writer *writer, const void *key, size_t key_length, double d) {
    return FRINGEWELL_WRITE(writer, fringewell_state_append_double(FRINGEWELL_LENT(writer), key, key_length, fringewell_double_bits(d)));
}

static inline uint32_t fringewell_append_bool(fringewell_writer *writer, const void *key, size_t key_length, bool b) {
    return FRINGEWELL_WRITE(writer, fringewell_state_append_bool(FRINGEWELL_LENT(writer), key, key_length, b));
}

static inline uint32_t fringewell_append_int32(fringewell_writer *writer, const void *key, size_t key_length, int32_t n) {
    return FRINGEWELL_WRITE(writer, fringewell_state_append_int32(FRINGEWELL_LENT(writer), key, key_length, n));
}

static inline uint32_t fringewell_append_int64(fringewell_writer *writer, const void *key, size_t key_length, int64_t n) {
    return FRINGEWELL_WRITE(writer, fringewell_state_append_int64(FRINGEWELL_LENT(writer), key, key_length, n));
}

/* A datetime, in milliseconds since 1970. */
static inline uint32_t fringewell_append_datetime(fringewell_writer *writer, const void *key, size_t key_length, int64_t n) {
    return FRINGEWELL_WRITE(writer, fringewell_state_append_datetime(FRINGEWELL_LENT(writer), key, key_length, n));
}

static inline uint32_t fringewell_append_timestamp(fringewell_writer *writer, const void *key, size_t key_length, uint32_t increment,
                                                   uint32_t seconds) {
    return FRINGEWELL_WRITE(writer, fringewell_state_append_timestamp(FRINGEWELL_LENT(writer), key, key_length, increment, seconds));
}

static inline uint32_t fringewell_append_null(fringewell_writer *writer, const void *key, size_t key_length) {
    return FRINGEWELL_WRITE(writer, fringewell_state_append_null(FRINGEWELL_LENT(writer), key, key_length));
}

static inline uint32_t fringewell_append_undefined(fringewell_writer *writer, const void *key, size_t key_length) {
    return FRINGEWELL_WRITE(writer, fringewell_state_append_undefined(FRINGEWELL_LENT(writer), key, key_length));
}

static inline uint32_t fringewell_append_min_key(fringewell_writer *writer, const void *key, size_t key_length) {
    return FRINGEWELL_WRITE(writer, fringewell_state_append_min_key(FRINGEWELL_LENT(writer), key, key_length));
}

static inline uint32_t fringewell_append_max_key(fringewell_writer *writer, const void *key, size_t key_length) {
    return FRINGEWELL_WRITE(writer, fringewell_state_append_max_key(FRINGEWELL_LENT(writer), key, key_length));
}

/* Texts: given without a final zero; zero bytes inside are allowed. */
static inline uint32_t fringewell_append_string(fringewell_writer *writer, const void *key, size_t key_length, const void *text,
                                                size_t text_length) {
    return FRINGEWELL_WRITE(writer, fringewell_state_append_string(FRINGEWELL_LENT(writer), key, key_length, text, text_length));
}

static inline uint32_t fringewell_append_code(fringewell_writer *writer, const void *key, size_t key_length, const void *text,
                                              size_t text_length) {
    return FRINGEWELL_WRITE(writer, fringewell_state_append_code(FRINGEWELL_LENT(writer), key, key_length, text, text_length));
}

static inline uint32_t fringewell_append_symbol(fringewell_writer *writer, const void *key, size_t key_length, const void *text,
                                                size_t text_length) {
    return FRINGEWELL_WRITE(writer, fringewell_state_append_symbol(FRINGEWELL_LENT(writer), key, key_length, text, text_length));
}

/* Binary data of any subtype; under subtype 2 its inner length is written too. */
static inline uint32_t fringewell_append_binary(fringewell_writer *writer, const void *key, size_t key_length, uint8_t subtype,
                                                const void *contents, size_t contents_length) {
    return FRINGEWELL_WRITE(writer, fringewell_state_append_binary(FRINGEWELL_LENT(writer), key, key_length, subtype, contents,
                                                                   contents_length));
}

/* A regular expression: given without final zeros; the options are written as given, in whatever order. */
static inline uint32_t fringewell_append_regex(fringewell_writer *writer, const void *key, size_t key_length, const void *pattern,
                                               size_t pattern_length, const void *options, size_t options_length) {
    return FRINGEWELL_WRITE(writer, fringewell_state_append_regex(FRINGEWELL_LENT(writer), key, key_length, pattern, pattern_length,
                                                                  options, options_length));
}

static inline uint32_t fringewell_append_dbpointer(fringewell_writer *writer, const void *key, size_t key_length, const void *name_space,
                                                   size_t name_space_length, const uint8_t id[12]) {
    return FRINGEWELL_WRITE(writer, fringewell_state_append_dbpointer(FRINGEWELL_LENT(writer), key, key_length, name_space,
                                                                      name_space_length, id));
}

static inline uint32_t fringewell_append_object_id(fringewell_writer *writer, const void *key, size_t key_length, const uint8_t id[12]) {
    return FRINGEWELL_WRITE(writer, fringewell_state_append_object_id(FRINGEWELL_LENT(writer), key, key_length, id));
}

/* A decimal128 by its bits, as BSON lays them. */
static inline uint32_t fringewell_append_decimal128(fringewell_writer *writer, const void *key, size_t key_length, const uint8_t bits[16]) {
    return FRINGEWELL_WRITE(writer, fringewell_state_append_decimal128(FRINGEWELL_LENT(writer), key, key_length, bits));
}

#undef FRINGEWELL_WRITE
#undef FRINGEWELL_LENT

/* ---- The layout that the archive was built with ---- */

#ifdef __cplusplus
#define FRINGEWELL_ASSERT(fact) static_assert(fact, #fact)
#else
#define FRINGEWELL_ASSERT(fact) _Static_assert(fact, #fact)
#endif
#define FRINGEWELL_AT(type, field, bytes) FRINGEWELL_ASSERT(offsetof(type, field) == (bytes))

FRINGEWELL_ASSERT(sizeof(size_t) == 8 && sizeof(void *) == 8 && sizeof(double) == 8);

FRINGEWELL_ASSERT(sizeof(fringewell_verdict) == 24);
FRINGEWELL_AT(fringewell_verdict, number, 0);
FRINGEWELL_AT(fringewell_verdict, place, 8);
FRINGEWELL_AT(fringewell_verdict, count, 16);

FRINGEWELL_ASSERT(sizeof(fringewell_value) == 72);
FRINGEWELL_AT(fringewell_value, number, 0);
FRINGEWELL_AT(fringewell_value, tag, 4);
FRINGEWELL_AT(fringewell_value, place, 8);
FRINGEWELL_AT(fringewell_value, framed_offset, 16);
FRINGEWELL_AT(fringewell_value, framed_size, 24);
FRINGEWELL_AT(fringewell_value, bits, 32);
FRINGEWELL_AT(fringewell_value, offset, 40);
FRINGEWELL_AT(fringewell_value, size, 48);
FRINGEWELL_AT(fringewell_value, offset2, 56);
FRINGEWELL_AT(fringewell_value, size2, 64);

FRINGEWELL_ASSERT(sizeof(fringewell_stepped) == 56);
FRINGEWELL_AT(fringewell_stepped, number, 0);
FRINGEWELL_AT(fringewell_stepped, tag, 4);
FRINGEWELL_AT(fringewell_stepped, ended, 5);
FRINGEWELL_AT(fringewell_stepped, place, 8);
FRINGEWELL_AT(fringewell_stepped, next, 16);
FRINGEWELL_AT(fringewell_stepped, key_offset, 24);
FRINGEWELL_AT(fringewell_stepped, key_size, 32);
FRINGEWELL_AT(fringewell_stepped, framed_offset, 40);
FRINGEWELL_AT(fringewell_stepped, framed_size, 48);

FRINGEWELL_ASSERT(sizeof(fringewell_element) == 104);
FRINGEWELL_AT(fringewell_element, value, 0);
FRINGEWELL_AT(fringewell_element, key_offset, 72);
FRINGEWELL_AT(fringewell_element, key_size, 80);
FRINGEWELL_AT(fringewell_element, next, 88);
FRINGEWELL_AT(fringewell_element, ended, 96);

FRINGEWELL_ASSERT(sizeof(fringewell_joined) == 24);
FRINGEWELL_AT(fringewell_joined, number, 0);
FRINGEWELL_AT(fringewell_joined, which, 4);
FRINGEWELL_AT(fringewell_joined, place, 8);
FRINGEWELL_AT(fringewell_joined, length, 16);

FRINGEWELL_ASSERT(sizeof(fringewell_written) == 16);
FRINGEWELL_AT(fringewell_written, number, 0);
FRINGEWELL_AT(fringewell_written, used, 8);

FRINGEWELL_ASSERT(sizeof(fringewell_state) == 1624);
FRINGEWELL_AT(fringewell_state, words, 0);

#undef FRINGEWELL_AT
#undef FRINGEWELL_ASSERT

#ifdef __cplusplus
}
#endif

#endif
