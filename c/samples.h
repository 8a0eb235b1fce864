/* Documents that more than one test uses. */
#ifndef SAMPLES_H
#define SAMPLES_H

#include <fringewell.h>
#include <stdio.h>

/* One element of each of the twenty-one types, keys a to u. In front of each line: the offset of its tag. */
static const uint8_t every_type[221] = {
    /*   0 */ 0xDD, 0, 0, 0,
    /*   4 */ 0x01, 'a', 0, 0, 0, 0, 0, 0, 0, 0x04, 0xC0, /* -2.5: sign 1, exponent 1024, fraction 1/4: C004000000000000 */
    /*  15 */ 0x02, 'b', 0, 4, 0, 0, 0, 'h', 0xC3, 0xA9, 0, /* h and U+00E9 */
    /*  26 */ 0x03, 'c', 0, 8, 0, 0, 0, 0x0A, 'x', 0, 0,
    /*  37 */ 0x04, 'd', 0, 12, 0, 0, 0, 0x10, '0', 0, 0xFF, 0xFF, 0xFF, 0xFF, 0,
    /*  52 */ 0x05, 'e', 0, 2, 0, 0, 0, 0x80, 0xAA, 0xBB,
    /*  62 */ 0x06, 'f', 0,
    /*  65 */ 0x07, 'g', 0, 1, 2, 3, 4, 5, 6, 7, 8, 9, 10, 11, 12,
    /*  80 */ 0x08, 'h', 0, 1,
    /*  84 */ 0x09, 'i', 0, 0x18, 0xFC, 0xFF, 0xFF, 0xFF, 0xFF, 0xFF, 0xFF, /* -1000: 2^64 - 1000 ends in FC18 */
    /*  95 */ 0x0A, 'j', 0,
    /*  98 */ 0x0B, 'k', 0, '^', 'a', 0, 'i', 0,
    /* 106 */ 0x0C, 'l', 0, 3, 0, 0, 0, 'd', 'b', 0, 21, 22, 23, 24, 25, 26, 27, 28, 29, 30, 31, 32,
    /* 128 */ 0x0D, 'm', 0, 2, 0, 0, 0, 'f', 0,
    /* 137 */ 0x0E, 'n', 0, 1, 0, 0, 0, 0, /* the empty text */
    /* 145 */ 0x0F, 'o', 0, 18, 0, 0, 0, 2, 0, 0, 0, 'g', 0, 8, 0, 0, 0, 0x0A, 'y', 0, 0,
    /* 166 */ 0x10, 'p', 0, 0xF9, 0xFF, 0xFF, 0xFF, /* -7 */
    /* 173 */ 0x11, 'q', 0, 4, 3, 2, 1, 0x98, 0xBA, 0xDC, 0xFE, /* increment 01020304, seconds FEDCBA98 */
    /* 184 */ 0x12, 'r', 0, 0, 0, 0, 0, 0, 0, 0, 0x80, /* -2^63 */
    /* 195 */ 0x13, 's', 0, 41, 42, 43, 44, 45, 46, 47, 48, 49, 50, 51, 52, 53, 54, 55, 56,
    /* 214 */ 0xFF, 't', 0,
    /* 217 */ 0x7F, 'u', 0,
    /* 220 */ 0,
};

/* What each of them is: tag, place, framed bytes; then the number and the parts. Its key is one letter, behind the tag. */
static const fringewell_value every_value[21] = {
    {0, FRINGEWELL_TAG_DOUBLE, 4, 7, 8, 0xC004000000000000, 0, 0, 0, 0},
    {0, FRINGEWELL_TAG_STRING, 15, 18, 8, 0, 22, 3, 0, 0}, /* without its length and zero */
    {0, FRINGEWELL_TAG_DOCUMENT, 26, 29, 8, 0, 29, 8, 0, 0},
    {0, FRINGEWELL_TAG_ARRAY, 37, 40, 12, 0, 40, 12, 0, 0},
    {0, FRINGEWELL_TAG_BINARY, 52, 55, 7, 0x80, 60, 2, 0, 0}, /* behind length and subtype */
    {0, FRINGEWELL_TAG_UNDEFINED, 62, 65, 0, 0, 0, 0, 0, 0},
    {0, FRINGEWELL_TAG_OBJECT_ID, 65, 68, 12, 0, 68, 12, 0, 0},
    {0, FRINGEWELL_TAG_BOOL, 80, 83, 1, 1, 0, 0, 0, 0},
    {0, FRINGEWELL_TAG_DATETIME, 84, 87, 8, (uint64_t)-1000, 0, 0, 0, 0},
    {0, FRINGEWELL_TAG_NULL, 95, 98, 0, 0, 0, 0, 0, 0},
    {0, FRINGEWELL_TAG_REGEX, 98, 101, 5, 0, 101, 2, 104, 1}, /* without their zeros */
    {0, FRINGEWELL_TAG_DBPOINTER, 106, 109, 19, 0, 113, 2, 116, 12},
    {0, FRINGEWELL_TAG_CODE, 128, 131, 6, 0, 135, 1, 0, 0},
    {0, FRINGEWELL_TAG_SYMBOL, 137, 140, 5, 0, 144, 0, 0, 0},
    {0, FRINGEWELL_TAG_CODE_WITH_SCOPE, 145, 148, 18, 0, 156, 1, 158, 8}, /* the code behind both lengths */
    {0, FRINGEWELL_TAG_INT32, 166, 169, 4, (uint64_t)-7, 0, 0, 0, 0},
    {0, FRINGEWELL_TAG_TIMESTAMP, 173, 176, 8, 0xFEDCBA9801020304, 0, 0, 0, 0},
    {0, FRINGEWELL_TAG_INT64, 184, 187, 8, 0x8000000000000000, 0, 0, 0, 0},
    {0, FRINGEWELL_TAG_DECIMAL128, 195, 198, 16, 0, 198, 16, 0, 0},
    {0, FRINGEWELL_TAG_MIN_KEY, 214, 217, 0, 0, 0, 0, 0, 0},
    {0, FRINGEWELL_TAG_MAX_KEY, 217, 220, 0, 0, 0, 0, 0, 0},
};

/* P12 of RULES.md: key a twice, first false, then true. */
static const uint8_t p12[13] = {13, 0, 0, 0, 0x08, 'a', 0, 0, 0x08, 'a', 0, 1, 0};

/* An int32 87 under `battery`, then a tag that is none, at 17. */
static const uint8_t unframed[21] = {21, 0, 0, 0, 0x10, 'b', 'a', 't', 't', 'e', 'r', 'y', 0, 87, 0, 0, 0, 0x14, 'x', 0, 0};

static inline void put32(uint8_t *at, size_t n) {
    for (int i = 0; i < 4; i++) {
        at[i] = (uint8_t)(n >> 8 * i);
    }
}

static inline size_t put(uint8_t *out, size_t at, const uint8_t *bytes, size_t size) {
    for (size_t i = 0; i < size; i++) {
        out[at + i] = bytes[i];
    }
    return at + size;
}

/* A file of samples/, if it has at most so many bytes. Returns its length, or 0. */
static inline size_t load(const char *name, uint8_t *out, size_t size) {
    char path[64];
    snprintf(path, sizeof path, "../samples/%s.bson", name);
    FILE *file = fopen(path, "rb");
    if (file == NULL) {
        return 0;
    }
    size_t length = fread(out, 1, size, file);
    bool whole = fgetc(file) == EOF && ferror(file) == 0;
    fclose(file);
    return whole ? length : 0;
}

/* A document in a document, and so on: `levels` of them inside the top, and in the innermost `body`. `front` stands between the length of
 * a document and the next document, tag and key and all; so each level adds a length, `front` and a zero. Returns the top's length. */
static inline size_t nest(uint8_t *out, size_t levels, const uint8_t *front, size_t front_size, const uint8_t *body, size_t body_size) {
    size_t whole = 5 + body_size + levels * (4 + front_size + 1), at = 0;
    for (size_t level = 0; level < levels; level++) {
        put32(out + at, whole - level * (4 + front_size + 1));
        at = put(out, at + 4, front, front_size);
    }
    put32(out + at, 5 + body_size);
    at = put(out, at + 4, body, body_size);
    while (at < whole) {
        out[at++] = 0;
    }
    return whole;
}

/* The same of codes with scope, empty code and all: the front has a length of its own, of code and scope, that each level sets. */
static inline size_t nest_scopes(uint8_t *out, size_t levels) {
    static const uint8_t front[11] = {0x0F, 0, 0, 0, 0, 0, 1, 0, 0, 0, 0};
    size_t whole = nest(out, levels, front, sizeof front, NULL, 0);
    for (size_t level = 0; level < levels; level++) {
        put32(out + 15 * level + 6, whole - 16 * (level + 1) + 9);
    }
    return whole;
}

/* An array of nulls under an empty key: their keys are 0, 1, 2 on, as the C library writes them, but for that of number `other`, if there
 * is one. The first null lies at 10, and each has two bytes besides its key. Returns the length. */
static inline size_t nulls(uint8_t *out, size_t count, size_t other, const char *key) {
    static const uint8_t front[6] = {0x04, 0, 0, 0, 0, 0};
    size_t at = put(out, 4, front, sizeof front);
    for (size_t i = 0; i < count; i++) {
        char position[21];
        snprintf(position, sizeof position, "%zu", i);
        const char *text = i == other ? key : position;
        out[at++] = 0x0A;
        at = put(out, at, (const uint8_t *)text, strlen(text) + 1);
    }
    out[at] = out[at + 1] = 0;
    put32(out + 6, at + 1 - 6);
    put32(out, at + 2);
    return at + 2;
}

#endif
