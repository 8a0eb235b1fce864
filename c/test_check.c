/* The whole check, plain and strict, and is_empty. */
#include "samples.h"
#include "test.h"

/* RULES.md, "Bytes to try", in its order. */
static void bytes_to_try(void) {
    EXPECT_VERDICT(fringewell_check(BYTES(0x05, 0, 0, 0, 0)), 0, 0, 0);
    EXPECT_VERDICT(fringewell_check(BYTES(0x05, 0, 0, 0)), FRINGEWELL_TOO_SHORT, 0, 0);
    EXPECT_VERDICT(fringewell_check(BYTES(0x06, 0, 0, 0, 0)), FRINGEWELL_LENGTH_DIFFERS, 0, 0);
    EXPECT_VERDICT(fringewell_check(BYTES(0x05, 0, 0, 0, 1)), FRINGEWELL_NO_TERMINATOR, 0, 0);
    EXPECT_VERDICT(fringewell_check(BYTES(0x0A, 0, 0, 0, 0x10, 0, 7, 0, 0, 0)), FRINGEWELL_STEP_OUTSIDE, 10, 0);
    EXPECT_VERDICT(fringewell_check(BYTES(0x0A, 0, 0, 0, 0x0F, 0, 3, 0, 0, 0)), FRINGEWELL_BAD_SHAPE, 4, 0);
    EXPECT_VERDICT(fringewell_check(BYTES(0x0C, 0, 0, 0, 0x02, 0, 1, 0, 0, 0, 0, 0)), 0, 0, 1);
    EXPECT_VERDICT(fringewell_check(BYTES(0x0B, 0, 0, 0, 0x02, 0, 0, 0, 0, 0, 0)), FRINGEWELL_BAD_LENGTH, 4, 0);
    EXPECT_VERDICT(fringewell_check(BYTES(0x08, 0, 0, 0, 0x14, 0xFF, 0, 0)), FRINGEWELL_NOT_UTF8, 4, 0);
    EXPECT_VERDICT(fringewell_check(BYTES(0x07, 0, 0, 0, 0x0B, 0, 0)), FRINGEWELL_NO_ZERO, 4, 0);
    EXPECT_VERDICT(fringewell_check(BYTES(0x06, 0, 0, 0, 0x0A, 0)), FRINGEWELL_STEP_OUTSIDE, 6, 0);
    EXPECT_VERDICT(fringewell_check(p12, sizeof p12), 0, 0, 2);
    EXPECT_VERDICT(fringewell_check(BYTES(0x07, 0, 0, 0, 0x14, 0, 0)), FRINGEWELL_UNKNOWN_TAG, 4, 0);
    EXPECT_VERDICT(fringewell_check(BYTES(0x0A, 0, 0, 0, 0x12, 0, 7, 0, 0, 0)), FRINGEWELL_PAST_THE_SLICE, 4, 0);
    EXPECT_VERDICT(fringewell_check(BYTES(0x0C, 0, 0, 0, 0x02, 0, 1, 0, 0, 0, 'a', 0)), FRINGEWELL_NOT_ENDED, 4, 0);
    EXPECT_VERDICT(fringewell_check(BYTES(0x08, 0, 0, 0, 0x08, 0, 2, 0)), FRINGEWELL_BAD_BOOLEAN, 4, 0);
    EXPECT_VERDICT(
        fringewell_check(BYTES(0x15, 0, 0, 0, 0x0F, 0, 0x0E, 0, 0, 0, 1, 0, 0, 0, 0, 5, 0, 0, 0, 0, 0)), 0, 0, 1);
}

/* Values inside documents, arrays and scopes are checked and counted; places are those of the slice given. */
static void inside(void) {
    EXPECT_VERDICT(fringewell_check(every_type, sizeof every_type), 0, 0, 21 + 3); /* one value each in c, in d, in the scope of o */
    EXPECT_VERDICT(fringewell_check(BYTES(14, 0, 0, 0, 0x03, 0, 7, 0, 0, 0, 0x14, 0, 0, 0)), FRINGEWELL_UNKNOWN_TAG, 10, 0);
    EXPECT_VERDICT(fringewell_check(BYTES(14, 0, 0, 0, 0x04, 0, 7, 0, 0, 0, 0x14, 0, 0, 0)), FRINGEWELL_UNKNOWN_TAG, 10, 0);
    /* a tag that is none in a scope, behind 4 bytes of n and the empty code: 6 + 4 + 5 + 4 */
    EXPECT_VERDICT(fringewell_check(BYTES(23, 0, 0, 0, 0x0F, 0, 16, 0, 0, 0, 1, 0, 0, 0, 0, 7, 0, 0, 0, 0x14, 0, 0, 0)),
                   FRINGEWELL_UNKNOWN_TAG, 19, 0);
    /* a scope that says 6 where 5 bytes are left is about the code with scope */
    EXPECT_VERDICT(fringewell_check(BYTES(21, 0, 0, 0, 0x0F, 0, 14, 0, 0, 0, 1, 0, 0, 0, 0, 6, 0, 0, 0, 0, 0)),
                   FRINGEWELL_LENGTH_DIFFERS, 4, 0);
    EXPECT_VERDICT(fringewell_check(unframed, sizeof unframed), FRINGEWELL_UNKNOWN_TAG, 17, 0);
    /* a zero byte met as a tag is no end */
    EXPECT_VERDICT(fringewell_check(BYTES(7, 0, 0, 0, 0, 0, 0)), FRINGEWELL_UNKNOWN_TAG, 4, 0);
    /* a negative length in front, and the empty slice */
    EXPECT_VERDICT(fringewell_check(BYTES(0xFF, 0xFF, 0xFF, 0xFF, 0)), FRINGEWELL_LENGTH_DIFFERS, 0, 0);
    EXPECT_VERDICT(fringewell_check(NOTHING), FRINGEWELL_TOO_SHORT, 0, 0);
    EXPECT_VERDICT(fringewell_check(p12, 0), FRINGEWELL_TOO_SHORT, 0, 0);
}

/* Document i begins behind i lengths and fronts, and its first tag four bytes on. Top values have depth 0. */
static void depth(void) {
    static uint8_t deep[2048];
    EXPECT_EQUAL(nest(deep, 201, BYTES(0x03, 0), NOTHING), 1412);
    EXPECT_VERDICT(fringewell_check(deep, 1412), 0, 0, 201);
    EXPECT_VERDICT(fringewell_check_strict(deep, 1412), 0, 0, 201);
    EXPECT_EQUAL(nest(deep, 202, BYTES(0x03, 0), NOTHING), 1419);
    EXPECT_VERDICT(fringewell_check(deep, 1419), FRINGEWELL_TOO_DEEP, 1210, 0);
    EXPECT_VERDICT(fringewell_check_strict(deep, 1419), FRINGEWELL_TOO_DEEP, 1210, 0);
    /* a value of depth 201 is read before it is found too deep: a null, a boolean of 2 */
    EXPECT_EQUAL(nest(deep, 201, BYTES(0x03, 0), BYTES(0x0A, 0)), 1414);
    EXPECT_VERDICT(fringewell_check(deep, 1414), FRINGEWELL_TOO_DEEP, 1210, 0);
    EXPECT_EQUAL(nest(deep, 201, BYTES(0x03, 0), BYTES(0x08, 0, 2)), 1415);
    EXPECT_VERDICT(fringewell_check(deep, 1415), FRINGEWELL_BAD_BOOLEAN, 1210, 0);
    EXPECT_EQUAL(nest(deep, 201, BYTES(0x04, '0', 0), NOTHING), 5 + 8 * 201);
    EXPECT_VERDICT(fringewell_check_strict(deep, 5 + 8 * 201), 0, 0, 201);
    EXPECT_EQUAL(nest(deep, 202, BYTES(0x04, '0', 0), NOTHING), 5 + 8 * 202);
    EXPECT_VERDICT(fringewell_check_strict(deep, 5 + 8 * 202), FRINGEWELL_TOO_DEEP, 7 * 201 + 4, 0);
    /* the key is asked for before the depth: a null of depth 201 under 0, and under 1 */
    EXPECT_EQUAL(nest(deep, 201, BYTES(0x04, '0', 0), BYTES(0x0A, '0', 0)), 5 + 8 * 201 + 3);
    EXPECT_VERDICT(fringewell_check_strict(deep, 5 + 8 * 201 + 3), FRINGEWELL_TOO_DEEP, 7 * 201 + 4, 0);
    EXPECT_EQUAL(nest(deep, 201, BYTES(0x04, '0', 0), BYTES(0x0A, '1', 0)), 5 + 8 * 201 + 3);
    EXPECT_VERDICT(fringewell_check_strict(deep, 5 + 8 * 201 + 3), FRINGEWELL_BAD_ARRAY_KEY, 7 * 201 + 4, 0);
    EXPECT_VERDICT(fringewell_check(deep, 5 + 8 * 201 + 3), FRINGEWELL_TOO_DEEP, 7 * 201 + 4, 0);
    /* a scope counts two: the code with scope number 101, from 1, has depth 200 */
    EXPECT_EQUAL(nest_scopes(deep, 101), 5 + 16 * 101);
    EXPECT_VERDICT(fringewell_check(deep, 5 + 16 * 101), 0, 0, 101);
    EXPECT_EQUAL(nest_scopes(deep, 102), 5 + 16 * 102);
    EXPECT_VERDICT(fringewell_check(deep, 5 + 16 * 102), FRINGEWELL_TOO_DEEP, 15 * 101 + 4, 0);
}

static void strict(void) {
    EXPECT_VERDICT(fringewell_check_strict(every_type, sizeof every_type), 0, 0, 24);
    EXPECT_VERDICT(fringewell_check_strict(NOTHING), FRINGEWELL_TOO_SHORT, 0, 0);
    EXPECT_VERDICT(fringewell_check_strict(BYTES(5, 0, 0, 0, 0)), 0, 0, 0);
    EXPECT_VERDICT(fringewell_check_strict(BYTES(7, 0, 0, 0, 0x14, 0, 0)), FRINGEWELL_UNKNOWN_TAG, 4, 0);
    /* an empty array */
    EXPECT_VERDICT(fringewell_check_strict(BYTES(12, 0, 0, 0, 0x04, 0, 5, 0, 0, 0, 0, 0)), 0, 0, 1);
    /* keys 0, 0 and 7: the second is the first that is another */
    EXPECT_VERDICT(fringewell_check_strict(BYTES(21, 0, 0, 0, 0x04, 0, 14, 0, 0, 0, 0x0A, '0', 0, 0x0A, '0', 0, 0x0A, '7', 0, 0, 0)),
                   FRINGEWELL_BAD_ARRAY_KEY, 13, 0);
}

/* The only key that is another, in arrays that are good but for it. With its null's two bytes a key of one, two, .. six digits takes 3, 4,
 * .. 8: number 9 lies at 10 + 27, 10 at 40, 99 at 40 + 4 * 89, 100 at 400, and 99,999 at 400 + 5 * 900 + 6 * 9,000 + 7 * 89,999. */
static const struct {
    size_t count, other;
    const char *key;
    size_t place;
} nearly[] = {
    {1, 0, "", 10}, {1, 0, "00", 10}, {1, 0, "+0", 10}, {1, 0, "-0", 10}, {1, 0, "1", 10},
    {1, 0, "/", 10}, {1, 0, ":", 10}, {1, 0, "0 ", 10}, {1, 0, "a", 10}, {2, 0, "1", 10},
    {2, 1, "0", 13}, {2, 1, "01", 13}, {2, 1, "2", 13}, {2, 1, "10", 13}, {2, 1, "11", 13},
    {11, 9, "10", 37}, {11, 9, "09", 37}, {11, 9, ":", 37}, {11, 10, "9", 40}, {11, 10, "11", 40},
    {11, 10, "1", 40}, {11, 10, "0", 40}, {11, 10, ":", 40}, {11, 10, "010", 40}, {11, 10, "100", 40},
    {101, 99, "100", 396}, {101, 99, "9", 396}, {101, 99, "89", 396}, {101, 100, "99", 400}, {101, 100, "101", 400},
    {101, 100, "10", 400}, {101, 100, "00", 400}, {101, 100, "0100", 400}, {101, 100, "110", 400}, {101, 100, "200", 400},
    {100001, 99999, "100000", 688893}, {100001, 100000, "00000", 688900}, {100001, 100000, "1000000", 688900},
};

static void positions(void) {
    static const size_t counts[] = {1, 2, 10, 11, 100, 101, 100001};
    static uint8_t out[1 << 20];
    for (size_t i = 0; i < sizeof counts / sizeof *counts; i++) {
        size_t length = nulls(out, counts[i], counts[i], NULL);
        EXPECT_VERDICT(fringewell_check_strict(out, length), 0, 0, 1 + counts[i]);
    }
    for (size_t i = 0; i < sizeof nearly / sizeof *nearly; i++) {
        size_t length = nulls(out, nearly[i].count, nearly[i].other, nearly[i].key);
        EXPECT_VERDICT(fringewell_check_strict(out, length), FRINGEWELL_BAD_ARRAY_KEY, nearly[i].place, 0);
        EXPECT_VERDICT(fringewell_check(out, length), 0, 0, 1 + nearly[i].count);
    }
}

/* [null, {null}, null], what lies in the middle with this tag, the null in it under this key, the last one under that. */
static fringewell_verdict around(uint8_t tag, uint8_t key, uint8_t last) {
    const uint8_t document[29] = {
        29, 0, 0, 0, 0x04, 0, 22, 0, 0, 0,
        /* 10 */ 0x0A, '0', 0,
        /* 13 */ tag, '1', 0, 8, 0, 0, 0, 0x0A, key, 0, 0,
        /* 24 */ 0x0A, last, 0,
        0, 0,
    };
    return fringewell_check_strict(document, sizeof document);
}

/* [code with scope {x: [null]}, null], the keys likewise. */
static fringewell_verdict around_scope(uint8_t key, uint8_t last) {
    const uint8_t document[43] = {
        43, 0, 0, 0, 0x04, 0, 36, 0, 0, 0,
        /* 10 */ 0x0F, '0', 0, 25, 0, 0, 0, 1, 0, 0, 0, 0,
        /* 22 */ 16, 0, 0, 0, 0x04, 'x', 0, 8, 0, 0, 0, 0x0A, key, 0, 0, 0,
        /* 38 */ 0x0A, last, 0,
        0, 0,
    };
    return fringewell_check_strict(document, sizeof document);
}

/* Positions begin anew in each array, and go on behind it; the keys in documents and scopes are not asked for. */
static void anew(void) {
    EXPECT_VERDICT(around(0x04, '0', '2'), 0, 0, 5);
    EXPECT_VERDICT(around(0x04, '1', '2'), FRINGEWELL_BAD_ARRAY_KEY, 20, 0);
    EXPECT_VERDICT(around(0x04, '2', '3'), FRINGEWELL_BAD_ARRAY_KEY, 20, 0);
    EXPECT_VERDICT(around(0x04, '0', '1'), FRINGEWELL_BAD_ARRAY_KEY, 24, 0);
    EXPECT_VERDICT(around(0x04, '0', '3'), FRINGEWELL_BAD_ARRAY_KEY, 24, 0);
    EXPECT_VERDICT(around(0x03, 'x', '2'), 0, 0, 5);
    EXPECT_VERDICT(around(0x03, '0', '1'), FRINGEWELL_BAD_ARRAY_KEY, 24, 0);
    EXPECT_VERDICT(around_scope('0', '1'), 0, 0, 5);
    EXPECT_VERDICT(around_scope('1', '1'), FRINGEWELL_BAD_ARRAY_KEY, 33, 0);
    EXPECT_VERDICT(around_scope('0', '0'), FRINGEWELL_BAD_ARRAY_KEY, 38, 0);
}

/* An array with one element, whose tag is at 10, by the plain check and by the strict one. */
static void one_element(const uint8_t *element, size_t size, uint32_t plainly, uint32_t strictly) {
    uint8_t out[32];
    size_t length = nest(out, 1, BYTES(0x04, 0), element, size);
    EXPECT_VERDICT(fringewell_check(out, length), plainly, 10, 0);
    EXPECT_VERDICT(fringewell_check_strict(out, length), strictly, 10, 0);
}

/* Under the key 1, which is another than 0: the step is refused before the key is asked for, the reading behind it. */
static void between(void) {
    one_element(BYTES(0x0A, 0xFF, 0), FRINGEWELL_NOT_UTF8, FRINGEWELL_NOT_UTF8);
    one_element(BYTES(0x14, '1', 0), FRINGEWELL_UNKNOWN_TAG, FRINGEWELL_UNKNOWN_TAG);
    one_element(BYTES(0x0B, '1', 0), FRINGEWELL_NO_ZERO, FRINGEWELL_NO_ZERO); /* the array's own zero ends the pattern */
    one_element(BYTES(0x02, '1', 0, 0, 0, 0, 0), FRINGEWELL_BAD_LENGTH, FRINGEWELL_BAD_LENGTH);
    one_element(BYTES(0x10, '1', 0, 7, 0), FRINGEWELL_PAST_THE_SLICE, FRINGEWELL_PAST_THE_SLICE);
    one_element(BYTES(0x02, '1', 0, 1, 0, 0, 0, 'x'), FRINGEWELL_NOT_ENDED, FRINGEWELL_NOT_ENDED);
    one_element(BYTES(0x08, '1', 0, 2), FRINGEWELL_BAD_BOOLEAN, FRINGEWELL_BAD_ARRAY_KEY);
    one_element(BYTES(0x08, '0', 0, 2), FRINGEWELL_BAD_BOOLEAN, FRINGEWELL_BAD_BOOLEAN);
    one_element(BYTES(0x02, '1', 0, 2, 0, 0, 0, 0xFF, 0), FRINGEWELL_NOT_UTF8, FRINGEWELL_BAD_ARRAY_KEY);
    one_element(BYTES(0x0F, '1', 0, 3, 0, 0, 0), FRINGEWELL_BAD_SHAPE, FRINGEWELL_BAD_ARRAY_KEY);
    one_element(BYTES(0x0F, '0', 0, 3, 0, 0, 0), FRINGEWELL_BAD_SHAPE, FRINGEWELL_BAD_SHAPE);
}

static void empty(void) {
    EXPECT_VERDICT(fringewell_is_empty(BYTES(5, 0, 0, 0, 0)), 0, 0, 1);
    EXPECT_VERDICT(fringewell_is_empty(p12, sizeof p12), 0, 0, 0);
    EXPECT_VERDICT(fringewell_is_empty(unframed, sizeof unframed), 0, 0, 0);
    EXPECT_VERDICT(fringewell_is_empty(NOTHING), FRINGEWELL_TOO_SHORT, 0, 0);
    EXPECT_VERDICT(fringewell_is_empty(BYTES(6, 0, 0, 0, 0)), FRINGEWELL_LENGTH_DIFFERS, 0, 0);
    EXPECT_VERDICT(fringewell_is_empty(BYTES(5, 0, 0, 0, 1)), FRINGEWELL_NO_TERMINATOR, 0, 0);
}

int main(void) {
    bytes_to_try();
    inside();
    depth();
    strict();
    positions();
    anew();
    between();
    empty();
    return held();
}
