/* Limits: the calls under a limit, where a key, a pattern or options may have at most so many bytes. */
#include "agree.h"
#include "samples.h"

/* Every call, of a document with one element: tag, key and zero lie in front of its value, the terminator behind it. The value is a null,
 * or a regex: pattern, zero, options, zero. */
static void passes(const uint8_t *document, size_t length, size_t key_size, size_t limit) {
    const uint8_t *key = document + 5, tag = document[4];
    size_t offset = 5 + key_size + 1, size = length - 1 - offset;
    fringewell_value value = VALUE(.tag = tag, .place = 4, .framed_offset = offset, .framed_size = size);
    if (tag == FRINGEWELL_TAG_REGEX) {
        value.offset = offset;
        value.size = strlen((const char *)document + offset);
        value.offset2 = offset + value.size + 1;
        value.size2 = size - value.size - 2;
    }
    EXPECT_VERDICT(fringewell_check_under(document, length, limit), 0, 0, 1);
    EXPECT_VERDICT(fringewell_check_strict_under(document, length, limit), 0, 0, 1);
    EXPECT_VALUE(fringewell_lookup_under(document, length, key, key_size, limit), value);
    EXPECT_VALUE(fringewell_lookup_typed_under(document, length, key, key_size, tag, limit), value);
    EXPECT_VALUE(fringewell_path_under(document, length, key, key_size, limit), value);
    EXPECT_VALUE(fringewell_path_typed_under(document, length, key, key_size, tag, limit), value);
    EXPECT_STEPPED(fringewell_step_under(document, length, 4, false, limit),
                   STEPPED(.tag = tag, .place = 4, .next = length - 1, .key_offset = 5, .key_size = key_size, .framed_offset = offset,
                           .framed_size = size));
    EXPECT_ELEMENT(fringewell_next_under(document, length, 4, false, limit),
                   ELEMENT(.value = value, .key_offset = 5, .key_size = key_size, .next = length - 1));
    EXPECT_VALUE(fringewell_read_under(document, length, 4, limit), value);
}

/* Limits that no text here exceeds: among them more than the slice has, and some that would be none or little in fewer bits. */
static const size_t wide[] = {3, 4, 10, 16, UINT32_MAX, (size_t)UINT32_MAX + 1, PTRDIFF_MAX, SIZE_MAX - 1, SIZE_MAX};
enum { WIDE = sizeof wide / sizeof *wide };

/* A key of three bytes; none but the empty one under 0; bytes are counted, not letters. */
static void keys(void) {
    static const uint8_t abc[10] = {10, 0, 0, 0, 0x0A, 'a', 'b', 'c', 0, 0}, letter[9] = {9, 0, 0, 0, 0x0A, 0xC3, 0xA9, 0, 0};
    for (size_t i = 0; i < WIDE; i++) {
        passes(abc, sizeof abc, 3, wide[i]);
    }
    for (size_t limit = 0; limit < 3; limit++) {
        refused_under(abc, sizeof abc, limit, FRINGEWELL_TOO_LONG);
    }
    passes(BYTES(7, 0, 0, 0, 0x0A, 0, 0), 0, 0);
    refused_under(BYTES(8, 0, 0, 0, 0x0A, 'a', 0, 0), 0, FRINGEWELL_TOO_LONG);
    refused_under(letter, sizeof letter, 1, FRINGEWELL_TOO_LONG);
    passes(letter, sizeof letter, 2, 2);
}

/* 22 before 6, and before the tag is looked at, 7. */
static void order(void) {
    static const uint8_t bad[10] = {10, 0, 0, 0, 0x0A, 0xFF, 0xFF, 0xFF, 0, 0}, tag[9] = {9, 0, 0, 0, 0x14, 'a', 'b', 0, 0};
    refused_under(bad, sizeof bad, 2, FRINGEWELL_TOO_LONG);
    for (size_t i = 0; i < WIDE; i++) {
        refused_under(bad, sizeof bad, wide[i], FRINGEWELL_NOT_UTF8);
        refused_under(tag, sizeof tag, wide[i], FRINGEWELL_UNKNOWN_TAG);
    }
    refused_under(tag, sizeof tag, 1, FRINGEWELL_TOO_LONG);
    refused_under(tag, sizeof tag, 2, FRINGEWELL_UNKNOWN_TAG);
}

/* Each by itself, the pattern first: what is too long, then what is not UTF-8. */
static void patterns(void) {
    static const uint8_t both[15] = {15, 0, 0, 0, 0x0B, 'k', 0, 'a', 'b', 0, 'i', 'm', 'x', 0, 0};
    static const uint8_t bad_pattern[15] = {15, 0, 0, 0, 0x0B, 'k', 0, 0xFF, 0xFF, 0, 'i', 'm', 'x', 0, 0};
    static const uint8_t bad_options[13] = {13, 0, 0, 0, 0x0B, 'k', 0, 'a', 0, 0xFF, 0xFF, 0, 0};
    for (size_t i = 0; i < WIDE; i++) {
        passes(both, sizeof both, 1, wide[i]);
        refused_under(bad_pattern, sizeof bad_pattern, wide[i], FRINGEWELL_NOT_UTF8);
        refused_under(bad_options, sizeof bad_options, wide[i], FRINGEWELL_NOT_UTF8);
    }
    refused_under(both, sizeof both, 2, FRINGEWELL_TOO_LONG); /* the options */
    refused_under(both, sizeof both, 1, FRINGEWELL_TOO_LONG); /* the pattern */
    refused_under(both, sizeof both, 0, FRINGEWELL_TOO_LONG); /* the key */
    refused_under(bad_pattern, sizeof bad_pattern, 2, FRINGEWELL_NOT_UTF8); /* before the options, which are too long */
    refused_under(bad_pattern, sizeof bad_pattern, 1, FRINGEWELL_TOO_LONG);
    refused_under(bad_options, sizeof bad_options, 2, FRINGEWELL_NOT_UTF8);
    refused_under(bad_options, sizeof bad_options, 1, FRINGEWELL_TOO_LONG);
    passes(BYTES(9, 0, 0, 0, 0x0B, 0, 0, 0, 0), 0, 0); /* all three are empty */
}

/* No zero before the slice ends, however short the text and however large the limit: 22, and 5 only where there is no limit. P10 has no
 * options; in the other the key's zero is the terminator, and there is no pattern. */
static void no_zero(void) {
    static const uint8_t p10[7] = {7, 0, 0, 0, 0x0B, 0, 0}, no_pattern[6] = {6, 0, 0, 0, 0x0B, 0};
    EXPECT_VERDICT(fringewell_check(p10, sizeof p10), FRINGEWELL_NO_ZERO, 4, 0);
    EXPECT_VERDICT(fringewell_check(no_pattern, sizeof no_pattern), FRINGEWELL_NO_ZERO, 4, 0);
    refused_under(p10, sizeof p10, 0, FRINGEWELL_TOO_LONG);
    refused_under(no_pattern, sizeof no_pattern, 0, FRINGEWELL_TOO_LONG);
    for (size_t i = 0; i < WIDE; i++) {
        refused_under(p10, sizeof p10, wide[i], FRINGEWELL_TOO_LONG);
        refused_under(no_pattern, sizeof no_pattern, wide[i], FRINGEWELL_TOO_LONG);
    }
}

#define EVERY every_type, sizeof every_type

/* Keys have one byte there, the pattern at 98 two, the options one; other texts and parts, which are not limited, have up to 18. */
static void lookups(void) {
    EXPECT_VERDICT(fringewell_check_under(EVERY, 2), 0, 0, 24);
    EXPECT_VERDICT(fringewell_check_strict_under(EVERY, 2), 0, 0, 24);
    EXPECT_VERDICT(fringewell_check_under(EVERY, 1), FRINGEWELL_TOO_LONG, 98, 0);
    EXPECT_VALUE(fringewell_lookup_under(EVERY, TEXT("k"), 2), every_value[10]);
    EXPECT_NO_VALUE(fringewell_lookup_under(EVERY, TEXT("k"), 1), FRINGEWELL_TOO_LONG, 98);
    EXPECT_NO_VALUE(fringewell_lookup_under(EVERY, TEXT("u"), 1), FRINGEWELL_TOO_LONG, 98); /* before the match */
    EXPECT_VALUE(fringewell_lookup_under(EVERY, TEXT("j"), 1), every_value[9]); /* behind it, not seen */
    EXPECT_VALUE(fringewell_lookup_under(EVERY, TEXT("o"), 2), every_value[14]);
    EXPECT_VALUE(fringewell_lookup_typed_under(EVERY, TEXT("p"), FRINGEWELL_TAG_INT32, 2), every_value[15]);
    EXPECT_NO_VALUE(fringewell_lookup_typed_under(EVERY, TEXT("k"), FRINGEWELL_TAG_INT32, 2), FRINGEWELL_OTHER_TYPE, 98);
    EXPECT_NO_VALUE(fringewell_lookup_typed_under(EVERY, TEXT("k"), FRINGEWELL_TAG_INT32, 1), FRINGEWELL_TOO_LONG, 98);
    EXPECT_NO_VALUE(fringewell_lookup_typed_under(EVERY, TEXT("k"), FRINGEWELL_TAG_REGEX, 1), FRINGEWELL_TOO_LONG, 98);
    EXPECT_NO_VALUE(fringewell_lookup_typed_under(p12, sizeof p12, TEXT("a"), FRINGEWELL_TAG_INT32, 1), FRINGEWELL_OTHER_TYPE, 4);
    /* the key that is looked up may be longer */
    EXPECT_NO_VALUE(fringewell_lookup_under(p12, sizeof p12, TEXT("battery"), 1), FRINGEWELL_ABSENT, 12);
    EXPECT_NO_VALUE(fringewell_lookup_typed_under(p12, sizeof p12, TEXT("battery"), FRINGEWELL_TAG_BOOL, 1), FRINGEWELL_ABSENT, 12);
    EXPECT_NO_VALUE(fringewell_lookup_under(BYTES(5, 0, 0, 0, 0), TEXT("a"), 0), FRINGEWELL_ABSENT, 4);
    EXPECT_NO_VALUE(fringewell_lookup_under(NOTHING, NOTHING, 0), FRINGEWELL_TOO_SHORT, 0);
}

/* Admission, the mark, 4 and the terminator come before the key. A refusal sets the mark and keeps the offset. */
static void cursors(void) {
    fringewell_stepped refusal = fringewell_step_under(EVERY, 98, false, 1);
    EXPECT_NO_ELEMENT_UNDER(EVERY, 98, false, 1, FRINGEWELL_TOO_LONG, 98);
    EXPECT_NO_ELEMENT_UNDER(EVERY, refusal.next, refusal.ended, 1, 0, 0);
    EXPECT_EQUAL(fringewell_step_under(EVERY, 98, false, 2).next, 106);
    EXPECT_NO_ELEMENT_UNDER(EVERY, 220, false, 0, 0, 0);
    EXPECT_NO_ELEMENT_UNDER(EVERY, 4, true, 0, 0, 0);
    EXPECT_NO_ELEMENT_UNDER(EVERY, 3, false, 0, FRINGEWELL_STEP_OUTSIDE, 3);
    EXPECT_NO_ELEMENT_UNDER(EVERY, SIZE_MAX, false, SIZE_MAX, FRINGEWELL_STEP_OUTSIDE, SIZE_MAX);
    EXPECT_NO_ELEMENT_UNDER(NOTHING, 4, false, 0, FRINGEWELL_TOO_SHORT, 0);
    EXPECT_NO_VALUE(fringewell_read_under(EVERY, 98, 1), FRINGEWELL_TOO_LONG, 98);
    EXPECT_NO_VALUE(fringewell_read_under(EVERY, 220, 0), FRINGEWELL_ABSENT, 220);
    EXPECT_NO_VALUE(fringewell_read_under(EVERY, 221, 0), FRINGEWELL_STEP_OUTSIDE, 221);
    EXPECT_VALUE(fringewell_read_under(EVERY, 166, 1), every_value[15]); /* behind the pattern */
    EXPECT_VALUE(fringewell_read_under(EVERY, 98, 2), every_value[10]);
}

/* [ab: null] */
static const uint8_t array[16] = {16, 0, 0, 0, 0x04, 0, 9, 0, 0, 0, 0x0A, 'a', 'b', 0, 0, 0};

/* The same key in a document and in a scope too: the place is that of the slice given. Steps and readings do not go inside. */
static void inside(void) {
    static const uint8_t document[16] = {16, 0, 0, 0, 0x03, 0, 9, 0, 0, 0, 0x0A, 'a', 'b', 0, 0, 0};
    static const uint8_t scope[25] = {25, 0, 0, 0, 0x0F, 0, 18, 0, 0, 0, 1, 0, 0, 0, 0, 9, 0, 0, 0, 0x0A, 'a', 'b', 0, 0, 0};
    EXPECT_VERDICT(fringewell_check_under(document, sizeof document, 1), FRINGEWELL_TOO_LONG, 10, 0);
    EXPECT_VERDICT(fringewell_check_under(document, sizeof document, 2), 0, 0, 2);
    EXPECT_VERDICT(fringewell_check_under(array, sizeof array, 1), FRINGEWELL_TOO_LONG, 10, 0);
    EXPECT_VERDICT(fringewell_check_under(array, sizeof array, 2), 0, 0, 2);
    EXPECT_VERDICT(fringewell_check_under(scope, sizeof scope, 1), FRINGEWELL_TOO_LONG, 19, 0);
    EXPECT_VERDICT(fringewell_check_under(scope, sizeof scope, 2), 0, 0, 2);
    EXPECT_EQUAL(fringewell_step_under(document, sizeof document, 4, false, 0).next, 15);
    EXPECT_EQUAL(fringewell_read_under(scope, sizeof scope, 4, 0).size2, 9);
}

/* The step comes before the array's key, and this before the reading. */
static void strict(void) {
    static uint8_t eleven[64];
    static const uint8_t regex[19] = {19, 0, 0, 0, 0x04, 0, 12, 0, 0, 0, 0x0B, '/', 0, 'a', 'b', 0, 0, 0, 0};
    EXPECT_VERDICT(fringewell_check_strict_under(array, sizeof array, 1), FRINGEWELL_TOO_LONG, 10, 0);
    EXPECT_VERDICT(fringewell_check_strict_under(array, sizeof array, 2), FRINGEWELL_BAD_ARRAY_KEY, 10, 0);
    EXPECT_VERDICT(fringewell_check_strict_under(regex, sizeof regex, 1), FRINGEWELL_TOO_LONG, 10, 0);
    EXPECT_VERDICT(fringewell_check_strict_under(regex, sizeof regex, 2), FRINGEWELL_BAD_ARRAY_KEY, 10, 0);
    /* an empty key, and a boolean of 2 */
    EXPECT_VERDICT(fringewell_check_strict_under(BYTES(15, 0, 0, 0, 0x04, 0, 8, 0, 0, 0, 0x08, 0, 2, 0, 0), 0), FRINGEWELL_BAD_ARRAY_KEY,
                   10, 0);
    /* keys 0 to 10: the last, of two bytes, lies at 40, and 9 at 37 */
    EXPECT_EQUAL(nulls(eleven, 11, 11, NULL), 46);
    EXPECT_VERDICT(fringewell_check_strict_under(eleven, 46, 0), FRINGEWELL_TOO_LONG, 10, 0);
    EXPECT_VERDICT(fringewell_check_strict_under(eleven, 46, 1), FRINGEWELL_TOO_LONG, 40, 0);
    EXPECT_VERDICT(fringewell_check_strict_under(eleven, 46, 2), 0, 0, 12);
    EXPECT_EQUAL(nulls(eleven, 11, 9, "8"), 46);
    EXPECT_VERDICT(fringewell_check_strict_under(eleven, 46, 1), FRINGEWELL_BAD_ARRAY_KEY, 37, 0);
    EXPECT_EQUAL(nulls(eleven, 11, 9, "09"), 47);
    EXPECT_VERDICT(fringewell_check_strict_under(eleven, 47, 1), FRINGEWELL_TOO_LONG, 37, 0);
    EXPECT_VERDICT(fringewell_check_strict_under(eleven, 47, 2), FRINGEWELL_BAD_ARRAY_KEY, 37, 0);
}

/* A null `ab` in the innermost of documents under empty keys: in document 200 it has depth 200, in the next one it is too deep, which
 * comes after its step. Document i begins at 6 * i, and its first tag four bytes on. */
static void deepest(void) {
    static uint8_t deep[2048];
    size_t length = nest(deep, 200, BYTES(0x03, 0), BYTES(0x0A, 'a', 'b', 0));
    EXPECT_VERDICT(fringewell_check_under(deep, length, 1), FRINGEWELL_TOO_LONG, 1204, 0);
    EXPECT_VERDICT(fringewell_check_under(deep, length, 2), 0, 0, 201);
    length = nest(deep, 201, BYTES(0x03, 0), BYTES(0x0A, 'a', 'b', 0));
    EXPECT_VERDICT(fringewell_check_under(deep, length, 1), FRINGEWELL_TOO_LONG, 1210, 0);
    EXPECT_VERDICT(fringewell_check_under(deep, length, 2), FRINGEWELL_TOO_DEEP, 1210, 0);
}

/* Step, reading and lookup of an element answer under the limit as without one. */
static bool same(const uint8_t *document, size_t length, fringewell_stepped at, fringewell_value value, size_t limit) {
    const uint8_t *key = document + at.key_offset;
    fringewell_stepped stepped = fringewell_step_under(document, length, at.place, false, limit);
    fringewell_value there = fringewell_read_under(document, length, at.place, limit);
    fringewell_value found = fringewell_lookup_under(document, length, key, at.key_size, limit);
    return same_stepped(stepped, at) && same_value(there, value) && same_value(found, value) &&
           next_agrees_under(document, length, at.place, false, limit);
}

/* The place of the first element, at any level, with a key, pattern or options over the limit, found by the calls that have none; 0 where
 * there is none. Up to it every element is given under the limit too. */
static size_t first_over(const uint8_t *document, size_t length, size_t limit) {
    fringewell_stepped at = fringewell_step(document, length, 4, false);
    for (; !at.ended; at = fringewell_step(document, length, at.next, false)) {
        fringewell_value value = fringewell_read(document, length, at.place);
        bool regex = at.tag == FRINGEWELL_TAG_REGEX, scope = at.tag == FRINGEWELL_TAG_CODE_WITH_SCOPE;
        if (at.key_size > limit || (regex && (value.size > limit || value.size2 > limit))) {
            EXPECT_NO_ELEMENT_UNDER(document, length, at.place, false, limit, FRINGEWELL_TOO_LONG, at.place);
            return at.place;
        }
        EXPECT(same(document, length, at, value, limit));
        if (scope || at.tag == FRINGEWELL_TAG_DOCUMENT || at.tag == FRINGEWELL_TAG_ARRAY) {
            size_t offset = scope ? value.offset2 : value.offset, size = scope ? value.size2 : value.size;
            size_t over = first_over(document + offset, size, limit);
            if (over > 0) {
                return offset + over;
            }
        }
    }
    return 0;
}

/* The beacon of 80 values passes exactly where nothing in it is longer. Its longest key has 13 bytes, first `solar_current` at 255, and the
 * pattern at 995 has 14. */
static void beacon(void) {
    static uint8_t frame[1255];
    EXPECT_EQUAL(load("beacon", WHOLE(frame)), sizeof frame);
    EXPECT_EQUAL(first_over(frame, sizeof frame, 12), 255);
    EXPECT_EQUAL(first_over(frame, sizeof frame, 13), 995);
    EXPECT_EQUAL(first_over(frame, sizeof frame, 14), 0);
    for (size_t limit = 0; limit <= 40; limit++) {
        size_t over = first_over(frame, sizeof frame, limit);
        uint32_t number = over > 0 ? FRINGEWELL_TOO_LONG : FRINGEWELL_OK;
        EXPECT_VERDICT(fringewell_check_under(frame, sizeof frame, limit), number, over, over > 0 ? 0 : 80);
        EXPECT_VERDICT(fringewell_check_strict_under(frame, sizeof frame, limit), number, over, over > 0 ? 0 : 80);
    }
}

int main(void) {
    keys();
    order();
    patterns();
    no_zero();
    lookups();
    cursors();
    inside();
    strict();
    deepest();
    beacon();
    return held();
}
