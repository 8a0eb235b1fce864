/* Lookup and typed lookup (RULES.md, "Values"). */
#include "samples.h"
#include "test.h"

/* {ab: null, a: true, x: a boolean of 2, b: null} */
static const uint8_t marked[20] = {20, 0, 0, 0, 0x0A, 'a', 'b', 0, 0x08, 'a', 0, 1, 0x08, 'x', 0, 2, 0x0A, 'b', 0, 0};

/* The int32 of `unframed`, and the first boolean of `p12`, which is false. */
static const fringewell_value battery = {.tag = FRINGEWELL_TAG_INT32, .place = 4, .framed_offset = 13, .framed_size = 4, .bits = 87};
static const fringewell_value first_of_two = {.tag = FRINGEWELL_TAG_BOOL, .place = 4, .framed_offset = 7, .framed_size = 1};

/* Each element of `every_type` by its key, and by its key and its tag; the key may be a part of the document, lent twice. */
static void every_key(void) {
    for (size_t i = 0; i < 21; i++) {
        const char key[1] = {(char)('a' + i)};
        EXPECT_VALUE(fringewell_lookup(WHOLE(every_type), key, 1), every_value[i]);
        EXPECT_VALUE(fringewell_lookup(WHOLE(every_type), every_type + every_value[i].place + 1, 1), every_value[i]);
        EXPECT_VALUE(fringewell_lookup_typed(WHOLE(every_type), key, 1, every_value[i].tag), every_value[i]);
        EXPECT_NO_VALUE(fringewell_lookup_typed(WHOLE(every_type), key, 1, 0x14), FRINGEWELL_OTHER_TYPE, every_value[i].place);
    }
}

static void present(void) {
    EXPECT_VALUE(fringewell_lookup(WHOLE(p12), TEXT("a")), first_of_two);
    /* ab is another key */
    EXPECT_VALUE(fringewell_lookup(WHOLE(marked), TEXT("a")),
                 VALUE(.tag = FRINGEWELL_TAG_BOOL, .place = 8, .framed_offset = 11, .framed_size = 1, .bits = 1));
    /* the empty key, and one of two bytes */
    EXPECT_VALUE(fringewell_lookup(BYTES(10, 0, 0, 0, 0x10, 0, 7, 0, 0, 0), NOTHING),
                 VALUE(.tag = FRINGEWELL_TAG_INT32, .place = 4, .framed_offset = 6, .framed_size = 4, .bits = 7));
    EXPECT_VALUE(fringewell_lookup(BYTES(9, 0, 0, 0, 0x0A, 0xC3, 0xA9, 0, 0), TEXT("\xC3\xA9")),
                 VALUE(.tag = FRINGEWELL_TAG_NULL, .place = 4, .framed_offset = 8));
}

/* 16 at the terminator; a key with a zero byte or not UTF-8 equals no key. */
static void absent(void) {
    EXPECT_NO_VALUE(fringewell_lookup(WHOLE(p12), TEXT("b")), FRINGEWELL_ABSENT, 12);
    EXPECT_NO_VALUE(fringewell_lookup(WHOLE(p12), TEXT("aa")), FRINGEWELL_ABSENT, 12);
    EXPECT_NO_VALUE(fringewell_lookup(WHOLE(p12), NOTHING), FRINGEWELL_ABSENT, 12);
    EXPECT_NO_VALUE(fringewell_lookup(WHOLE(p12), TEXT("a\0")), FRINGEWELL_ABSENT, 12);
    EXPECT_NO_VALUE(fringewell_lookup(WHOLE(p12), TEXT("\xFF")), FRINGEWELL_ABSENT, 12);
    EXPECT_NO_VALUE(fringewell_lookup(WHOLE(every_type), TEXT("x")), FRINGEWELL_ABSENT, 220); /* x lies inside c */
    EXPECT_NO_VALUE(fringewell_lookup(BYTES(5, 0, 0, 0, 0), TEXT("a")), FRINGEWELL_ABSENT, 4);
}

/* Damage before the match or in it is returned, damage behind it is not seen. */
static void damaged(void) {
    EXPECT_NO_VALUE(fringewell_lookup(NOTHING, NOTHING), FRINGEWELL_TOO_SHORT, 0);
    EXPECT_NO_VALUE(fringewell_lookup(BYTES(6, 0, 0, 0, 0), TEXT("a")), FRINGEWELL_LENGTH_DIFFERS, 0);
    EXPECT_NO_VALUE(fringewell_lookup(BYTES(5, 0, 0, 0, 1), TEXT("a")), FRINGEWELL_NO_TERMINATOR, 0);
    EXPECT_VALUE(fringewell_lookup(WHOLE(unframed), TEXT("battery")), battery);
    EXPECT_NO_VALUE(fringewell_lookup(WHOLE(unframed), TEXT("y")), FRINGEWELL_UNKNOWN_TAG, 17);
    EXPECT_NO_VALUE(fringewell_lookup(WHOLE(unframed), TEXT("\xFF")), FRINGEWELL_UNKNOWN_TAG, 17);
    EXPECT_NO_VALUE(fringewell_lookup(WHOLE(marked), TEXT("x")), FRINGEWELL_BAD_BOOLEAN, 12);
    EXPECT_NO_VALUE(fringewell_lookup(BYTES(10, 0, 0, 0, 0x10, 0, 7, 0, 0, 0), TEXT("a")), FRINGEWELL_STEP_OUTSIDE, 10);
    /* x is framed, and not read */
    EXPECT_VALUE(fringewell_lookup(WHOLE(marked), TEXT("b")), VALUE(.tag = FRINGEWELL_TAG_NULL, .place = 16, .framed_offset = 19));
}

/* 16, then the value's refusal, then 17 at the element. */
static void typed(void) {
    EXPECT_VALUE(fringewell_lookup_typed(WHOLE(p12), TEXT("a"), FRINGEWELL_TAG_BOOL), first_of_two);
    EXPECT_NO_VALUE(fringewell_lookup_typed(WHOLE(p12), TEXT("a"), FRINGEWELL_TAG_INT32), FRINGEWELL_OTHER_TYPE, 4);
    EXPECT_NO_VALUE(fringewell_lookup_typed(WHOLE(marked), TEXT("a"), FRINGEWELL_TAG_NULL), FRINGEWELL_OTHER_TYPE, 8);
    EXPECT_NO_VALUE(fringewell_lookup_typed(WHOLE(p12), TEXT("a"), 0x14), FRINGEWELL_OTHER_TYPE, 4);
    EXPECT_NO_VALUE(fringewell_lookup_typed(WHOLE(p12), TEXT("b"), FRINGEWELL_TAG_BOOL), FRINGEWELL_ABSENT, 12);
    EXPECT_NO_VALUE(fringewell_lookup_typed(WHOLE(p12), TEXT("a\0"), FRINGEWELL_TAG_BOOL), FRINGEWELL_ABSENT, 12);
    EXPECT_NO_VALUE(fringewell_lookup_typed(WHOLE(marked), TEXT("x"), FRINGEWELL_TAG_INT32), FRINGEWELL_BAD_BOOLEAN, 12);
    EXPECT_NO_VALUE(fringewell_lookup_typed(WHOLE(unframed), TEXT("y"), FRINGEWELL_TAG_INT32), FRINGEWELL_UNKNOWN_TAG, 17);
    EXPECT_VALUE(fringewell_lookup_typed(WHOLE(unframed), TEXT("battery"), FRINGEWELL_TAG_INT32), battery);
    EXPECT_NO_VALUE(fringewell_lookup_typed(NOTHING, NOTHING, FRINGEWELL_TAG_BOOL), FRINGEWELL_TOO_SHORT, 0);
}

int main(void) {
    every_key();
    present();
    absent();
    damaged();
    typed();
    return held();
}
