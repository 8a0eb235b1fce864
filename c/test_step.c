/* Steps, and reading at the places that they give (RULES.md, "Admission and one step" and "Values"). */
#include "agree.h"
#include "samples.h"

/* From 4 to the end, each step from where the last one ended. */
static void every_element(void) {
    size_t next = 4;
    bool ended = false;
    for (unsigned i = 0; i < 21; i++) {
        fringewell_value value = every_value[i];
        fringewell_stepped stepped = fringewell_step(WHOLE(every_type), next, ended);
        EXPECT_STEPPED(stepped, STEPPED(.tag = value.tag, .place = value.place, .next = value.framed_offset + value.framed_size,
                                        .key_offset = value.place + 1, .key_size = 1, .framed_offset = value.framed_offset,
                                        .framed_size = value.framed_size));
        EXPECT_EQUAL(every_type[stepped.key_offset], 'a' + i);
        next = stepped.next;
        ended = stepped.ended;
    }
    EXPECT_NO_ELEMENT(WHOLE(every_type), next, ended, 0, 0);
    EXPECT_EQUAL(next, 220);
}

static void each_value(void) {
    for (int i = 0; i < 21; i++) {
        EXPECT_VALUE(fringewell_read(WHOLE(every_type), every_value[i].place), every_value[i]);
    }
    EXPECT(fringewell_bits_double(fringewell_read(WHOLE(every_type), 4).bits) == -2.5);
    EXPECT_EQUAL(fringewell_double_bits(-2.5), 0xC004000000000000);
    EXPECT((int64_t)fringewell_read(WHOLE(every_type), 84).bits == -1000);
    EXPECT((int32_t)fringewell_read(WHOLE(every_type), 166).bits == -7);
}

/* The largest int32 is not sign-extended to a negative; false is 0; subtype 2 gives what lies behind its inner length; and where there
 * are no data, they are behind the subtype. */
static void other_values(void) {
    const fringewell_value int32 = VALUE(.tag = FRINGEWELL_TAG_INT32, .place = 4, .framed_offset = 6, .framed_size = 4);
    fringewell_value largest = int32, least = int32;
    largest.bits = 0x7FFFFFFF;
    least.bits = 0xFFFFFFFF80000000;
    EXPECT_VALUE(fringewell_read(BYTES(11, 0, 0, 0, 0x10, 0, 0xFF, 0xFF, 0xFF, 0x7F, 0), 4), largest);
    EXPECT_VALUE(fringewell_read(BYTES(11, 0, 0, 0, 0x10, 0, 0, 0, 0, 0x80, 0), 4), least);
    EXPECT_VALUE(fringewell_read(WHOLE(p12), 4), VALUE(.tag = FRINGEWELL_TAG_BOOL, .place = 4, .framed_offset = 7, .framed_size = 1));
    EXPECT_VALUE(
        fringewell_read(BYTES(17, 0, 0, 0, 0x05, 0, 5, 0, 0, 0, 2, 1, 0, 0, 0, 0xAA, 0), 4),
        VALUE(.tag = FRINGEWELL_TAG_BINARY, .place = 4, .framed_offset = 6, .framed_size = 10, .bits = 2, .offset = 15, .size = 1));
    EXPECT_VALUE(fringewell_read(BYTES(12, 0, 0, 0, 0x05, 0, 0, 0, 0, 0, 7, 0), 4),
                 VALUE(.tag = FRINGEWELL_TAG_BINARY, .place = 4, .framed_offset = 6, .framed_size = 5, .bits = 7, .offset = 11));
}

/* No step leads to a value: reading is refused as the step is, and by 16 at the end. */
static void unread(void) {
    EXPECT_NO_VALUE(fringewell_read(NOTHING, 4), FRINGEWELL_TOO_SHORT, 0);
    EXPECT_NO_VALUE(fringewell_read(BYTES(6, 0, 0, 0, 0), 4), FRINGEWELL_LENGTH_DIFFERS, 0);
    EXPECT_NO_VALUE(fringewell_read(BYTES(5, 0, 0, 0, 1), 4), FRINGEWELL_NO_TERMINATOR, 0);
    EXPECT_NO_VALUE(fringewell_read(BYTES(5, 0, 0, 0, 0), 4), FRINGEWELL_ABSENT, 4);
    EXPECT_NO_VALUE(fringewell_read(WHOLE(p12), 3), FRINGEWELL_STEP_OUTSIDE, 3);
    EXPECT_NO_VALUE(fringewell_read(WHOLE(p12), 13), FRINGEWELL_STEP_OUTSIDE, 13);
    EXPECT_NO_VALUE(fringewell_read(WHOLE(p12), SIZE_MAX), FRINGEWELL_STEP_OUTSIDE, SIZE_MAX);
    EXPECT_NO_VALUE(fringewell_read(WHOLE(unframed), 17), FRINGEWELL_UNKNOWN_TAG, 17);
}

/* P5 yields its int32 and then begins past the terminator; P6 is framed and ends cleanly; P11 yields its null first. */
static void last_values(void) {
    static const uint8_t p5[10] = {10, 0, 0, 0, 0x10, 0, 7, 0, 0, 0}, p6[10] = {10, 0, 0, 0, 0x0F, 0, 3, 0, 0, 0};
    static const uint8_t p11[6] = {6, 0, 0, 0, 0x0A, 0};
    EXPECT_STEPPED(fringewell_step(WHOLE(p5), 4, false),
                   STEPPED(.tag = FRINGEWELL_TAG_INT32, .place = 4, .next = 10, .key_offset = 5, .framed_offset = 6, .framed_size = 4));
    EXPECT_EQUAL(fringewell_read(WHOLE(p5), 4).bits, 7);
    EXPECT_NO_ELEMENT(WHOLE(p5), 10, false, FRINGEWELL_STEP_OUTSIDE, 10);
    EXPECT_STEPPED(fringewell_step(WHOLE(p6), 4, false), STEPPED(.tag = FRINGEWELL_TAG_CODE_WITH_SCOPE, .place = 4, .next = 9,
                                                                 .key_offset = 5, .framed_offset = 6, .framed_size = 3));
    EXPECT_NO_VALUE(fringewell_read(WHOLE(p6), 4), FRINGEWELL_BAD_SHAPE, 4);
    EXPECT_NO_ELEMENT(WHOLE(p6), 9, false, 0, 0);
    EXPECT_EQUAL(fringewell_step(WHOLE(p11), 4, false).next, 6);
    EXPECT_NO_ELEMENT(WHOLE(p11), 6, false, FRINGEWELL_STEP_OUTSIDE, 6);
}

/* Steps from 4 to the end or a refusal, under a limit unless that is NULL. Each element begins where the one before it ended, and its tag,
 * key, zero and value lie one behind the other; at the end their sizes add up to the document's less 5; at a refusal they reach its place,
 * and the number is 4 exactly where that is past the terminator. The check is refused at one of the elements, in it or where it ends, or as
 * the step is. Gives how many elements there were. */
static unsigned one_behind_the_other(const uint8_t *document, size_t length, const size_t *limit) {
    fringewell_verdict verdict = limit == NULL ? fringewell_check(document, length) : fringewell_check_under(document, length, *limit);
    bool met = verdict.number == 0;
    size_t told = 0;
    for (unsigned n = 0;; n++) {
        fringewell_stepped stepped = limit == NULL ? fringewell_step(document, length, 4 + told, false)
                                                   : fringewell_step_under(document, length, 4 + told, false, *limit);
        EXPECT(limit == NULL ? next_agrees(document, length, 4 + told, false)
                             : next_agrees_under(document, length, 4 + told, false, *limit));
        if (stepped.number != 0) {
            EXPECT_EQUAL(stepped.place, 4 + told);
            EXPECT_EQUAL(stepped.number == FRINGEWELL_STEP_OUTSIDE, 4 + told >= length);
            EXPECT(verdict.number != 0 && (met || (verdict.number == stepped.number && verdict.place == stepped.place)));
            return n;
        }
        if (stepped.ended) {
            EXPECT_EQUAL(told, length - 5);
            EXPECT(met);
            return n;
        }
        EXPECT_EQUAL(stepped.place, 4 + told);
        EXPECT_EQUAL(stepped.key_offset, stepped.place + 1);
        EXPECT_EQUAL(stepped.framed_offset, stepped.key_offset + stepped.key_size + 1);
        told += 1 + stepped.key_size + 1 + stepped.framed_size;
        EXPECT_EQUAL(stepped.next, 4 + told);
        met = met || (stepped.place <= verdict.place && verdict.place <= stepped.next);
    }
}

/* The first n bytes of the frame, with a length and a zero of their own. An element that is cut is told where this zero can be its last
 * byte: one byte short; an empty value under an empty key; the regex without its options. Under 0 the first key is too long, under 1 the
 * pattern of the eleventh element. */
static void cut_at_each_byte(void) {
    static const size_t limits[] = {0, 1, 2};
    for (size_t n = 4; n < sizeof every_type; n++) {
        uint8_t cut[sizeof every_type] = {(uint8_t)(n + 1)};
        memcpy(cut + 4, every_type + 4, n - 4);
        unsigned told = 0;
        while (told < 21 && every_value[told].framed_offset + every_value[told].framed_size <= n) {
            told++;
        }
        if (told < 21) {
            fringewell_value half = every_value[told];
            bool last_byte = n + 1 == half.framed_offset + half.framed_size, no_bytes = half.framed_size == 0 && n == half.place + 1;
            told += last_byte || no_bytes || n == 104;
        }
        EXPECT_EQUAL(one_behind_the_other(cut, n + 1, NULL), told);
        EXPECT_EQUAL(one_behind_the_other(cut, n + 1, &limits[0]), 0);
        EXPECT_EQUAL(one_behind_the_other(cut, n + 1, &limits[1]), told < 10 ? told : 10);
        EXPECT_EQUAL(one_behind_the_other(cut, n + 1, &limits[2]), told);
    }
}

/* A code with scope of length 0 to 3 has only those few value bytes: the next step begins on its own length field, where 0 is no tag. */
static void short_scopes(void) {
    for (uint8_t n = 0; n < 4; n++) {
        const uint8_t document[11] = {11, 0, 0, 0, 0x0F, 0, n, 0, 0, 0, 0};
        const size_t next = 6 + (size_t)n;
        EXPECT_STEPPED(fringewell_step(WHOLE(document), 4, false),
                       STEPPED(.tag = FRINGEWELL_TAG_CODE_WITH_SCOPE, .place = 4, .next = next, .key_offset = 5, .framed_offset = 6,
                               .framed_size = n));
        EXPECT_NO_ELEMENT(WHOLE(document), next, false, FRINGEWELL_UNKNOWN_TAG, next);
        EXPECT_EQUAL(one_behind_the_other(WHOLE(document), NULL), 1);
    }
}

/* P5 inside another document, whose own steps come to its terminator: the check is refused there, where the element ends. */
static void swallowed_inside(void) {
    static const uint8_t outer[17] = {17, 0, 0, 0, 0x03, 0, 10, 0, 0, 0, 0x10, 0, 7, 0, 0, 0, 0};
    EXPECT_VERDICT(fringewell_check(outer, sizeof outer), FRINGEWELL_STEP_OUTSIDE, 16, 0);
    EXPECT_EQUAL(one_behind_the_other(WHOLE(outer), NULL), 1);
    EXPECT_NO_ELEMENT(WHOLE(outer), 16, false, 0, 0);
}

/* Any cursor gets an answer: admission first, then the mark, then 4, and nothing wraps. */
static void cursors(void) {
    static const size_t outside[] = {0, 3, 13, 14, INT32_MAX, UINT32_MAX, (size_t)UINT32_MAX + 5, PTRDIFF_MAX, SIZE_MAX - 3, SIZE_MAX};
    for (size_t i = 0; i < sizeof outside / sizeof *outside; i++) {
        EXPECT_NO_ELEMENT(WHOLE(p12), outside[i], false, FRINGEWELL_STEP_OUTSIDE, outside[i]);
        EXPECT_NO_ELEMENT(WHOLE(p12), outside[i], true, 0, 0);
        EXPECT_NO_ELEMENT(NOTHING, outside[i], true, FRINGEWELL_TOO_SHORT, 0);
    }
    EXPECT_NO_ELEMENT(WHOLE(p12), 12, false, 0, 0);
    EXPECT_NO_ELEMENT(WHOLE(p12), 4, true, 0, 0);
    EXPECT_NO_ELEMENT(BYTES(5, 0, 0, 0, 1), 4, false, FRINGEWELL_NO_TERMINATOR, 0);
    EXPECT_NO_ELEMENT(WHOLE(unframed), 17, false, FRINGEWELL_UNKNOWN_TAG, 17);
    /* from inside an element: at 5 the tag would be `b`, 62, which is none */
    EXPECT_NO_ELEMENT(WHOLE(unframed), 5, false, FRINGEWELL_UNKNOWN_TAG, 5);
}

/* Each refusal of a step, from 4 (RULES.md, "Bytes to try"); 4 itself is met above. */
static void unframed_elements(void) {
    EXPECT_NO_ELEMENT(BYTES(5, 0, 0, 0), 4, false, FRINGEWELL_TOO_SHORT, 0);
    EXPECT_NO_ELEMENT(BYTES(6, 0, 0, 0, 0), 4, false, FRINGEWELL_LENGTH_DIFFERS, 0);
    EXPECT_NO_ELEMENT(BYTES(7, 0, 0, 0, 0x0B, 0, 0), 4, false, FRINGEWELL_NO_ZERO, 4);
    EXPECT_NO_ELEMENT(BYTES(8, 0, 0, 0, 0x14, 0xFF, 0, 0), 4, false, FRINGEWELL_NOT_UTF8, 4);
    EXPECT_NO_ELEMENT(BYTES(7, 0, 0, 0, 0x14, 0, 0), 4, false, FRINGEWELL_UNKNOWN_TAG, 4);
    EXPECT_NO_ELEMENT(BYTES(11, 0, 0, 0, 0x02, 0, 0, 0, 0, 0, 0), 4, false, FRINGEWELL_BAD_LENGTH, 4);
    EXPECT_NO_ELEMENT(BYTES(10, 0, 0, 0, 0x12, 0, 7, 0, 0, 0), 4, false, FRINGEWELL_PAST_THE_SLICE, 4);
    EXPECT_NO_ELEMENT(BYTES(12, 0, 0, 0, 0x02, 0, 1, 0, 0, 0, 'a', 0), 4, false, FRINGEWELL_NOT_ENDED, 4);
}

int main(void) {
    every_element();
    each_value();
    other_values();
    unread();
    last_values();
    cut_at_each_byte();
    short_scopes();
    swallowed_inside();
    cursors();
    unframed_elements();
    return held();
}
