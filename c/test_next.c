/* Iteration with values: a step and the reading of what it yields, in one call (RULES.md, "Admission and one step" and "Values"). */
#include "agree.h"
#include "samples.h"

/* The element of `every_type` with this number: its key, its value, and the cursor behind it. */
static fringewell_element element(unsigned i) {
    return ELEMENT(.value = every_value[i], .key_offset = every_value[i].place + 1, .key_size = 1,
                   .next = every_value[i].framed_offset + every_value[i].framed_size);
}

/* From the start to the end. Behind it no more comes. */
static void every_element(void) {
    fringewell_element at = fringewell_next(WHOLE(every_type), FRINGEWELL_START, false);
    for (unsigned i = 0; i < 21; i++) {
        EXPECT_ELEMENT(at, element(i));
        EXPECT_EQUAL(every_type[at.key_offset], 'a' + i);
        at = fringewell_next(WHOLE(every_type), at.next, at.ended);
    }
    EXPECT_ELEMENT(at, ELEMENT(.next = 220, .ended = true));
    EXPECT_ELEMENT(fringewell_next(WHOLE(every_type), at.next, at.ended), ELEMENT(.next = 220, .ended = true));
}

/* The pattern at 98 has two bytes, the keys one: under 2 all is as without a limit, under 1 nothing from there on, under 0 nothing. */
static void under_a_limit(void) {
    static const size_t wide[] = {2, 3, UINT32_MAX, SIZE_MAX};
    for (size_t i = 0; i < sizeof wide / sizeof *wide; i++) {
        for (unsigned e = 0; e < 21; e++) {
            EXPECT_ELEMENT(fringewell_next_under(WHOLE(every_type), every_value[e].place, false, wide[i]), element(e));
        }
        EXPECT_NO_ELEMENT_UNDER(WHOLE(every_type), 220, false, wide[i], 0, 0);
    }
    EXPECT_ELEMENT(fringewell_next_under(WHOLE(every_type), 95, false, 1), element(9));
    fringewell_element refusal = fringewell_next_under(WHOLE(every_type), 98, false, 1);
    EXPECT_ELEMENT(refusal, ELEMENT(.value = {.number = FRINGEWELL_TOO_LONG, .place = 98}, .next = 98, .ended = true));
    EXPECT_NO_ELEMENT_UNDER(WHOLE(every_type), refusal.next, refusal.ended, 1, 0, 0);
    EXPECT_ELEMENT(fringewell_next_under(WHOLE(every_type), 106, false, 1), element(11));
    EXPECT_NO_ELEMENT_UNDER(WHOLE(every_type), 4, false, 0, FRINGEWELL_TOO_LONG, 4);
}

/* A document of an element under a key of one letter, and a null `z` behind it. The element is framed, but its value is refused: tag,
 * framed bytes and key are given all the same, and the iteration goes on to the null and to its end. A lookup goes past it too. */
static void goes_on(const uint8_t *bytes, size_t size, uint32_t number) {
    static const uint8_t null_z[4] = {0x0A, 'z', 0, 0};
    uint8_t document[64];
    size_t behind = 4 + size, end = behind + 3, length = end + 1;
    put32(document, length);
    put(document, put(document, 4, bytes, size), WHOLE(null_z));
    const fringewell_element refused =
        ELEMENT(.value = {.number = number, .tag = bytes[0], .place = 4, .framed_offset = 7, .framed_size = size - 3}, .key_offset = 5,
                .key_size = 1, .next = behind);
    const fringewell_element last = ELEMENT(.value = {.tag = FRINGEWELL_TAG_NULL, .place = behind, .framed_offset = end},
                                            .key_offset = behind + 1, .key_size = 1, .next = end);
    EXPECT_ELEMENT(fringewell_next(document, length, 4, false), refused);
    EXPECT_ELEMENT(fringewell_next_under(document, length, 4, false, 1), refused);
    EXPECT_ELEMENT(fringewell_next(document, length, refused.next, refused.ended), last);
    EXPECT_ELEMENT(fringewell_next_under(document, length, refused.next, refused.ended, 1), last);
    EXPECT_NO_ELEMENT(document, length, last.next, last.ended, 0, 0);
    EXPECT_NO_VALUE(fringewell_read(document, length, 4), number, 4);
    EXPECT_NO_VALUE(fringewell_read_under(document, length, 4, 1), number, 4);
    EXPECT_NO_VALUE(fringewell_lookup(document, length, bytes + 1, 1), number, 4);
    EXPECT_VALUE(fringewell_lookup(document, length, TEXT("z")), last.value);
    EXPECT_VERDICT(fringewell_check(document, length), number, 4, 0);
    EXPECT(next_agrees(document, length, 4, false) && next_agrees_under(document, length, 4, false, 1));
}

static void refused_values(void) {
    static const uint8_t letters[] = {FRINGEWELL_TAG_STRING, FRINGEWELL_TAG_CODE, FRINGEWELL_TAG_SYMBOL};
    for (size_t i = 0; i < sizeof letters; i++) {
        goes_on(BYTES(letters[i], 'k', 0, 2, 0, 0, 0, 0xFF, 0), FRINGEWELL_NOT_UTF8);
    }
    goes_on(BYTES(0x0C, 'k', 0, 2, 0, 0, 0, 0xFF, 0, 1, 2, 3, 4, 5, 6, 7, 8, 9, 10, 11, 12), FRINGEWELL_NOT_UTF8);
    goes_on(BYTES(0x08, 'k', 0, 2), FRINGEWELL_BAD_BOOLEAN);
    goes_on(BYTES(0x08, 'k', 0, 0xFF), FRINGEWELL_BAD_BOOLEAN);
    /* data of subtype 2: an inner length 2 with 1 byte behind it, one of 0 with 1 byte, and under four bytes */
    goes_on(BYTES(0x05, 'k', 0, 5, 0, 0, 0, 2, 2, 0, 0, 0, 0xAA), FRINGEWELL_BAD_SHAPE);
    goes_on(BYTES(0x05, 'k', 0, 5, 0, 0, 0, 2, 0, 0, 0, 0, 0xAA), FRINGEWELL_BAD_SHAPE);
    goes_on(BYTES(0x05, 'k', 0, 3, 0, 0, 0, 2, 0, 0, 0), FRINGEWELL_BAD_SHAPE);
}

/* A code with scope of n bytes: its length, and then its code and its scope. */
#define SCOPE(n, ...) BYTES(0x0F, 'k', 0, n, 0, 0, 0, __VA_ARGS__)

/* All of its refusals, in their order. */
static void scopes(void) {
    goes_on(SCOPE(5, 0), FRINGEWELL_BAD_SHAPE);
    goes_on(SCOPE(13, 1, 0, 0, 0, 0, 4, 0, 0, 0), FRINGEWELL_BAD_SHAPE);
    goes_on(SCOPE(14, 0, 0, 0, 0, 0, 5, 0, 0, 0, 0), FRINGEWELL_BAD_LENGTH);
    goes_on(SCOPE(14, 7, 0, 0, 0, 0, 5, 0, 0, 0, 0), FRINGEWELL_PAST_THE_SLICE);
    goes_on(SCOPE(14, 1, 0, 0, 0, 1, 5, 0, 0, 0, 0), FRINGEWELL_NOT_ENDED);
    goes_on(SCOPE(15, 2, 0, 0, 0, 0xFF, 0, 5, 0, 0, 0, 0), FRINGEWELL_NOT_UTF8);
    goes_on(SCOPE(15, 2, 0, 0, 0, 0xFF, 0, 0, 0, 0, 0, 0), FRINGEWELL_NOT_UTF8); /* before the scope, whose length is 0 */
    goes_on(SCOPE(14, 6, 0, 0, 0, 1, 5, 0, 0, 0, 0), FRINGEWELL_BAD_SHAPE);      /* no byte is left for a scope */
    goes_on(SCOPE(14, 2, 0, 0, 0, 1, 0, 5, 0, 0, 0), FRINGEWELL_TOO_SHORT);
    goes_on(SCOPE(14, 1, 0, 0, 0, 0, 6, 0, 0, 0, 0), FRINGEWELL_LENGTH_DIFFERS);
    goes_on(SCOPE(14, 1, 0, 0, 0, 0, 5, 0, 0, 0, 1), FRINGEWELL_NO_TERMINATOR);
}

/* P6: a code with scope of three bytes is framed, so that the iteration ends cleanly behind it. */
static void last_value(void) {
    static const uint8_t p6[10] = {10, 0, 0, 0, 0x0F, 0, 3, 0, 0, 0};
    EXPECT_ELEMENT(fringewell_next(WHOLE(p6), 4, false),
                   ELEMENT(.value = {.number = FRINGEWELL_BAD_SHAPE, .tag = 0x0F, .place = 4, .framed_offset = 6, .framed_size = 3},
                           .key_offset = 5, .next = 9));
    EXPECT_NO_ELEMENT(WHOLE(p6), 9, false, 0, 0);
}

/* At a cursor, whatever its mark, without a limit and under some, of which the least are too low for some keys. */
static bool agrees_at(const uint8_t *document, size_t length, size_t offset) {
    static const size_t limits[] = {0, 1, 4, SIZE_MAX};
    bool good = next_agrees(document, length, offset, false) && next_agrees(document, length, offset, true);
    for (size_t i = 0; i < sizeof limits / sizeof *limits; i++) {
        good = good && next_agrees_under(document, length, offset, false, limits[i]) &&
               next_agrees_under(document, length, offset, true, limits[i]);
    }
    return good;
}

/* The samples, good ones and damaged ones, at each place in them, so that most cursors are in the middle of an element, and behind them. Of
 * the two long ones, which hold one binary, a few at the start and at the end do. */
static void samples(void) {
    static const char *const names[] = {"beacon", "deep", "empty", "most", "over", "p12", "p5", "p6", "tags", "unframed", "unreadable"};
    static uint8_t sample[1 << 16];
    for (size_t name = 0; name < sizeof names / sizeof *names; name++) {
        size_t length = load(names[name], WHOLE(sample));
        size_t places = length < 1500 ? length + 2 : 20;
        bool good = agrees_at(sample, length, SIZE_MAX);
        for (size_t i = 0; i < places; i++) {
            good = good && agrees_at(sample, length, i) && agrees_at(sample, length, length - i);
        }
        EXPECT(good && (length > 0 || strcmp(names[name], "empty") == 0));
    }
}

int main(void) {
    every_element();
    under_a_limit();
    refused_values();
    scopes();
    last_value();
    samples();
    return held();
}
