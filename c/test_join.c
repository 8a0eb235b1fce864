/* Joining: the bytes written, the refusals and their order, and what stays as it was. */
#include "samples.h"
#include "test.h"

enum { SIZE = 64 };

static uint8_t out[SIZE];
static const uint8_t empty[5] = {5, 0, 0, 0, 0};
static const uint8_t number[12] = {12, 0, 0, 0, 0x10, 'n', 0, 5, 0, 0, 0, 0};

#define EXPECT_BODIES(call, bytes)                                  \
    do {                                                            \
        memset(out, GUARD, SIZE);                                   \
        EXPECT_JOINED(call, JOINED(.length = sizeof(bytes)));       \
        EXPECT(memcmp(out, (bytes), sizeof(bytes)) == 0);           \
        EXPECT(guarded(out + sizeof(bytes), SIZE - sizeof(bytes))); \
    } while (0)

#define EXPECT_UNJOINED(call, number_, place_, which_)                                               \
    do {                                                                                             \
        memset(out, GUARD, SIZE);                                                                    \
        EXPECT_JOINED(call, JOINED(.number = (number_), .which = (which_), .place = (place_)));      \
        EXPECT(guarded(out, SIZE));                                                                  \
    } while (0)

/* 13 + 12 - 5 = 20 bytes: both bodies between one length and one zero. */
static void bodies(void) {
    static const uint8_t both[20] = {20, 0, 0, 0, 0x08, 'a', 0, 0, 0x08, 'a', 0, 1, 0x10, 'n', 0, 5, 0, 0, 0, 0};
    static const uint8_t turned[20] = {20, 0, 0, 0, 0x10, 'n', 0, 5, 0, 0, 0, 0x08, 'a', 0, 0, 0x08, 'a', 0, 1, 0};
    static const uint8_t twice[19] = {19, 0, 0, 0, 0x10, 'n', 0, 5, 0, 0, 0, 0x10, 'n', 0, 5, 0, 0, 0, 0};
    EXPECT_BODIES(fringewell_join(p12, sizeof p12, number, sizeof number, out, sizeof out), both);
    EXPECT_VERDICT(fringewell_check(out, 20), 0, 0, 2 + 1);
    EXPECT_BODIES(fringewell_join(number, sizeof number, p12, sizeof p12, out, sizeof out), turned);
    EXPECT_BODIES(fringewell_join(number, sizeof number, number, sizeof number, out, sizeof out), twice); /* one slice lent twice */
    EXPECT_BODIES(fringewell_join(p12, sizeof p12, number, sizeof number, out, 20), both); /* just room */
    EXPECT_BODIES(fringewell_join(empty, sizeof empty, empty, sizeof empty, out, 5), empty);
    EXPECT_BODIES(fringewell_join(empty, sizeof empty, number, sizeof number, out, 12), number);
    EXPECT_BODIES(fringewell_join(p12, sizeof p12, empty, sizeof empty, out, 13), p12);
}

static void no_room(void) {
    EXPECT_UNJOINED(fringewell_join(p12, sizeof p12, number, sizeof number, out, 19), FRINGEWELL_NO_ROOM, 0, 0);
    EXPECT_UNJOINED(fringewell_join(empty, sizeof empty, empty, sizeof empty, out, 4), FRINGEWELL_NO_ROOM, 0, 0);
    EXPECT_UNJOINED(fringewell_join(empty, sizeof empty, empty, sizeof empty, out, 0), FRINGEWELL_NO_ROOM, 0, 0);
    EXPECT_UNJOINED(fringewell_join(empty, sizeof empty, empty, sizeof empty, NOTHING), FRINGEWELL_NO_ROOM, 0, 0);
}

/* The first is checked before the second, and both before the room; places are those of the document refused. */
static void damaged(void) {
    static const uint8_t inside[14] = {14, 0, 0, 0, 0x03, 0, 7, 0, 0, 0, 0x14, 0, 0, 0}; /* 7 at 10 */
    EXPECT_UNJOINED(fringewell_join(unframed, sizeof unframed, number, sizeof number, out, SIZE), FRINGEWELL_UNKNOWN_TAG, 17, 1);
    EXPECT_UNJOINED(fringewell_join(number, sizeof number, unframed, sizeof unframed, out, SIZE), FRINGEWELL_UNKNOWN_TAG, 17, 2);
    EXPECT_UNJOINED(fringewell_join(number, sizeof number, inside, sizeof inside, out, SIZE), FRINGEWELL_UNKNOWN_TAG, 10, 2);
    EXPECT_UNJOINED(fringewell_join(inside, sizeof inside, unframed, sizeof unframed, out, 0), FRINGEWELL_UNKNOWN_TAG, 10, 1);
    EXPECT_UNJOINED(fringewell_join(number, sizeof number, BYTES(8, 0, 0, 0, 0x08, 0, 2, 0), out, 0), FRINGEWELL_BAD_BOOLEAN, 4, 2);
    EXPECT_UNJOINED(fringewell_join(BYTES(6, 0, 0, 0, 0), number, sizeof number, out, SIZE), FRINGEWELL_LENGTH_DIFFERS, 0, 1);
    EXPECT_UNJOINED(fringewell_join(number, sizeof number, BYTES(5, 0, 0, 0, 1), out, SIZE), FRINGEWELL_NO_TERMINATOR, 0, 2);
    EXPECT_UNJOINED(fringewell_join(NOTHING, number, sizeof number, out, SIZE), FRINGEWELL_TOO_SHORT, 0, 1);
    EXPECT_UNJOINED(fringewell_join(number, sizeof number, NOTHING, out, SIZE), FRINGEWELL_TOO_SHORT, 0, 2);
    EXPECT_UNJOINED(fringewell_join(NOTHING, NOTHING, NOTHING), FRINGEWELL_TOO_SHORT, 0, 1);
}

/* P5 passes admission, and its last value swallows the terminator: joining it would damage what is written. */
static void swallowed(void) {
    static uint8_t deep[1419];
    EXPECT_UNJOINED(fringewell_join(BYTES(10, 0, 0, 0, 0x10, 0, 7, 0, 0, 0), number, sizeof number, out, SIZE), FRINGEWELL_STEP_OUTSIDE, 10,
                    1);
    EXPECT_EQUAL(nest(deep, 202, BYTES(0x03, 0), NOTHING), sizeof deep);
    EXPECT_UNJOINED(fringewell_join(number, sizeof number, deep, sizeof deep, out, SIZE), FRINGEWELL_TOO_DEEP, 1210, 2);
}

int main(void) {
    bodies();
    no_room();
    damaged();
    swallowed();
    return held();
}
