/* The writer's refusals: their order, and that buffer and state are then as they were, byte for byte. */
#include "calls.h"

enum { SIZE = 1600 };

typedef struct {
    fringewell_state state;
    uint8_t out[SIZE];
} desk;

static desk d, before;

#define EXPECT_REFUSED(call, number_)                  \
    do {                                               \
        before = d;                                    \
        EXPECT_WRITTEN(call, (number_), 0);            \
        EXPECT(memcmp(&d, &before, sizeof d) == 0);    \
    } while (0)

#define DESK(size) &d.state, d.out, (size)

static void fresh(void) {
    d.state = fringewell_state_new();
    memset(d.out, GUARD, SIZE);
}

static void open_top(size_t size) {
    fresh();
    EXPECT_WRITTEN(fringewell_state_open(DESK(size)), 0, 4);
}

static fringewell_written call(int row, size_t size, const void *key, size_t key_length) {
    return call_row(row, (lent){DESK(size), key, key_length});
}

/* Room is the bytes used, the new ones and a zero for each document then open: with it 0, one byte less 14. */
static void room(int row) {
    size_t used = 4 + call_sizes[row], just = used + 1 + (row >= OPENING);
    open_top(just);
    EXPECT_WRITTEN(call(row, just, TEXT("k")), 0, used);
    EXPECT(guarded(d.out + used, SIZE - used));
    EXPECT(d.out[5] == 'k' && d.out[6] == 0);
    open_top(just);
    EXPECT_REFUSED(call(row, just - 1, TEXT("k")), FRINGEWELL_NO_ROOM);
    EXPECT_REFUSED(call(row, 5, TEXT("k")), FRINGEWELL_NO_ROOM);
}

/* 15 before 14; 18 before both, and also before the top is opened and once it is closed. */
static void order(int row) {
    open_top(5);
    EXPECT_REFUSED(call(row, 5, TEXT("k\0")), FRINGEWELL_BAD_TEXT);
    EXPECT_REFUSED(call(row, 5, TEXT("\xFF")), FRINGEWELL_BAD_TEXT);
    EXPECT_REFUSED(call(row, 4, TEXT("\xFF")), FRINGEWELL_OUT_OF_TURN); /* the top's own zero has no room */
    EXPECT_REFUSED(call(row, 0, TEXT("k")), FRINGEWELL_OUT_OF_TURN);
    EXPECT_WRITTEN(fringewell_state_close(DESK(5)), 0, 5);
    EXPECT_REFUSED(call(row, SIZE, TEXT("k")), FRINGEWELL_OUT_OF_TURN);
    fresh();
    EXPECT_REFUSED(call(row, SIZE, TEXT("k")), FRINGEWELL_OUT_OF_TURN);
    EXPECT_REFUSED(call_row(row, (lent){&d.state, NOTHING, NOTHING}), FRINGEWELL_OUT_OF_TURN);
}

/* Documents under empty keys: 6 bytes each. With 202 open the next value would have depth 201. */
static void depth(void) {
    open_top(1412);
    for (unsigned i = 1; i <= 200; i++) {
        EXPECT_WRITTEN(call(OPENING, 1412, NOTHING), 0, 4 + 6 * i);
    }
    EXPECT_WRITTEN(call(OPENING, 1412, NOTHING), 0, 1210);
    for (int row = 0; row < CALLS; row++) {
        EXPECT_REFUSED(call(row, SIZE, TEXT("k")), FRINGEWELL_TOO_DEEP);
        EXPECT_REFUSED(call(row, 1412, TEXT("\xFF")), FRINGEWELL_TOO_DEEP); /* before 15, and 1412 bytes are just what closing needs */
        EXPECT_REFUSED(call(row, 1411, TEXT("\xFF")), FRINGEWELL_OUT_OF_TURN);
    }
    EXPECT_REFUSED(fringewell_state_open(DESK(SIZE)), FRINGEWELL_OUT_OF_TURN);
    for (unsigned i = 1; i <= 202; i++) {
        EXPECT_WRITTEN(fringewell_state_close(DESK(1412)), 0, 1210 + i); /* never 14, though each zero is the last that has room */
    }
    EXPECT_VERDICT(fringewell_check(d.out, 1412), 0, 0, 201);
    EXPECT(guarded(d.out + 1412, SIZE - 1412));
}

/* Texts, pattern and options not UTF-8, and a zero where a zero ends; also in an array, whose keys are not looked at. */
static void texts(void) {
    static const uint8_t id[12];
    open_top(SIZE);
    for (int array = 0; array < 2; array++) {
        EXPECT_REFUSED(fringewell_state_append_string(DESK(SIZE), TEXT("k"), TEXT("\xFF")), FRINGEWELL_BAD_TEXT);
        /* a surrogate, an overlong zero, a letter cut off */
        EXPECT_REFUSED(fringewell_state_append_string(DESK(SIZE), TEXT("k"), TEXT("\xED\xA0\x80")), FRINGEWELL_BAD_TEXT);
        EXPECT_REFUSED(fringewell_state_append_code(DESK(SIZE), TEXT("k"), TEXT("\xC0\x80")), FRINGEWELL_BAD_TEXT);
        EXPECT_REFUSED(fringewell_state_append_symbol(DESK(SIZE), TEXT("k"), TEXT("\xC3")), FRINGEWELL_BAD_TEXT);
        EXPECT_REFUSED(fringewell_state_append_dbpointer(DESK(SIZE), TEXT("k"), TEXT("\xFF"), id), FRINGEWELL_BAD_TEXT);
        EXPECT_REFUSED(fringewell_state_append_regex(DESK(SIZE), TEXT("k"), TEXT("\xFF"), TEXT("i")), FRINGEWELL_BAD_TEXT);
        EXPECT_REFUSED(fringewell_state_append_regex(DESK(SIZE), TEXT("k"), TEXT("a"), TEXT("\xFF")), FRINGEWELL_BAD_TEXT);
        EXPECT_REFUSED(fringewell_state_append_regex(DESK(SIZE), TEXT("k"), TEXT("a\0"), TEXT("i")), FRINGEWELL_BAD_TEXT);
        EXPECT_REFUSED(fringewell_state_append_regex(DESK(SIZE), TEXT("k"), TEXT("a"), TEXT("i\0")), FRINGEWELL_BAD_TEXT);
        /* before 14 */
        EXPECT_REFUSED(fringewell_state_append_string(DESK(5 + 8 * (size_t)array), TEXT("k"), TEXT("\xFF")), FRINGEWELL_BAD_TEXT);
        EXPECT_EQUAL(fringewell_state_open_array(DESK(SIZE), TEXT("a")).number, 0);
    }
    EXPECT_EQUAL(fringewell_state_append_binary(DESK(SIZE), TEXT("k"), 0, TEXT("\xFF")).number, 0); /* no text */
}

/* The top and closing. */
static void turns(void) {
    fresh();
    EXPECT_REFUSED(fringewell_state_close(DESK(SIZE)), FRINGEWELL_OUT_OF_TURN);
    EXPECT_REFUSED(fringewell_state_close(&d.state, NOTHING), FRINGEWELL_OUT_OF_TURN);
    EXPECT_REFUSED(fringewell_state_open(&d.state, NOTHING), FRINGEWELL_NO_ROOM);
    EXPECT_REFUSED(fringewell_state_open(DESK(4)), FRINGEWELL_NO_ROOM);
    EXPECT_WRITTEN(fringewell_state_open(DESK(5)), 0, 4);
    EXPECT_REFUSED(fringewell_state_open(DESK(SIZE)), FRINGEWELL_OUT_OF_TURN);
    EXPECT_REFUSED(fringewell_state_open(DESK(4)), FRINGEWELL_OUT_OF_TURN);
    EXPECT_REFUSED(fringewell_state_close(DESK(4)), FRINGEWELL_OUT_OF_TURN);
    EXPECT_WRITTEN(fringewell_state_close(DESK(5)), 0, 5);
    EXPECT_REFUSED(fringewell_state_close(DESK(SIZE)), FRINGEWELL_OUT_OF_TURN);
    EXPECT_REFUSED(fringewell_state_open(DESK(SIZE)), FRINGEWELL_OUT_OF_TURN); /* bytes are used before the top */
    /* RULES.md, "Bytes to try": null under an empty key needs room 7 */
    open_top(7);
    EXPECT_REFUSED(call(6, 6, NOTHING), FRINGEWELL_NO_ROOM);
    EXPECT_WRITTEN(call(6, 7, NOTHING), 0, 6);
}

/* A state with the words in front set: bytes used, documents open, then start and mark of each. All ones mark a document. */
static void set(uint32_t used, uint32_t open, uint32_t start0, uint32_t mark0, uint32_t start1, uint32_t mark1) {
    const uint32_t words[6] = {used, open, start0, mark0, start1, mark1};
    fresh();
    memcpy(d.state.words, words, sizeof words);
}

/* A document that starts at 4 in the top, with 8 bytes used, is possible; each of the rest differs from it in one way. */
static void impossible(void) {
    static const uint32_t states[][6] = {
        {7, 2, 0, UINT32_MAX, 4, UINT32_MAX},          /* the inner one has not four used bytes */
        {8, 2, 0, UINT32_MAX, 3, UINT32_MAX},          /* nor has the top */
        {8, 2, 1, UINT32_MAX, 5, UINT32_MAX},          /* the first start is not 0 */
        {12, 2, 0, UINT32_MAX, 0, UINT32_MAX},         /* starts do not ascend */
        {8, 2, 0, UINT32_MAX, UINT32_MAX, UINT32_MAX}, /* nor where start + 4 would wrap */
        {8, 2, 0, UINT32_MAX, 4, 9},                   /* an array of 9 elements in 8 bytes */
        {8, 2, 0, 9, 4, UINT32_MAX},                   /* further out too */
        {8, 2, 0, UINT32_MAX, 4, 0x80000000},          /* a mark that is no kind */
        {8, 2, 0, UINT32_MAX - 1, 4, UINT32_MAX},
        {8, 203, 0, UINT32_MAX, 4, UINT32_MAX}, /* over 202 open */
        {8, UINT32_MAX, 0, UINT32_MAX, 4, UINT32_MAX},
        {8, 0, 0, UINT32_MAX, 4, UINT32_MAX}, /* bytes used before the top */
        {SIZE - 1, 2, 0, UINT32_MAX, 4, UINT32_MAX}, /* past the room: used bytes and a zero each */
        {UINT32_MAX, 2, 0, UINT32_MAX, 4, UINT32_MAX},
        {UINT32_MAX - 1, 2, 0, UINT32_MAX, 4, UINT32_MAX},
    };
    for (size_t i = 0; i < sizeof states / sizeof *states; i++) {
        const uint32_t *w = states[i];
        set(w[0], w[1], w[2], w[3], w[4], w[5]);
        EXPECT_REFUSED(fringewell_state_close(DESK(SIZE)), FRINGEWELL_OUT_OF_TURN);
        EXPECT_REFUSED(fringewell_state_open(DESK(SIZE)), FRINGEWELL_OUT_OF_TURN);
        for (int row = 0; row < CALLS; row++) {
            EXPECT_REFUSED(call(row, SIZE, TEXT("\xFF")), FRINGEWELL_OUT_OF_TURN);
        }
    }
}

/* The bounds of what is possible, from within. */
static void possible(void) {
    set(8, 2, 0, UINT32_MAX, 4, UINT32_MAX);
    EXPECT_REFUSED(fringewell_state_close(DESK(9)), FRINGEWELL_OUT_OF_TURN);
    EXPECT_WRITTEN(fringewell_state_close(DESK(10)), 0, 9); /* just full: both zeros, and no more */
    EXPECT_WRITTEN(fringewell_state_close(DESK(10)), 0, 10);
    EXPECT(memcmp(d.out, (uint8_t[]){10, 0, 0, 0, 5, 0, 0, 0, 0, 0}, 10) == 0);
    EXPECT(guarded(d.out + 10, SIZE - 10));
    set(8, 2, 0, UINT32_MAX, 4, 8);
    EXPECT_WRITTEN(call(6, SIZE, NOTHING), 0, 11); /* the ninth of an array has the key 8 */
    EXPECT(memcmp(d.out + 8, (uint8_t[]){0x0A, '8', 0}, 3) == 0);
    EXPECT_WRITTEN(fringewell_state_close(DESK(SIZE)), 0, 12);
}

int main(void) {
    for (int row = 0; row < CALLS; row++) {
        room(row);
        order(row);
    }
    depth();
    texts();
    turns();
    impossible();
    possible();
    return held();
}
