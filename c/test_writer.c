/* The calls on a state: what is built, byte for byte, and read back (RULES.md, "Writer and joining"). */
#include "samples.h"
#include "test.h"

enum { SIZE = 256 };

static fringewell_state state;
static uint8_t out[SIZE];

static void fresh(void) {
    state = fringewell_state_new();
    memset(out, GUARD, sizeof out);
}

#define EXPECT_BYTES(bytes)                                         \
    do {                                                            \
        EXPECT(memcmp(out, (bytes), sizeof(bytes)) == 0);           \
        EXPECT(guarded(out + sizeof(bytes), SIZE - sizeof(bytes))); \
    } while (0)

/* What is lent to each call: the state, and `out` of so many bytes. */
#define DESK(size) &state, out, (size)

/* The elements of `every_type` but the code with scope, in its order; each answer is where that element ends there. */
static void append_a_to_j(void) {
    static const uint8_t id[12] = {1, 2, 3, 4, 5, 6, 7, 8, 9, 10, 11, 12};
    EXPECT_WRITTEN(fringewell_state_append_double(DESK(200), TEXT("a"), fringewell_double_bits(-2.5)), 0, 15);
    EXPECT_WRITTEN(fringewell_state_append_string(DESK(200), TEXT("b"), TEXT("h\xC3\xA9")), 0, 26);
    EXPECT_WRITTEN(fringewell_state_open_document(DESK(200), TEXT("c")), 0, 33);
    EXPECT_WRITTEN(fringewell_state_append_null(DESK(200), TEXT("x")), 0, 36);
    EXPECT_WRITTEN(fringewell_state_close(DESK(200)), 0, 37);
    EXPECT_WRITTEN(fringewell_state_open_array(DESK(200), TEXT("d")), 0, 44);
    EXPECT_WRITTEN(fringewell_state_append_int32(DESK(200), NOTHING, -1), 0, 51);
    EXPECT_WRITTEN(fringewell_state_close(DESK(200)), 0, 52);
    EXPECT_WRITTEN(fringewell_state_append_binary(DESK(200), TEXT("e"), 0x80, BYTES(0xAA, 0xBB)), 0, 62);
    EXPECT_WRITTEN(fringewell_state_append_undefined(DESK(200), TEXT("f")), 0, 65);
    EXPECT_WRITTEN(fringewell_state_append_object_id(DESK(200), TEXT("g"), id), 0, 80);
    EXPECT_WRITTEN(fringewell_state_append_bool(DESK(200), TEXT("h"), true), 0, 84);
    EXPECT_WRITTEN(fringewell_state_append_datetime(DESK(200), TEXT("i"), -1000), 0, 95);
    EXPECT_WRITTEN(fringewell_state_append_null(DESK(200), TEXT("j")), 0, 98);
}

/* From p on, the 21 bytes of the code with scope before it are not there. */
static void append_k_to_u(void) {
    static const uint8_t id[12] = {21, 22, 23, 24, 25, 26, 27, 28, 29, 30, 31, 32};
    static const uint8_t decimal[16] = {41, 42, 43, 44, 45, 46, 47, 48, 49, 50, 51, 52, 53, 54, 55, 56};
    EXPECT_WRITTEN(fringewell_state_append_regex(DESK(200), TEXT("k"), TEXT("^a"), TEXT("i")), 0, 106);
    EXPECT_WRITTEN(fringewell_state_append_dbpointer(DESK(200), TEXT("l"), TEXT("db"), id), 0, 128);
    EXPECT_WRITTEN(fringewell_state_append_code(DESK(200), TEXT("m"), TEXT("f")), 0, 137);
    EXPECT_WRITTEN(fringewell_state_append_symbol(DESK(200), TEXT("n"), NOTHING), 0, 145);
    EXPECT_WRITTEN(fringewell_state_append_int32(DESK(200), TEXT("p"), -7), 0, 173 - 21);
    EXPECT_WRITTEN(fringewell_state_append_timestamp(DESK(200), TEXT("q"), 0x01020304, 0xFEDCBA98), 0, 184 - 21);
    EXPECT_WRITTEN(fringewell_state_append_int64(DESK(200), TEXT("r"), INT64_MIN), 0, 195 - 21);
    EXPECT_WRITTEN(fringewell_state_append_decimal128(DESK(200), TEXT("s"), decimal), 0, 214 - 21);
    EXPECT_WRITTEN(fringewell_state_append_min_key(DESK(200), TEXT("t")), 0, 217 - 21);
    EXPECT_WRITTEN(fringewell_state_append_max_key(DESK(200), TEXT("u")), 0, 220 - 21);
}

/* Reads `out` beside what `every_type` holds, past the code with scope, element by element. */
static void reads_back(void) {
    size_t here = 4;
    for (unsigned i = 0; i < 21; i++) {
        fringewell_value given = every_value[i];
        if (given.tag == FRINGEWELL_TAG_CODE_WITH_SCOPE) {
            continue;
        }
        fringewell_element got = fringewell_next(out, 200, here, false);
        fringewell_value back = got.value;
        here = got.next;
        EXPECT_EQUAL(back.number, 0);
        EXPECT_EQUAL(back.tag, given.tag);
        EXPECT_EQUAL(got.key_size, 1);
        EXPECT_EQUAL(out[got.key_offset], 'a' + i);
        EXPECT_EQUAL(back.bits, given.bits);
        EXPECT_EQUAL(back.size, given.size);
        EXPECT_EQUAL(back.size2, given.size2);
        EXPECT(memcmp(out + back.offset, every_type + given.offset, given.size) == 0);
        EXPECT(memcmp(out + back.offset2, every_type + given.offset2, given.size2) == 0);
    }
    EXPECT_NO_ELEMENT(out, 200, here, false, 0, 0);
    EXPECT_VERDICT(fringewell_check_strict(out, 200), 0, 0, 20 + 2);
}

/* 221 - 21 bytes, in a buffer of just that size. */
static void every_call(void) {
    uint8_t written[200];
    memcpy(written, every_type, 145);
    memcpy(written + 145, every_type + 166, 55);
    written[0] = 200;
    fresh();
    EXPECT_WRITTEN(fringewell_state_open(DESK(200)), 0, 4);
    append_a_to_j();
    append_k_to_u();
    EXPECT_WRITTEN(fringewell_state_close(DESK(200)), 0, 200);
    EXPECT_BYTES(written);
    reads_back();
}

/* Opening writes 5 as the length, closing the true one and the zero; nothing else moves. */
static void top(void) {
    static const uint8_t opened[4] = {5, 0, 0, 0}, closed[5] = {5, 0, 0, 0, 0};
    static const fringewell_state zeros;
    fresh();
    EXPECT(memcmp(&state, &zeros, sizeof zeros) == 0);
    EXPECT_WRITTEN(fringewell_state_open(DESK(5)), 0, 4);
    EXPECT_BYTES(opened);
    EXPECT_WRITTEN(fringewell_state_close(DESK(5)), 0, 5);
    EXPECT_BYTES(closed);
}

/* {d: {e: [{}, [null]]}}: the lengths from the innermost: 8, 5 and 3 + 5 + 3 + 8 + 5 = 24, 3 + 24 + 5 = 32, 3 + 32 + 5 = 40. */
static void nested(void) {
    static const uint8_t tree[40] = {
        40, 0, 0, 0,
        0x03, 'd', 0, 32, 0, 0, 0,
        0x04, 'e', 0, 24, 0, 0, 0,
        0x03, '0', 0, 5, 0, 0, 0, 0,
        0x04, '1', 0, 8, 0, 0, 0, 0x0A, '0', 0, 0,
        0, 0, 0,
    };
    fresh();
    EXPECT_WRITTEN(fringewell_state_open(DESK(40)), 0, 4);
    EXPECT_WRITTEN(fringewell_state_open_document(DESK(40), TEXT("d")), 0, 11);
    EXPECT_WRITTEN(fringewell_state_open_array(DESK(40), TEXT("e")), 0, 18);
    EXPECT_WRITTEN(fringewell_state_open_document(DESK(40), TEXT("not looked at")), 0, 25);
    EXPECT_WRITTEN(fringewell_state_close(DESK(40)), 0, 26);
    EXPECT_WRITTEN(fringewell_state_open_array(DESK(40), BYTES(0xFF, 0)), 0, 33);
    EXPECT_WRITTEN(fringewell_state_append_null(DESK(40), NOTHING), 0, 36);
    EXPECT_WRITTEN(fringewell_state_close(DESK(40)), 0, 37);
    EXPECT_WRITTEN(fringewell_state_close(DESK(40)), 0, 38);
    EXPECT_WRITTEN(fringewell_state_close(DESK(40)), 0, 39);
    EXPECT_WRITTEN(fringewell_state_close(DESK(40)), 0, 40);
    EXPECT_BYTES(tree);
    EXPECT_VERDICT(fringewell_check_strict(out, 40), 0, 0, 5);
}

/* Eleven nulls: ten of 3 bytes, keys 0 to 9, and one of 4, key 10; 4 + 34 + 1 bytes in the array, 4 + 2 + 39 + 1 in all. */
static void array_keys(void) {
    static const uint8_t keyed[46] = {
        46, 0, 0, 0, 0x04, 0, 39, 0, 0, 0,
        0x0A, '0', 0, 0x0A, '1', 0, 0x0A, '2', 0, 0x0A, '3', 0, 0x0A, '4', 0,
        0x0A, '5', 0, 0x0A, '6', 0, 0x0A, '7', 0, 0x0A, '8', 0, 0x0A, '9', 0,
        0x0A, '1', '0', 0, 0, 0,
    };
    fresh();
    fringewell_state_open(DESK(46));
    fringewell_state_open_array(DESK(46), NOTHING);
    for (unsigned i = 0; i < 11; i++) {
        EXPECT_WRITTEN(fringewell_state_append_null(DESK(46), NOTHING), 0, 10 + 3 * (i + 1) + (i == 10));
    }
    fringewell_state_close(DESK(46));
    EXPECT_WRITTEN(fringewell_state_close(DESK(46)), 0, 46);
    EXPECT_BYTES(keyed);
    EXPECT_VERDICT(fringewell_check_strict(out, 46), 0, 0, 12);
}

/* Subtype 2 gets its inner length, also of no data; a text may hold a zero; a regex may be empty. */
static void corners(void) {
    static const uint8_t made[44] = {
        44, 0, 0, 0,
        0x05, 'o', 0, 6, 0, 0, 0, 2, 2, 0, 0, 0, 0xAA, 0xBB,
        0x05, 'p', 0, 4, 0, 0, 0, 2, 0, 0, 0, 0,
        0x02, 0, 3, 0, 0, 0, 0, 'z', 0,
        0x0B, 0, 0, 0,
        0,
    };
    fresh();
    fringewell_state_open(DESK(SIZE));
    EXPECT_WRITTEN(fringewell_state_append_binary(DESK(SIZE), TEXT("o"), 2, BYTES(0xAA, 0xBB)), 0, 18);
    EXPECT_WRITTEN(fringewell_state_append_binary(DESK(SIZE), TEXT("p"), 2, NOTHING), 0, 30);
    EXPECT_WRITTEN(fringewell_state_append_string(DESK(SIZE), NOTHING, TEXT("\0z")), 0, 39);
    EXPECT_WRITTEN(fringewell_state_append_regex(DESK(SIZE), NOTHING, NOTHING, NOTHING), 0, 43);
    EXPECT_WRITTEN(fringewell_state_close(DESK(SIZE)), 0, 44);
    EXPECT_BYTES(made);
    EXPECT_VERDICT(fringewell_check(out, 44), 0, 0, 4);
}

/* Texts of no bytes: length 1 and their zero. */
static void empty_texts(void) {
    static const uint8_t id[12] = {1, 2, 3, 4, 5, 6, 7, 8, 9, 10, 11, 12};
    static const uint8_t made[38] = {
        38, 0, 0, 0,
        0x02, 0, 1, 0, 0, 0, 0,
        0x0D, 0, 1, 0, 0, 0, 0,
        0x0C, 0, 1, 0, 0, 0, 0, 1, 2, 3, 4, 5, 6, 7, 8, 9, 10, 11, 12,
        0,
    };
    fresh();
    fringewell_state_open(DESK(38));
    EXPECT_WRITTEN(fringewell_state_append_string(DESK(38), NOTHING, NOTHING), 0, 11);
    EXPECT_WRITTEN(fringewell_state_append_code(DESK(38), NOTHING, NOTHING), 0, 18);
    EXPECT_WRITTEN(fringewell_state_append_dbpointer(DESK(38), NOTHING, NOTHING, id), 0, 37);
    EXPECT_WRITTEN(fringewell_state_close(DESK(38)), 0, 38);
    EXPECT_BYTES(made);
    EXPECT_VERDICT(fringewell_check(out, 38), 0, 0, 3);
}

int main(void) {
    every_call();
    top();
    nested();
    array_keys();
    corners();
    empty_texts();
    return held();
}
