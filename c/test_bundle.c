/* The writer that keeps its buffer: it makes the bytes that the calls on a state make, and does nothing more after its first refusal
 * (RULES.md, "Writer and joining"). */
#include "calls.h"
#include "samples.h"

enum { SIZE = 1600, CLOSE = CALLS };

typedef struct {
    fringewell_writer writer;
    uint8_t out[SIZE];
} desk;

static desk d, before;

/* The calls of the rows in calls.h, with the same values, and closing. */
static uint32_t write_number(int row, const void *key, size_t key_length) {
    switch (row) {
    case 0:
        return fringewell_append_double(&d.writer, key, key_length, 2.0);
    case 1:
        return fringewell_append_bool(&d.writer, key, key_length, false);
    case 2:
        return fringewell_append_int32(&d.writer, key, key_length, 7);
    case 3:
        return fringewell_append_int64(&d.writer, key, key_length, 7);
    case 4:
        return fringewell_append_datetime(&d.writer, key, key_length, 7);
    case 5:
        return fringewell_append_timestamp(&d.writer, key, key_length, 1, 2);
    case 6:
        return fringewell_append_null(&d.writer, key, key_length);
    case 7:
        return fringewell_append_undefined(&d.writer, key, key_length);
    case 8:
        return fringewell_append_min_key(&d.writer, key, key_length);
    default:
        return fringewell_append_max_key(&d.writer, key, key_length);
    }
}

static uint32_t write_row(int row, const void *key, size_t key_length) {
    switch (row) {
    case 10:
        return fringewell_append_string(&d.writer, key, key_length, TEXT("hi"));
    case 11:
        return fringewell_append_code(&d.writer, key, key_length, TEXT("hi"));
    case 12:
        return fringewell_append_symbol(&d.writer, key, key_length, TEXT("hi"));
    case 13:
        return fringewell_append_binary(&d.writer, key, key_length, 0, TEXT("hi"));
    case 14:
        return fringewell_append_regex(&d.writer, key, key_length, TEXT("a"), TEXT("i"));
    case 15:
        return fringewell_append_dbpointer(&d.writer, key, key_length, TEXT("db"), call_bytes);
    case 16:
        return fringewell_append_object_id(&d.writer, key, key_length, call_bytes);
    case 17:
        return fringewell_append_decimal128(&d.writer, key, key_length, call_bytes);
    case 18:
        return fringewell_writer_open_document(&d.writer, key, key_length);
    case 19:
        return fringewell_writer_open_array(&d.writer, key, key_length);
    case CLOSE:
        return fringewell_writer_close(&d.writer);
    default:
        return write_number(row, key, key_length);
    }
}

/* The elements of `every_type` but the code with scope, in its order. */
static void append_a_to_j(fringewell_writer *writer) {
    static const uint8_t id[12] = {1, 2, 3, 4, 5, 6, 7, 8, 9, 10, 11, 12};
    fringewell_append_double(writer, TEXT("a"), -2.5);
    fringewell_append_string(writer, TEXT("b"), TEXT("h\xC3\xA9"));
    fringewell_writer_open_document(writer, TEXT("c"));
    fringewell_append_null(writer, TEXT("x"));
    fringewell_writer_close(writer);
    fringewell_writer_open_array(writer, TEXT("d"));
    fringewell_append_int32(writer, NOTHING, -1);
    fringewell_writer_close(writer);
    fringewell_append_binary(writer, TEXT("e"), 0x80, BYTES(0xAA, 0xBB));
    fringewell_append_undefined(writer, TEXT("f"));
    fringewell_append_object_id(writer, TEXT("g"), id);
    fringewell_append_bool(writer, TEXT("h"), true);
    fringewell_append_datetime(writer, TEXT("i"), -1000);
    fringewell_append_null(writer, TEXT("j"));
}

static void append_k_to_u(fringewell_writer *writer) {
    static const uint8_t id[12] = {21, 22, 23, 24, 25, 26, 27, 28, 29, 30, 31, 32};
    static const uint8_t decimal[16] = {41, 42, 43, 44, 45, 46, 47, 48, 49, 50, 51, 52, 53, 54, 55, 56};
    fringewell_append_regex(writer, TEXT("k"), TEXT("^a"), TEXT("i"));
    fringewell_append_dbpointer(writer, TEXT("l"), TEXT("db"), id);
    fringewell_append_code(writer, TEXT("m"), TEXT("f"));
    fringewell_append_symbol(writer, TEXT("n"), NOTHING);
    fringewell_append_int32(writer, TEXT("p"), -7);
    fringewell_append_timestamp(writer, TEXT("q"), 0x01020304, 0xFEDCBA98);
    fringewell_append_int64(writer, TEXT("r"), INT64_MIN);
    fringewell_append_decimal128(writer, TEXT("s"), decimal);
    fringewell_append_min_key(writer, TEXT("t"));
    fringewell_append_max_key(writer, TEXT("u"));
}

/* By a writer in memory that held nothing, and tested once, at the end: 221 - 21 bytes. */
static void every_append(void) {
    uint8_t out[256], written[200];
    fringewell_writer writer;
    memset(out, GUARD, sizeof out);
    fringewell_writer_open(&writer, out, 200);
    append_a_to_j(&writer);
    append_k_to_u(&writer);
    EXPECT_EQUAL(writer.length, 0);
    EXPECT_EQUAL(fringewell_writer_close(&writer), FRINGEWELL_OK);
    EXPECT_EQUAL(writer.length, 200);
    memcpy(written, every_type, 145);
    memcpy(written + 145, every_type + 166, 55);
    written[0] = 200;
    EXPECT(memcmp(out, written, 200) == 0 && guarded(out + 200, sizeof out - 200));
}

/* After a refusal every call returns its number and changes nothing, the document has no length, and one can begin anew. */
static void stuck(uint32_t number) {
    before = d;
    for (int row = 0; row <= CLOSE; row++) {
        EXPECT_EQUAL(write_row(row, TEXT("k")), number);
    }
    EXPECT(memcmp(&d, &before, sizeof d) == 0);
    EXPECT_EQUAL(d.writer.number, number);
    EXPECT_EQUAL(d.writer.length, 0);
    EXPECT_EQUAL(fringewell_writer_open(&d.writer, WHOLE(d.out)), FRINGEWELL_OK);
    EXPECT_EQUAL(d.writer.number, FRINGEWELL_OK);
    EXPECT_EQUAL(fringewell_writer_close(&d.writer), FRINGEWELL_OK);
    EXPECT_EQUAL(d.writer.length, 5);
}

/* A state beside the writer, and its buffer. */
static fringewell_state state;
static uint8_t beside[SIZE];

/* One call on each of them gives the same number, the same bytes and the same state. */
static uint32_t write_both(int row, size_t room) {
    fringewell_written written =
        row == CLOSE ? fringewell_state_close(&state, beside, room) : call_row(row, (lent){&state, beside, room, TEXT("k")});
    EXPECT_EQUAL(write_row(row, TEXT("k")), written.number);
    EXPECT(memcmp(d.out, beside, SIZE) == 0 && memcmp(&d.writer.state, &state, sizeof state) == 0);
    return written.number;
}

/* Every append in the top, a document with a null, and every append in an array. By call_sizes the appends have 67 + 69 + 34 bytes, and in
 * an array eight bytes more, for keys 10 to 17: 4 + 170 + (7 + 3 + 1) + (7 + 178 + 1) + 1 bytes. */
static const int rows[] = {
    0, 1, 2, 3, 4, 5, 6, 7, 8, 9, 10, 11, 12, 13, 14, 15, 16, 17,
    OPENING, 6, CLOSE,
    OPENING + 1, 0, 1, 2, 3, 4, 5, 6, 7, 8, 9, 10, 11, 12, 13, 14, 15, 16, 17, CLOSE,
};
enum { ROWS = sizeof rows / sizeof *rows, NEEDED = 372 };

/* In too little room some call is refused by 14, opening perhaps; in just enough none, and the length is known when the top is closed. */
static void in_room(size_t room) {
    memset(&d, GUARD, sizeof d);
    memset(beside, GUARD, sizeof beside);
    state = fringewell_state_new();
    uint32_t number = fringewell_state_open(&state, beside, room).number;
    EXPECT_EQUAL(fringewell_writer_open(&d.writer, d.out, room), number);
    for (int i = 0; i < ROWS && number == FRINGEWELL_OK; i++) {
        number = write_both(rows[i], room);
        EXPECT_EQUAL(d.writer.length, 0);
    }
    EXPECT_EQUAL(number, room < NEEDED ? FRINGEWELL_NO_ROOM : FRINGEWELL_OK);
    if (number != FRINGEWELL_OK) {
        stuck(number);
        return;
    }
    EXPECT_EQUAL(write_both(CLOSE, room), FRINGEWELL_OK);
    EXPECT_EQUAL(d.writer.length, NEEDED);
    EXPECT_VERDICT(fringewell_check_strict(d.out, NEEDED), 0, 0, 18 + 2 + 1 + 18);
}

/* A first refusal: state and buffer are as they were, and it stays. */
#define EXPECT_STUCK(call, number_)                                                             \
    do {                                                                                        \
        before = d;                                                                             \
        EXPECT_EQUAL(call, (number_));                                                          \
        EXPECT(memcmp(&d.writer.state, &before.writer.state, sizeof before.writer.state) == 0); \
        EXPECT(memcmp(d.out, before.out, SIZE) == 0);                                           \
        stuck(number_);                                                                         \
    } while (0)

static void open_top(size_t room) {
    memset(d.out, GUARD, SIZE);
    EXPECT_EQUAL(fringewell_writer_open(&d.writer, d.out, room), FRINGEWELL_OK);
}

/* 14 where there is no room, in no buffer too; 15 where a key or a text is none. */
static void no_room_and_bad_texts(void) {
    EXPECT_EQUAL(fringewell_writer_open(&d.writer, NOTHING), FRINGEWELL_NO_ROOM);
    stuck(FRINGEWELL_NO_ROOM);
    open_top(12);
    EXPECT_STUCK(fringewell_append_int64(&d.writer, TEXT("k"), 7), FRINGEWELL_NO_ROOM);
    open_top(SIZE);
    EXPECT_STUCK(fringewell_append_int32(&d.writer, TEXT("\xFF"), 7), FRINGEWELL_BAD_TEXT);
    open_top(SIZE);
    EXPECT_STUCK(fringewell_append_string(&d.writer, TEXT("k"), TEXT("\xFF")), FRINGEWELL_BAD_TEXT);
    open_top(SIZE);
    EXPECT_STUCK(fringewell_writer_open_document(&d.writer, TEXT("k\0")), FRINGEWELL_BAD_TEXT);
}

/* 13 with 202 open: the next value would have depth 201. */
static void too_deep(int row) {
    open_top(SIZE);
    for (int i = 0; i < 201; i++) {
        EXPECT_EQUAL(fringewell_writer_open_document(&d.writer, NOTHING), FRINGEWELL_OK);
    }
    EXPECT_STUCK(write_row(row, TEXT("k")), FRINGEWELL_TOO_DEEP);
}

/* 18 behind the closed top, whose length is then 0 again. */
static void closed(int row) {
    open_top(SIZE);
    EXPECT_EQUAL(fringewell_append_int32(&d.writer, TEXT("n"), 5), FRINGEWELL_OK);
    EXPECT_EQUAL(d.writer.length, 0);
    EXPECT_EQUAL(fringewell_writer_close(&d.writer), FRINGEWELL_OK);
    EXPECT_EQUAL(d.writer.length, 12);
    EXPECT_STUCK(write_row(row, TEXT("k")), FRINGEWELL_OUT_OF_TURN);
}

/* Begun anew before its end, a writer forgets what was open. */
static void anew(void) {
    open_top(SIZE);
    EXPECT_EQUAL(fringewell_writer_open_array(&d.writer, TEXT("a")), FRINGEWELL_OK);
    open_top(SIZE);
    EXPECT_EQUAL(fringewell_writer_close(&d.writer), FRINGEWELL_OK);
    EXPECT_EQUAL(d.writer.length, 5);
    EXPECT(memcmp(d.out, (uint8_t[]){5, 0, 0, 0, 0}, 5) == 0 && guarded(d.out + 5, SIZE - 5));
}

int main(void) {
    every_append();
    for (size_t room = 0; room <= NEEDED + 1; room++) {
        in_room(room);
    }
    no_room_and_bad_texts();
    for (int row = 0; row < CALLS; row++) {
        too_deep(row);
    }
    for (int row = 0; row <= CLOSE; row++) {
        closed(row);
    }
    anew();
    return held();
}
