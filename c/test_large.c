/* Slices past 2^31 and 2^32 bytes: no length is cut to 32 bits, room ends at 2,147,483,647, and an array's keys have up to ten digits.
 * Only the pages that are touched exist. */
#define _DEFAULT_SOURCE
#include "samples.h"
#include "test.h"
#include <sys/mman.h>

static const size_t SPAN = 5368709120; /* five times 2^30 */
static const size_t ROOM = 2147483647;
static const uint32_t USED = 2000000000; /* bytes in front of a key; no count of an array is above them */

static uint8_t *pages(void) {
    void *at = mmap(NULL, SPAN, PROT_READ | PROT_WRITE, MAP_PRIVATE | MAP_ANONYMOUS | MAP_NORESERVE, -1, 0);
    return at == MAP_FAILED ? NULL : at;
}

/* The length in front is an i32: it differs from a slice's length that is the same number of 32 bits. */
static void admission(uint8_t *slice) {
    put32(slice, 5);
    EXPECT_VERDICT(fringewell_check(slice, 5), 0, 0, 0);
    EXPECT_VERDICT(fringewell_check(slice, 4294967296 + 5), FRINGEWELL_LENGTH_DIFFERS, 0, 0);
    put32(slice, 0xFFFFFFFF);
    EXPECT_VERDICT(fringewell_check(slice, 0xFFFFFFFF), FRINGEWELL_LENGTH_DIFFERS, 0, 0);
    put32(slice, 0x80000000);
    EXPECT_VERDICT(fringewell_check(slice, 0x80000000), FRINGEWELL_LENGTH_DIFFERS, 0, 0);
}

/* A document of `size` bytes with one binary under an empty key: 4 + 2 + 5 + n + 1. */
static void one_binary(uint8_t *slice, size_t size) {
    put32(slice, size);
    slice[4] = FRINGEWELL_TAG_BINARY;
    slice[5] = 0;
    put32(slice + 6, size - 12);
    slice[10] = 0;
}

/* {p: {b: 7}} behind a binary that takes the rest of the room: the element p has 15 bytes, in front of the last zero. */
static void along(uint8_t *slice) {
    static const uint8_t last[15] = {0x03, 'p', 0, 12, 0, 0, 0, 0x10, 'b', 0, 7, 0, 0, 0, 0};
    one_binary(slice, ROOM);
    put32(slice + 6, ROOM - 12 - sizeof last);
    put(slice, ROOM - 16, last, sizeof last);
    EXPECT_VALUE(fringewell_path(slice, ROOM, TEXT("p\0b")),
                 VALUE(.tag = FRINGEWELL_TAG_INT32, .place = ROOM - 9, .framed_offset = ROOM - 6, .framed_size = 4, .bits = 7));
    EXPECT_NO_VALUE(fringewell_path(slice, ROOM, TEXT("p\0c")), FRINGEWELL_ABSENT, ROOM - 2);
    EXPECT_NO_VALUE(fringewell_path(slice, ROOM, TEXT("\0c")), FRINGEWELL_OTHER_TYPE, 4);
}

/* Joined with itself a document of 2^30 + 3 bytes would have 2^31 + 1, which `out` could hold. */
static void joining(uint8_t *slice, uint8_t *out) {
    one_binary(slice, ROOM);
    EXPECT_VERDICT(fringewell_check(slice, ROOM), 0, 0, 1);
    const fringewell_value binary = VALUE(.tag = FRINGEWELL_TAG_BINARY, .place = 4, .framed_offset = 6, .framed_size = ROOM - 7,
                                          .offset = 11, .size = ROOM - 12);
    EXPECT_VALUE(fringewell_lookup(slice, ROOM, NOTHING), binary);
    EXPECT_EQUAL(fringewell_step(slice, ROOM, 4, false).next, ROOM - 1);
    EXPECT_ELEMENT(fringewell_next(slice, ROOM, 4, false), ELEMENT(.value = binary, .key_offset = 5, .next = ROOM - 1));
    one_binary(slice, 1073741827);
    EXPECT_JOINED(fringewell_join(slice, 1073741827, slice, 1073741827, out, SPAN), JOINED(.number = FRINGEWELL_NO_ROOM));
    EXPECT_EQUAL(out[0], 0);
}

/* A top of almost all the room: 2 bytes of a null and the zero fit behind 2,147,483,644, and not behind one more. */
static void writing(uint8_t *out) {
    fringewell_state state = fringewell_state_new();
    EXPECT_WRITTEN(fringewell_state_open(&state, out, SPAN), 0, 4);
    state.words[0] = 2147483645;
    EXPECT_WRITTEN(fringewell_state_append_null(&state, out, SPAN, NOTHING), FRINGEWELL_NO_ROOM, 0);
    state.words[0] = 2147483644;
    EXPECT_WRITTEN(fringewell_state_append_null(&state, out, SPAN, NOTHING), 0, 2147483646);
    EXPECT_EQUAL(out[2147483644], FRINGEWELL_TAG_NULL);
    EXPECT_WRITTEN(fringewell_state_close(&state, out, SPAN), 0, ROOM);
    EXPECT(memcmp(out, (uint8_t[]){0xFF, 0xFF, 0xFF, 0x7F}, 4) == 0);
}

/* Data as long as 2^32 and more bytes are past the room, whatever their length is in 32 bits. */
static void long_data(uint8_t *out, const uint8_t *data) {
    fringewell_state state = fringewell_state_new();
    EXPECT_WRITTEN(fringewell_state_open(&state, out, SPAN), 0, 4);
    EXPECT_WRITTEN(fringewell_state_append_binary(&state, out, SPAN, NOTHING, 0, data, 4294967296), FRINGEWELL_NO_ROOM, 0);
    EXPECT_WRITTEN(fringewell_state_append_binary(&state, out, SPAN, NOTHING, 2, data, SPAN), FRINGEWELL_NO_ROOM, 0);
    EXPECT_WRITTEN(fringewell_state_append_binary(&state, out, SPAN, NOTHING, 0, data, ROOM), FRINGEWELL_NO_ROOM, 0);
}

/* The key that the writer makes for an element with so many before it in its array. */
static void key_of(uint8_t *out, uint32_t count) {
    char element[16] = {FRINGEWELL_TAG_NULL};
    size_t size = 2 + (size_t)snprintf(element + 1, sizeof element - 1, "%" PRIu32, count);
    fringewell_state state = fringewell_state_new();
    EXPECT_WRITTEN(fringewell_state_open(&state, out, SPAN), 0, 4);
    EXPECT_WRITTEN(fringewell_state_open_array(&state, out, SPAN, NOTHING), 0, 10);
    state.words[0] = USED;
    state.words[5] = count;
    out[USED + size] = 0xEE;
    EXPECT_WRITTEN(fringewell_state_append_null(&state, out, SPAN, NOTHING), 0, USED + size);
    EXPECT(memcmp(out + USED, element, size) == 0);
    EXPECT_EQUAL(out[USED + size], 0xEE);
    EXPECT_EQUAL(state.words[5], count + 1);
}

/* Keys around each multiple of each power of ten: as long as the number is, and each digit in its place. */
static void keys(uint8_t *out) {
    for (uint64_t power = 1; power <= 1000000000; power *= 10)
        for (uint64_t first = power; first < 10 * power && first < USED; first += power)
            for (uint64_t count = first - 1; count <= first + 1; count++)
                key_of(out, (uint32_t)count);
}

int main(void) {
    uint8_t *slice = pages(), *out = pages();
    EXPECT(slice != NULL && out != NULL);
    if (slice != NULL && out != NULL) {
        admission(slice);
        along(slice);
        joining(slice, out);
        writing(out);
        long_data(out, slice);
        keys(out);
        munmap(slice, SPAN);
        munmap(out, SPAN);
    }
    return held();
}
