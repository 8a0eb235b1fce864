/* No byte outside a lent slice is touched: each slice ends where a page ends behind which there is none, and damaged documents point past
 * their end in every way that one byte can. A step outside would stop the program. */
#define _DEFAULT_SOURCE
#include "agree.h"
#include "samples.h"
#include <sys/mman.h>
#include <unistd.h>

static size_t page_size;

/* The end of a page that can be written, with one behind it that cannot be touched, and then one of zeros. */
static uint8_t *page_end(void) {
    uint8_t *pages = mmap(NULL, 3 * page_size, PROT_READ | PROT_WRITE, MAP_PRIVATE | MAP_ANONYMOUS, -1, 0);
    bool made = pages != MAP_FAILED && mprotect(pages + page_size, page_size, PROT_NONE) == 0;
    return made ? pages + page_size : NULL;
}

static uint8_t *document_end, *out_end, *key_end;

static const size_t limits[] = {0, 1, 2, SIZE_MAX};
enum { LIMITS = sizeof limits / sizeof *limits };

/* The check under each limit answers as without one, or 22: for 5 always, and else only where the document is longer than the limit. */
static bool checked_under(const uint8_t *document, size_t length, fringewell_verdict plain) {
    bool good = true, no_zero = plain.number == FRINGEWELL_NO_ZERO;
    for (int i = 0; i < LIMITS; i++) {
        fringewell_verdict verdict = fringewell_check_under(document, length, limits[i]);
        bool same = !no_zero && same_verdict(verdict, plain);
        good = good && (same || (verdict.number == FRINGEWELL_TOO_LONG && (no_zero || limits[i] < length)));
        fringewell_check_strict_under(document, length, limits[i]);
        fringewell_lookup_under(document, length, key_end - 1, 1, limits[i]);
        fringewell_lookup_typed_under(document, length, key_end - 1, 1, FRINGEWELL_TAG_MAX_KEY, limits[i]);
    }
    return good;
}

/* Paths that end where the page does, into the document, the array and the scope of `every_type`, and to its last element. What is found is
 * what is read at its place, and under a limit the same, if anything. */
static bool led(const uint8_t *document, size_t length) {
    static const uint8_t paths[][3] = {{'c', 0, 'x'}, {'d', 0, '0'}, {'o', 0, 'y'}, {0, 0, 'u'}};
    bool good = true;
    for (size_t p = 0; p < sizeof paths / sizeof *paths; p++) {
        size_t size = paths[p][0] == 0 ? 1 : 3;
        const uint8_t *path = key_end - size;
        memcpy(key_end - 3, paths[p], 3);
        fringewell_value value = fringewell_path(document, length, path, size);
        fringewell_value typed = fringewell_path_typed(document, length, path, size, value.tag);
        good = good && same_value(typed, value) &&
               (value.number != 0 || same_value(value, fringewell_read(document, length, value.place)));
        for (int i = 0; i < LIMITS; i++) {
            fringewell_value under = fringewell_path_under(document, length, path, size, limits[i]);
            typed = fringewell_path_typed_under(document, length, path, size, under.tag, limits[i]);
            good = good && same_value(typed, under) && (under.number != 0 || same_value(under, value));
        }
    }
    return good;
}

/* So do step and reading under a limit: 22 for 5, and for an element with a longer key, pattern or options. Where the step is refused by
 * 6 to 10, a text that it met may be longer. */
static bool stepped_under(const uint8_t *document, size_t length, size_t place, size_t limit, fringewell_stepped at,
                          fringewell_value there) {
    const fringewell_stepped no_step = {.number = FRINGEWELL_TOO_LONG, .place = place, .ended = true, .next = place};
    const fringewell_value no_value = {.number = FRINGEWELL_TOO_LONG, .place = place};
    bool longer = at.number == FRINGEWELL_NO_ZERO || at.key_size > limit ||
                  (at.tag == FRINGEWELL_TAG_REGEX && (there.size > limit || there.size2 > limit));
    bool perhaps = at.number >= FRINGEWELL_NOT_UTF8 && limit < length;
    fringewell_stepped stepped = fringewell_step_under(document, length, place, false, limit);
    fringewell_value value = fringewell_read_under(document, length, place, limit);
    bool agrees = agree(fringewell_next_under(document, length, place, false, limit), stepped, value);
    if (longer || (perhaps && stepped.number == FRINGEWELL_TOO_LONG)) {
        return agrees && same_stepped(stepped, no_step) && same_value(value, no_value);
    }
    return agrees && same_stepped(stepped, at) && same_value(value, there);
}

/* The parts that are given lie in the document. */
static bool inside(size_t length, fringewell_stepped stepped, fringewell_value value) {
    return stepped.key_offset + stepped.key_size <= length && stepped.framed_offset + stepped.framed_size <= length &&
           value.framed_offset + value.framed_size <= length && value.offset + value.size <= length &&
           value.offset2 + value.size2 <= length;
}

/* Every call that reads, at every place; and joining with the empty document, which refuses as the check does and else gives it back. */
static bool answers(const uint8_t *document, size_t length) {
    static const uint8_t empty[5] = {5, 0, 0, 0, 0};
    fringewell_verdict verdict = fringewell_check(document, length);
    fringewell_joined joined = fringewell_join(document, length, empty, sizeof empty, out_end - length, length);
    bool good = joined.number == verdict.number && joined.place == verdict.place && joined.which == (verdict.number != 0) &&
                (verdict.number != 0 || memcmp(document, out_end - length, length) == 0) && checked_under(document, length, verdict);
    fringewell_check_strict(document, length);
    fringewell_is_empty(document, length);
    fringewell_lookup(document, length, key_end - 1, 1);
    good = good && led(document, length);
    for (size_t place = 0; place <= length; place++) {
        fringewell_stepped stepped = fringewell_step(document, length, place, false);
        fringewell_value value = fringewell_read(document, length, place);
        good = good && inside(length, stepped, value) && agree(fringewell_next(document, length, place, false), stepped, value);
        for (int i = 0; i < LIMITS; i++) {
            good = good && stepped_under(document, length, place, limits[i], stepped, value);
        }
    }
    return good;
}

/* The front of `every_type`, as a document of its own length. */
static void cut(size_t length) {
    uint8_t *document = document_end - length;
    memcpy(document, every_type, length);
    EXPECT(answers(document, length));
    if (length >= 5) {
        put32(document, length);
        document_end[-1] = 0;
        EXPECT(answers(document, length));
    }
}

static void damage(size_t at, uint8_t byte) {
    uint8_t *document = document_end - sizeof every_type;
    memcpy(document, every_type, sizeof every_type);
    document[at] = byte;
    EXPECT(answers(document, sizeof every_type));
}

/* A text longer than the limit, behind the front of its element: only so many of its bytes as the limit and one more lie in front of the
 * page that cannot be touched, and the document ends behind that page. */
static void first_bytes(size_t limit, const uint8_t *front, size_t front_size) {
    size_t seen = 4 + front_size + limit + 1, length = seen + page_size + 1;
    uint8_t *document = document_end - seen;
    put32(document, length);
    memcpy(document + 4, front, front_size);
    memset(document + 4 + front_size, 'x', limit + 1);
    refused_under(document, length, limit, FRINGEWELL_TOO_LONG);
}

/* A writer whose buffer, key and text end at such pages, in every room up to what its document needs. */
static void write_in(size_t room) {
    uint8_t *out = out_end - room;
    fringewell_state state = fringewell_state_new();
    fringewell_state_open(&state, out, room);
    fringewell_state_open_array(&state, out, room, key_end - 1, 1);
    fringewell_state_append_string(&state, out, room, key_end - 1, 1, key_end - 1, 1);
    fringewell_state_append_object_id(&state, out, room, NOTHING, key_end - 12);
    fringewell_state_append_decimal128(&state, out, room, NOTHING, key_end - 16);
    fringewell_state_close(&state, out, room);
    fringewell_written closed = fringewell_state_close(&state, out, room);
    EXPECT_EQUAL(closed.number, room < 13 ? FRINGEWELL_OUT_OF_TURN : FRINGEWELL_OK); /* 4 + 3 + 4, and two zeros, for top and array */
    EXPECT(closed.number != 0 || fringewell_check_strict(out, closed.used).number == 0);
}

int main(void) {
    static const uint8_t bytes[] = {0, 1, 5, 0x7F, 0x80, 0xFF};
    page_size = (size_t)sysconf(_SC_PAGESIZE);
    document_end = page_end();
    out_end = page_end();
    key_end = page_end();
    EXPECT(document_end != NULL && out_end != NULL && key_end != NULL);
    if (failed > 0) {
        return held();
    }
    key_end[-1] = 'u';
    for (size_t length = 0; length <= sizeof every_type; length++) {
        cut(length);
        write_in(length);
    }
    for (size_t limit = 0; limit < 64; limit++) {
        first_bytes(limit, BYTES(0x0A));       /* the key */
        first_bytes(limit, BYTES(0x0B, 0));    /* the pattern, under an empty key */
        first_bytes(limit, BYTES(0x0B, 0, 0)); /* the options, behind an empty pattern */
    }
    for (size_t at = 0; at < sizeof every_type; at++) {
        for (size_t i = 0; i < sizeof bytes; i++) {
            damage(at, bytes[i]);
        }
    }
    return held();
}
