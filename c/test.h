/* Expectations: each is counted; one that is not held is printed with file and line, and makes the program fail. */
#ifndef TEST_H
#define TEST_H

#include <fringewell.h>
#include <inttypes.h>
#include <stdio.h>

static unsigned long expected, failed;

static inline void expect_at(bool held, const char *what, const char *file, int line) {
    expected++;
    if (!held) {
        failed++;
        printf("%s:%d: not held: %s\n", file, line, what);
    }
}

static inline void expect_equal_at(uint64_t got, uint64_t want, const char *what, const char *file, int line) {
    expected++;
    if (got != want) {
        failed++;
        printf("%s:%d: %s is %" PRIu64 ", expected %" PRIu64 "\n", file, line, what, got, want);
    }
}

#define EXPECT(fact) expect_at((fact), #fact, __FILE__, __LINE__)
#define EXPECT_EQUAL(got, want) expect_equal_at((got), (want), #got, __FILE__, __LINE__)

/* A slice as the two arguments of a call: of bytes written out, of a text, of an array, and the empty one. */
#define BYTES(...) (const uint8_t[]){__VA_ARGS__}, sizeof((const uint8_t[]){__VA_ARGS__})
#define TEXT(text) FRINGEWELL_TEXT(text)
#define WHOLE(array) array, sizeof(array)
#define NOTHING NULL, 0

/* The fields of each answer. Answers are compared by them, since there may be bytes between. */
#define FIELDS_verdict(each) each(number) each(place) each(count)
#define FIELDS_value(each)                                                                   \
    each(number) each(tag) each(place) each(framed_offset) each(framed_size)                 \
    each(bits) each(offset) each(size) each(offset2) each(size2)
#define FIELDS_stepped(each)                                                                 \
    each(number) each(tag) each(ended) each(place) each(next)                                \
    each(key_offset) each(key_size) each(framed_offset) each(framed_size)
#define FIELDS_element(each)                                                                 \
    each(value.number) each(value.tag) each(value.place)                                     \
    each(value.framed_offset) each(value.framed_size) each(value.bits)                       \
    each(value.offset) each(value.size) each(value.offset2) each(value.size2)                \
    each(key_offset) each(key_size) each(next) each(ended)
#define FIELDS_joined(each) each(number) each(which) each(place) each(length)
#define FIELDS_written(each) each(number) each(used)

#define EXPECT_FIELD(field) expect_equal_at(got.field, want.field, #field, file, line);
#define AND_SAME_FIELD(field) && a.field == b.field

/* Of an answer: that it is as expected, and whether two are the same. */
#define ANSWER(name)                                                                                                \
    static inline void expect_##name(fringewell_##name got, fringewell_##name want, const char *file, int line) {   \
        FIELDS_##name(EXPECT_FIELD)                                                                                 \
    }                                                                                                               \
    static inline bool same_##name(fringewell_##name a, fringewell_##name b) {                                      \
        return true FIELDS_##name(AND_SAME_FIELD);                                                                  \
    }

ANSWER(verdict)
ANSWER(value)
ANSWER(stepped)
ANSWER(element)
ANSWER(joined)
ANSWER(written)

/* Whole answers. What is not named is 0. */
#define VALUE(...) ((fringewell_value){__VA_ARGS__})
#define STEPPED(...) ((fringewell_stepped){__VA_ARGS__})
#define ELEMENT(...) ((fringewell_element){__VA_ARGS__})
#define JOINED(...) ((fringewell_joined){__VA_ARGS__})

#define EXPECT_VERDICT(call, number_, place_, count_) \
    expect_verdict((call), (fringewell_verdict){(number_), (place_), (count_)}, __FILE__, __LINE__)
#define EXPECT_VALUE(call, want) expect_value((call), (want), __FILE__, __LINE__)
#define EXPECT_NO_VALUE(call, number_, place_) EXPECT_VALUE(call, VALUE(.number = (number_), .place = (place_)))
#define EXPECT_STEPPED(call, want) expect_stepped((call), (want), __FILE__, __LINE__)
#define EXPECT_ELEMENT(call, want) expect_element((call), (want), __FILE__, __LINE__)
#define EXPECT_JOINED(call, want) expect_joined((call), (want), __FILE__, __LINE__)
#define EXPECT_WRITTEN(call, number_, used_) expect_written((call), (fringewell_written){(number_), (used_)}, __FILE__, __LINE__)

/* Neither a step nor a step with a reading yields an element: the end, or a refusal. The mark is set, and the offset kept. */
static inline void expect_none(fringewell_stepped step, fringewell_element next, size_t offset, uint32_t number, size_t place,
                               const char *file, int line) {
    expect_stepped(step, STEPPED(.number = number, .place = place, .next = offset, .ended = true), file, line);
    expect_element(next, ELEMENT(.value = {.number = number, .place = place}, .next = offset, .ended = true), file, line);
}

static inline void expect_no_element(const void *document, size_t length, size_t offset, bool ended, uint32_t number, size_t place,
                                     const char *file, int line) {
    expect_none(fringewell_step(document, length, offset, ended), fringewell_next(document, length, offset, ended), offset, number, place,
                file, line);
}

static inline void expect_no_element_under(const void *document, size_t length, size_t offset, bool ended, size_t limit, uint32_t number,
                                           size_t place, const char *file, int line) {
    expect_none(fringewell_step_under(document, length, offset, ended, limit),
                fringewell_next_under(document, length, offset, ended, limit), offset, number, place, file, line);
}

#define EXPECT_NO_ELEMENT(...) expect_no_element(__VA_ARGS__, __FILE__, __LINE__)
#define EXPECT_NO_ELEMENT_UNDER(...) expect_no_element_under(__VA_ARGS__, __FILE__, __LINE__)

/* Every call under a limit, of a document whose first step is refused: by this number, at 4. */
static inline void refused_under(const uint8_t *document, size_t length, size_t limit, uint32_t number) {
    EXPECT_VERDICT(fringewell_check_under(document, length, limit), number, 4, 0);
    EXPECT_VERDICT(fringewell_check_strict_under(document, length, limit), number, 4, 0);
    EXPECT_NO_VALUE(fringewell_lookup_under(document, length, TEXT("q"), limit), number, 4);
    EXPECT_NO_VALUE(fringewell_lookup_typed_under(document, length, TEXT("q"), FRINGEWELL_TAG_NULL, limit), number, 4);
    EXPECT_NO_VALUE(fringewell_path_under(document, length, TEXT("q\0q"), limit), number, 4);
    EXPECT_NO_VALUE(fringewell_path_typed_under(document, length, TEXT("q\0q"), FRINGEWELL_TAG_NULL, limit), number, 4);
    EXPECT_NO_ELEMENT_UNDER(document, length, 4, false, limit, number, 4);
    EXPECT_NO_VALUE(fringewell_read_under(document, length, 4, limit), number, 4);
}

/* Lent buffers are filled with this, to see that what is not written stays. */
enum { GUARD = 0xA5 };

static inline bool guarded(const uint8_t *at, size_t size) {
    while (size > 0 && *at == GUARD) {
        at++;
        size--;
    }
    return size == 0;
}

/* What main returns. */
static inline int held(void) {
    printf("%lu expectations, %lu not held\n", expected, failed);
    return failed == 0 ? 0 : 1;
}

#endif
