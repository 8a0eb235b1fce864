/* The header alone, included twice, as C and as C++. What one call answers goes into the next without a cast, and so do a key's letters and
 * its bytes. */
#include <fringewell.h>
#include <fringewell.h>
#include <stdio.h>

/* {n: 5, t: "hi"} */
static const uint8_t document[] = {22, 0, 0, 0, 0x10, 'n', 0, 5, 0, 0, 0, 0x02, 't', 0, 3, 0, 0, 0, 'h', 'i', 0, 0};
static const size_t length = sizeof document;

/* {a: [{n: 5}]} */
static const uint8_t inside[] = {28, 0, 0, 0, 0x04, 'a', 0, 20, 0, 0, 0, 0x03, '0', 0, 12, 0, 0, 0, 0x10, 'n', 0, 5, 0, 0, 0, 0, 0, 0};

static bool looks_up(void) {
    const char *letter = "n";
    const uint8_t byte[] = {'n'};
    fringewell_value found = fringewell_lookup(document, length, letter, strlen(letter));
    fringewell_value typed = fringewell_lookup_typed(document, length, byte, sizeof byte, found.tag);
    fringewell_value there = fringewell_read(document, length, typed.place);
    fringewell_value under = fringewell_read_under(document, length, found.place, there.framed_size);
    return fringewell_typed(under, found.tag) == FRINGEWELL_OK && under.bits == 5;
}

/* A digit behind a zero byte is a key of its own. */
static bool goes_along(void) {
    const uint8_t bytes[] = {'a', 0, '0', 0, 'n'};
    int32_t n = 0;
    fringewell_bytes array = {NULL, 0};
    fringewell_value found = fringewell_path(inside, sizeof inside, FRINGEWELL_PATH("a", "0", "n"));
    fringewell_value typed = fringewell_path_typed(inside, sizeof inside, bytes, sizeof bytes, found.tag);
    fringewell_value under = fringewell_path_under(inside, sizeof inside, FRINGEWELL_TEXT("a\0" "0\0" "n"), typed.framed_size);
    fringewell_value both = fringewell_path_typed_under(inside, sizeof inside, bytes, sizeof bytes, under.tag, under.framed_size);
    return both.number == FRINGEWELL_OK && both.bits == 5 && both.place == 18 &&
           fringewell_path_int32(inside, sizeof inside, FRINGEWELL_PATH("a", "0", "n"), &n) == FRINGEWELL_OK && n == 5 &&
           fringewell_path_array(inside, sizeof inside, FRINGEWELL_PATH("a"), &array) == FRINGEWELL_OK && array.length == 20 &&
           fringewell_path(inside, sizeof inside, FRINGEWELL_PATH("1", "2", "3", "4", "5", "6", "7", "8")).number == FRINGEWELL_ABSENT;
}

static bool iterates(void) {
    size_t steps = 0, elements = 0;
    fringewell_stepped step = fringewell_step(document, length, FRINGEWELL_START, false);
    for (; !step.ended; step = fringewell_step(document, length, step.next, step.ended))
        steps++;
    fringewell_element at = fringewell_next(document, length, FRINGEWELL_START, false);
    for (; !at.ended; at = fringewell_next_under(document, length, at.next, at.ended, at.key_size))
        elements += fringewell_lookup(document, length, document + at.key_offset, at.key_size).number == at.value.number;
    return steps == 2 && elements == 2 && step.number == FRINGEWELL_OK && at.value.number == FRINGEWELL_OK;
}

static bool gets_typed(void) {
    int32_t n = 0;
    fringewell_text text = {NULL, 0};
    fringewell_value value = fringewell_lookup(document, length, FRINGEWELL_TEXT("t"));
    return fringewell_get_int32(document, length, FRINGEWELL_TEXT("n"), &n) == FRINGEWELL_OK && n == 5 &&
           fringewell_get_string(document, length, FRINGEWELL_TEXT("t"), &text) == FRINGEWELL_OK &&
           fringewell_as_string(value, document, &text) == FRINGEWELL_OK && text.length == 2 && memcmp(text.data, "hi", 2) == 0 &&
           strcmp(fringewell_tag_name(value.tag), "string") == 0 && strcmp(fringewell_describe(value.number), "nothing is refused") == 0;
}

/* The document again, by a writer, from what was got of it; and by the calls on a state, up to its length. */
static bool writes(void) {
    uint8_t out[sizeof document];
    char letters[sizeof document];
    fringewell_text text = {NULL, 0};
    fringewell_writer writer;
    fringewell_state state = fringewell_state_new();
    fringewell_writer_open(&writer, out, sizeof out);
    fringewell_append_int32(&writer, "n", 1, 5);
    fringewell_get_string(document, length, "t", 1, &text);
    fringewell_append_string(&writer, FRINGEWELL_TEXT("t"), text.data, text.length);
    bool written = fringewell_writer_close(&writer) == FRINGEWELL_OK && memcmp(out, document, writer.length) == 0;
    fringewell_written opened = fringewell_state_open(&state, letters, sizeof letters);
    fringewell_joined joined = fringewell_join(out, writer.length, document, length, letters, opened.used);
    return written && fringewell_check(out, writer.length).count == 2 && joined.number == FRINGEWELL_NO_ROOM;
}

static bool versions(void) {
    char text[40];
    snprintf(text, sizeof text, "%d.%d.%d", FRINGEWELL_VERSION_MAJOR, FRINGEWELL_VERSION_MINOR, FRINGEWELL_VERSION_PATCH);
    return strcmp(text, FRINGEWELL_VERSION) == 0 && fringewell_version() == FRINGEWELL_VERSION_NUMBER;
}

int main(void) {
    bool doubles = fringewell_bits_double(fringewell_double_bits(1.5)) == 1.5;
    return looks_up() && goes_along() && iterates() && gets_typed() && writes() && versions() && doubles ? 0 : 1;
}
