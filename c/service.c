/* A ground station's service: takes one frame from standard input, checks it under a limit on key length, looks up the battery under
 * `power`, and joins the receiver's own fields behind it. Exit status: 0 the frame is shown, 1 it is refused, 2 it could not be read or
 * joined. */
#include <fringewell.h>
#include <inttypes.h>
#include <stdio.h>

enum { LONGEST_FRAME = 65535, LONGEST_KEY = 64, FIELDS = 64 };

static int refused(uint32_t number, size_t place) {
    printf("refused: %" PRIu32 " at %zu, %s; nothing is shown\n", number, place, fringewell_describe(number));
    return 1;
}

/* Millivolts as an int32, or, where it is of another type, volts as a double. */
static void show_battery(const uint8_t *frame, size_t length) {
    int32_t millivolts;
    double volts;
    uint32_t number = fringewell_path_int32(frame, length, FRINGEWELL_PATH("power", "battery"), &millivolts);
    if (number == FRINGEWELL_OK) {
        printf("battery: %" PRId32 " mV\n", millivolts);
        return;
    }
    if (number == FRINGEWELL_OTHER_TYPE) {
        number = fringewell_path_double(frame, length, FRINGEWELL_PATH("power", "battery"), &volts);
    }
    if (number == FRINGEWELL_OK) {
        printf("battery: %.3f V\n", volts);
    } else {
        printf("battery: none, %" PRIu32 ", %s\n", number, fringewell_describe(number));
    }
}

/* What the receiver knows of the frame. Returns the length of the document, or 0 where a call was refused. */
static size_t write_fields(uint8_t *out, size_t size) {
    fringewell_writer writer;
    fringewell_writer_open(&writer, out, size);
    fringewell_append_string(&writer, FRINGEWELL_TEXT("station"), FRINGEWELL_TEXT("Bremen"));
    fringewell_append_int32(&writer, FRINGEWELL_TEXT("rssi"), -97);
    fringewell_append_datetime(&writer, FRINGEWELL_TEXT("received"), 1794715680000);
    fringewell_writer_close(&writer);
    return writer.length;
}

/* The fields lie where the frame's terminator was, to the new end. */
static void show_fields(const uint8_t *document, size_t length, size_t from) {
    fringewell_element at = fringewell_next(document, length, from, false);
    for (; !at.ended; at = fringewell_next(document, length, at.next, at.ended)) {
        const char *key = (const char *)document + at.key_offset;
        printf("%.*s at %zu, %s\n", (int)at.key_size, key, at.value.place, fringewell_tag_name(at.value.tag));
    }
}

int main(void) {
    static uint8_t frame[LONGEST_FRAME + 1], fields[FIELDS], out[LONGEST_FRAME + FIELDS];
    size_t length = fread(frame, 1, sizeof frame, stdin);
    if (ferror(stdin)) {
        printf("unread, nothing is shown\n");
        return 2;
    }
    if (length > LONGEST_FRAME) {
        return refused(FRINGEWELL_INPUT_TOO_LONG, 0);
    }
    /* a damaged frame may have keys of thousands of bytes */
    fringewell_verdict checked = fringewell_check_under(frame, length, LONGEST_KEY);
    if (checked.number != FRINGEWELL_OK) {
        return refused(checked.number, checked.place);
    }
    printf("frame: length %zu, values %zu\n", length, checked.count);
    show_battery(frame, length);

    size_t fields_length = write_fields(fields, sizeof fields);
    fringewell_joined joined = fringewell_join(frame, length, fields, fields_length, out, sizeof out);
    fringewell_verdict whole = fringewell_check(out, joined.length);
    if (joined.number != FRINGEWELL_OK || whole.number != FRINGEWELL_OK) {
        printf("not joined: %" PRIu32 ", %s\n", joined.number, fringewell_describe(joined.number));
        return 2;
    }
    printf("joined: length %zu, values %zu\n", joined.length, whole.count);
    show_fields(out, joined.length, length - 1);
    return 0;
}
