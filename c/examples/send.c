/* Writes a document, and sends it: to standard output, in hexadecimal. */
#include <fringewell.h>
#include <stdio.h>

int main(void) {
    /* {station: "Bremen", rssi: -97, celsius: [21, 19]} */
    uint8_t out[256];
    fringewell_writer writer;
    fringewell_writer_open(&writer, out, sizeof out);
    fringewell_append_string(&writer, FRINGEWELL_TEXT("station"), FRINGEWELL_TEXT("Bremen"));
    fringewell_append_int32(&writer, FRINGEWELL_TEXT("rssi"), -97);
    fringewell_writer_open_array(&writer, FRINGEWELL_TEXT("celsius"));
    fringewell_append_int32(&writer, NULL, 0, 21); /* an array's keys are made for it */
    fringewell_append_int32(&writer, NULL, 0, 19);
    fringewell_writer_close(&writer);

    if (fringewell_writer_close(&writer) != FRINGEWELL_OK) {
        printf("not written: %s\n", fringewell_describe(writer.number));
        return 1;
    }
    for (size_t i = 0; i < writer.length; i++) {
        printf("%02x%c", out[i], i % 16 == 15 || i + 1 == writer.length ? '\n' : ' ');
    }
    return 0;
}
