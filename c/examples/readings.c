/* Prints all readings of an array, and which of its values is none. */
#include <fringewell.h>
#include <stdio.h>

int main(void) {
    /* {celsius: [21, -7, null, 19]} */
    const uint8_t frame[] = {43, 0, 0, 0, 0x04, 'c', 'e', 'l', 's', 'i', 'u', 's', 0, 29, 0, 0,
                             0, 0x10, '0', 0, 21, 0, 0, 0, 0x10, '1', 0, 0xF9, 0xFF, 0xFF,
                             0xFF, 0x0A, '2', 0, 0x10, '3', 0, 19, 0, 0, 0, 0, 0};

    fringewell_bytes array;
    uint32_t number = fringewell_check(frame, sizeof frame).number;
    if (number == FRINGEWELL_OK) {
        number = fringewell_get_array(frame, sizeof frame, FRINGEWELL_TEXT("celsius"), &array);
    }
    if (number != FRINGEWELL_OK) {
        printf("no readings: %s\n", fringewell_describe(number));
        return 1;
    }
    fringewell_element at = fringewell_next(array.data, array.length, FRINGEWELL_START, false);
    for (; !at.ended; at = fringewell_next(array.data, array.length, at.next, at.ended)) {
        int32_t celsius;
        if (fringewell_as_int32(at.value, &celsius) == FRINGEWELL_OK) {
            printf("%d degrees\n", celsius);
        } else {
            printf("no reading: %s\n", fringewell_tag_name(at.value.tag));
        }
    }
    return 0;
}
