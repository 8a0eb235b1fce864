/* Checks a frame, and prints the battery that is in it, under `power`. */
#include <fringewell.h>
#include <stdio.h>

int main(void) {
    /* {power: {battery: 7412}} */
    const uint8_t frame[] = {30, 0, 0, 0, 0x03, 'p', 'o', 'w', 'e', 'r', 0, 18, 0, 0, 0, 0x10,
                             'b', 'a', 't', 't', 'e', 'r', 'y', 0, 0xF4, 0x1C, 0, 0, 0, 0};

    fringewell_verdict verdict = fringewell_check(frame, sizeof frame);
    if (verdict.number != FRINGEWELL_OK) {
        printf("refused at %zu: %s\n", verdict.place, fringewell_describe(verdict.number));
        return 1;
    }
    int32_t battery;
    uint32_t number = fringewell_path_int32(frame, sizeof frame,
                                            FRINGEWELL_PATH("power", "battery"), &battery);
    if (number != FRINGEWELL_OK) {
        printf("no battery: %s\n", fringewell_describe(number));
        return 1;
    }
    printf("battery %d mV\n", battery);
    return 0;
}
