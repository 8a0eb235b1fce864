/* Every text of up to three bytes, and every one of four telling bytes, passes the check exactly where another decoder reads it: one that
 * makes each character's number from its bits, and then asks whether that number is a character's, and not too small for its bytes (RFC
 * 3629, section 3). Those of telling bytes are tried with letters before and behind them too, so that the library goes each of its ways
 * through a text. */
#include "samples.h"
#include "test.h"

/* The ends of the ranges of RFC 3629's table, and their neighbours. */
static const uint8_t telling[] = {0x00, 0x7F, 0x80, 0x8F, 0x90, 0x9F, 0xA0, 0xBF, 0xC0, 0xC1, 0xC2, 0xDF,
                                  0xE0, 0xE1, 0xEC, 0xED, 0xEE, 0xEF, 0xF0, 0xF1, 0xF3, 0xF4, 0xF5, 0xFF};
enum { MANY = sizeof telling, MOST = 96 };

/* The size of the character that stands first, or 0 where none does. */
static size_t character(const uint8_t *text, size_t left) {
    static const uint32_t least[] = {0, 0, 0x80, 0x800, 0x10000};
    size_t size = text[0] < 0x80 ? 1 : text[0] >> 5 == 6 ? 2 : text[0] >> 4 == 14 ? 3 : text[0] >> 3 == 30 ? 4 : 0;
    if (size < 2 || left < size) {
        return size < 2 ? size : 0;
    }
    uint32_t number = text[0] & (0x7F >> size);
    for (size_t i = 1; i < size; i++) {
        if (text[i] >> 6 != 2) {
            return 0;
        }
        number = number << 6 | (text[i] & 0x3F);
    }
    bool surrogate = number >= 0xD800 && number <= 0xDFFF;
    return number >= least[size] && number <= 0x10FFFF && !surrogate ? size : 0;
}

static bool decodes(const uint8_t *text, size_t size) {
    size_t read = 0, one = 1;
    while (read < size && one > 0) {
        one = character(text + read, size - read);
        read += one;
    }
    return one > 0;
}

static unsigned long passed;

/* A string under the key `a`: 4 + 1 + 2 + 4 + size + 1 + 1 bytes. */
static void try_text(const uint8_t *text, size_t size) {
    static uint8_t document[MOST + 13] = {[4] = FRINGEWELL_TAG_STRING, [5] = 'a'};
    put32(document, size + 13);
    put32(document + 7, size + 1);
    memcpy(document + 11, text, size);
    memset(document + 11 + size, 0, 2);
    fringewell_verdict verdict = fringewell_check(document, size + 13);
    bool read = decodes(text, size);
    passed += verdict.number == 0;
    bool alike = verdict.number == (read ? 0 : FRINGEWELL_NOT_UTF8) && verdict.place == (read ? 0 : 4) && verdict.count == read;
    expected++;
    if (!alike && failed++ < 5) {
        printf("a text of %zu bytes, of which the other decoder says %d: %" PRIu32 " at %zu:", size, read, verdict.number, verdict.place);
        for (size_t i = 0; i < size; i++) {
            printf(" %02X", text[i]);
        }
        printf("\n");
    }
}

static void up_to_three_bytes(void) {
    for (size_t size = 0; size <= 3; size++) {
        for (uint32_t number = 0; number < (uint32_t)1 << (8 * size); number++) {
            uint8_t text[] = {(uint8_t)(number >> 16), (uint8_t)(number >> 8), (uint8_t)number};
            try_text(text + 3 - size, size);
        }
    }
    /* as many as there are ways to put characters together: 1,920 have two bytes, and 63,488 less 2,048 surrogates have three */
    EXPECT_EQUAL(passed, 1 + 128 + (128 * 128 + 1920) + (128 * 128 * 128 + 2 * 128 * 1920 + 63488 - 2048));
}

/* Behind another text, and with so many letters behind it. */
static void four_bytes_among(const char *before, size_t behind) {
    uint8_t text[MOST];
    size_t size = strlen(before);
    memset(text, 'l', sizeof text);
    memcpy(text, before, size);
    for (uint32_t number = 0; number < MANY * MANY * MANY * MANY; number++) {
        for (uint32_t i = 0, rest = number; i < 4; i++, rest /= MANY) {
            text[size + i] = telling[rest % MANY];
        }
        try_text(text, size + 4 + behind);
    }
}

int main(void) {
    up_to_three_bytes();
    four_bytes_among("", 0);
    /* in two blocks of eight bytes, and in two of 32 */
    four_bytes_among("orbit 7", 0);
    four_bytes_among("All panels are in the sunlight", 1);
    /* at the front of a long text, and at its end */
    four_bytes_among("", 64);
    four_bytes_among("Gr\u00FC\u00DFe aus 520 km H\u00F6he: alle Systeme sind im gr\u00FCnen Bereich", 0);
    return held();
}
