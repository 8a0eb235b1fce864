/* What the header has of its own for reading: the typed getters (RULES.md, "Values"), the words ("Numbers returned"), and the version. */
#include "samples.h"
#include "test.h"

/* What a getter writes to: filled before each call, to see that it stays where nothing is given. */
static union {
    double real;
    bool truth;
    int32_t int32;
    int64_t int64;
    fringewell_timestamp timestamp;
    fringewell_text text;
    fringewell_bytes bytes;
    fringewell_binary binary;
    fringewell_regex regex;
    uint8_t id[12];
    uint8_t all[40];
} out;

enum { GETTERS = 12 };

/* The type of each getter, by its row below. */
static const uint8_t tags[GETTERS] = {
    FRINGEWELL_TAG_DOUBLE,    FRINGEWELL_TAG_BOOL,   FRINGEWELL_TAG_INT32,    FRINGEWELL_TAG_INT64,
    FRINGEWELL_TAG_DATETIME,  FRINGEWELL_TAG_STRING, FRINGEWELL_TAG_DOCUMENT, FRINGEWELL_TAG_ARRAY,
    FRINGEWELL_TAG_TIMESTAMP, FRINGEWELL_TAG_BINARY, FRINGEWELL_TAG_REGEX,    FRINGEWELL_TAG_OBJECT_ID,
};

static uint32_t get(int row, const void *document, size_t length, const void *key, size_t key_length) {
    memset(&out, GUARD, sizeof out);
    switch (row) {
    case 0:
        return fringewell_get_double(document, length, key, key_length, &out.real);
    case 1:
        return fringewell_get_bool(document, length, key, key_length, &out.truth);
    case 2:
        return fringewell_get_int32(document, length, key, key_length, &out.int32);
    case 3:
        return fringewell_get_int64(document, length, key, key_length, &out.int64);
    case 4:
        return fringewell_get_datetime(document, length, key, key_length, &out.int64);
    case 5:
        return fringewell_get_string(document, length, key, key_length, &out.text);
    case 6:
        return fringewell_get_document(document, length, key, key_length, &out.bytes);
    case 7:
        return fringewell_get_array(document, length, key, key_length, &out.bytes);
    case 8:
        return fringewell_get_timestamp(document, length, key, key_length, &out.timestamp);
    case 9:
        return fringewell_get_binary(document, length, key, key_length, &out.binary);
    case 10:
        return fringewell_get_regex(document, length, key, key_length, &out.regex);
    default:
        return fringewell_get_object_id(document, length, key, key_length, out.id);
    }
}

static uint32_t by_path(int row, const void *document, size_t length, const void *path, size_t path_length) {
    memset(&out, GUARD, sizeof out);
    switch (row) {
    case 0:
        return fringewell_path_double(document, length, path, path_length, &out.real);
    case 1:
        return fringewell_path_bool(document, length, path, path_length, &out.truth);
    case 2:
        return fringewell_path_int32(document, length, path, path_length, &out.int32);
    case 3:
        return fringewell_path_int64(document, length, path, path_length, &out.int64);
    case 4:
        return fringewell_path_datetime(document, length, path, path_length, &out.int64);
    case 5:
        return fringewell_path_string(document, length, path, path_length, &out.text);
    case 6:
        return fringewell_path_document(document, length, path, path_length, &out.bytes);
    case 7:
        return fringewell_path_array(document, length, path, path_length, &out.bytes);
    case 8:
        return fringewell_path_timestamp(document, length, path, path_length, &out.timestamp);
    case 9:
        return fringewell_path_binary(document, length, path, path_length, &out.binary);
    case 10:
        return fringewell_path_regex(document, length, path, path_length, &out.regex);
    default:
        return fringewell_path_object_id(document, length, path, path_length, out.id);
    }
}

static uint32_t as(int row, fringewell_value value, const void *document) {
    memset(&out, GUARD, sizeof out);
    switch (row) {
    case 0:
        return fringewell_as_double(value, &out.real);
    case 1:
        return fringewell_as_bool(value, &out.truth);
    case 2:
        return fringewell_as_int32(value, &out.int32);
    case 3:
        return fringewell_as_int64(value, &out.int64);
    case 4:
        return fringewell_as_datetime(value, &out.int64);
    case 5:
        return fringewell_as_string(value, document, &out.text);
    case 6:
        return fringewell_as_document(value, document, &out.bytes);
    case 7:
        return fringewell_as_array(value, document, &out.bytes);
    case 8:
        return fringewell_as_timestamp(value, &out.timestamp);
    case 9:
        return fringewell_as_binary(value, document, &out.binary);
    case 10:
        return fringewell_as_regex(value, document, &out.regex);
    default:
        return fringewell_as_object_id(value, document, out.id);
    }
}

/* What was written last, of the element of `every_type` that has this getter's type; `at` is where its bytes begin. What is handed back as
 * a pointer lies there. */
static bool right(int row, const uint8_t *at) {
    static const uint8_t id[12] = {1, 2, 3, 4, 5, 6, 7, 8, 9, 10, 11, 12};
    const char *text = (const char *)at;
    switch (row) {
    case 0:
        return out.real == -2.5;
    case 1:
        return out.truth;
    case 2:
        return out.int32 == -7;
    case 3:
        return out.int64 == INT64_MIN;
    case 4:
        return out.int64 == -1000;
    case 5:
        return out.text.data == text + 22 && out.text.length == 3;
    case 6:
        return out.bytes.data == at + 29 && out.bytes.length == 8;
    case 7:
        return out.bytes.data == at + 40 && out.bytes.length == 12;
    case 8:
        return out.timestamp.increment == 0x01020304 && out.timestamp.seconds == 0xFEDCBA98;
    case 9:
        return out.binary.data == at + 60 && out.binary.length == 2 && out.binary.subtype == 0x80;
    case 10:
        return out.regex.pattern.data == text + 101 && out.regex.pattern.length == 2 && out.regex.options.data == text + 104 &&
               out.regex.options.length == 1;
    default:
        return memcmp(out.id, id, sizeof id) == 0;
    }
}

/* Refused, and nothing written. */
#define EXPECT_UNTOUCHED(call, number)   \
    do {                                 \
        EXPECT_EQUAL(call, number);      \
        EXPECT(guarded(WHOLE(out.all))); \
    } while (0)

/* Each getter, of each element of `every_type`: its value where it has this type, else 17. */
static void every_type_by(int row) {
    int met = 0;
    for (size_t i = 0; i < 21; i++) {
        const char key[1] = {(char)('a' + i)};
        if (every_value[i].tag == tags[row]) {
            EXPECT_EQUAL(get(row, WHOLE(every_type), key, 1), FRINGEWELL_OK);
            EXPECT(right(row, every_type));
            EXPECT_EQUAL(by_path(row, WHOLE(every_type), key, 1), FRINGEWELL_OK);
            EXPECT(right(row, every_type));
            EXPECT_EQUAL(as(row, every_value[i], every_type), FRINGEWELL_OK);
            EXPECT(right(row, every_type));
            met++;
        } else {
            EXPECT_UNTOUCHED(get(row, WHOLE(every_type), key, 1), FRINGEWELL_OTHER_TYPE);
            EXPECT_UNTOUCHED(by_path(row, WHOLE(every_type), key, 1), FRINGEWELL_OTHER_TYPE);
            EXPECT_UNTOUCHED(as(row, every_value[i], every_type), FRINGEWELL_OTHER_TYPE);
        }
    }
    EXPECT(met == 1);
}

/* Each getter by a path of two keys, where `every_type` is the document under `w`, which begins at 7. */
static void inside_by(int row) {
    static uint8_t outer[229];
    EXPECT_EQUAL(nest(outer, 1, BYTES(0x03, 'w', 0), every_type + 4, sizeof every_type - 5), sizeof outer);
    for (size_t i = 0; i < 21; i++) {
        const char keys[3] = {'w', 0, (char)('a' + i)};
        if (every_value[i].tag == tags[row]) {
            EXPECT_EQUAL(by_path(row, WHOLE(outer), WHOLE(keys)), FRINGEWELL_OK);
            EXPECT(right(row, outer + 7));
        } else {
            EXPECT_UNTOUCHED(by_path(row, WHOLE(outer), WHOLE(keys)), FRINGEWELL_OTHER_TYPE);
        }
    }
    EXPECT_UNTOUCHED(by_path(row, WHOLE(outer), TEXT("w\0x")), FRINGEWELL_ABSENT);
    EXPECT_UNTOUCHED(by_path(row, WHOLE(outer), TEXT("x\0w")), FRINGEWELL_ABSENT);
    EXPECT_UNTOUCHED(by_path(row, WHOLE(outer), TEXT("w\0j\0x")), FRINGEWELL_OTHER_TYPE); /* j is a null */
}

/* {a: a text FF, b: a boolean of 2, c: subtype 2 with data under four bytes, and a tag that is none} */
static const uint8_t damaged[32] = {
    32, 0, 0, 0,
    0x02, 'a', 0, 2, 0, 0, 0, 0xFF, 0,
    0x08, 'b', 0, 2,
    0x05, 'c', 0, 3, 0, 0, 0, 2, 0, 0, 0,
    0x14, 'd', 0,
    0,
};

/* The lookup's number, whatever the type; and of a refused value its own, also where its type is the getter's. */
static void refused(int row) {
    EXPECT_UNTOUCHED(get(row, WHOLE(every_type), TEXT("x")), FRINGEWELL_ABSENT);
    EXPECT_UNTOUCHED(get(row, NOTHING, TEXT("a")), FRINGEWELL_TOO_SHORT);
    EXPECT_UNTOUCHED(get(row, WHOLE(damaged), TEXT("a")), FRINGEWELL_NOT_UTF8);
    EXPECT_UNTOUCHED(get(row, WHOLE(damaged), TEXT("b")), FRINGEWELL_BAD_BOOLEAN);
    EXPECT_UNTOUCHED(get(row, WHOLE(damaged), TEXT("c")), FRINGEWELL_BAD_SHAPE);
    EXPECT_UNTOUCHED(get(row, WHOLE(damaged), TEXT("e")), FRINGEWELL_UNKNOWN_TAG);
    static const uint8_t zeros[201];
    EXPECT_UNTOUCHED(by_path(row, WHOLE(every_type), WHOLE(zeros)), FRINGEWELL_PATH_TOO_LONG);
    EXPECT_UNTOUCHED(by_path(row, NOTHING, TEXT("a")), FRINGEWELL_TOO_SHORT);
    EXPECT_UNTOUCHED(by_path(row, WHOLE(damaged), TEXT("b")), FRINGEWELL_BAD_BOOLEAN);
    EXPECT_UNTOUCHED(by_path(row, WHOLE(damaged), TEXT("b\0x")), FRINGEWELL_BAD_BOOLEAN);
    EXPECT_UNTOUCHED(by_path(row, WHOLE(damaged), TEXT("e\0x")), FRINGEWELL_UNKNOWN_TAG);
    static const uint32_t numbers[] = {FRINGEWELL_NOT_UTF8, FRINGEWELL_BAD_BOOLEAN, FRINGEWELL_BAD_SHAPE, FRINGEWELL_UNKNOWN_TAG};
    fringewell_element at = {.next = FRINGEWELL_START};
    for (size_t i = 0; i < sizeof numbers / sizeof *numbers; i++) {
        at = fringewell_next(WHOLE(damaged), at.next, at.ended);
        EXPECT_UNTOUCHED(as(row, at.value, damaged), numbers[i]);
    }
    EXPECT_UNTOUCHED(as(row, fringewell_lookup(WHOLE(every_type), TEXT("x")), every_type), FRINGEWELL_ABSENT);
}

/* An empty text has a place too; false is false; subtype 2 is without its inner length; the first of two elements counts. */
static void corners(void) {
    static const uint8_t empty_text[12] = {12, 0, 0, 0, 0x02, 0, 1, 0, 0, 0, 0, 0};
    static const uint8_t old_binary[17] = {17, 0, 0, 0, 0x05, 0, 5, 0, 0, 0, 2, 1, 0, 0, 0, 0xAA, 0};
    EXPECT_EQUAL(fringewell_get_string(WHOLE(empty_text), NOTHING, &out.text), FRINGEWELL_OK);
    EXPECT(out.text.data == (const char *)empty_text + 10 && out.text.length == 0);
    EXPECT_EQUAL(fringewell_get_bool(WHOLE(p12), TEXT("a"), &out.truth), FRINGEWELL_OK);
    EXPECT(!out.truth);
    EXPECT_EQUAL(fringewell_get_binary(WHOLE(old_binary), NOTHING, &out.binary), FRINGEWELL_OK);
    EXPECT(out.binary.data == old_binary + 15 && out.binary.length == 1 && out.binary.subtype == 2);
    EXPECT_EQUAL(fringewell_get_int32(BYTES(11, 0, 0, 0, 0x10, 0, 0, 0, 0, 0x80, 0), NOTHING, &out.int32), FRINGEWELL_OK);
    EXPECT(out.int32 == INT32_MIN);
    /* damage behind it is not seen */
    EXPECT_EQUAL(fringewell_get_int32(WHOLE(unframed), TEXT("battery"), &out.int32), FRINGEWELL_OK);
    EXPECT(out.int32 == 87);
}

/* 0 to 22 have a sentence each, in which the words stand that tell it (RULES.md, "Numbers returned"), and all other numbers have one
 * together. */
static void sentences(void) {
    static const char *const words[23] = {"nothing is refused", "under 5 bytes", "length differs", "last byte", "a step begins",
                                          "no zero byte", "not UTF-8", "tag", "length field", "past the slice",
                                          "end in zero", "boolean", "inner shape", "deeper than 200", "no room",
                                          "to write", "absent", "another type", "out of turn", "key of an array",
                                          "over 65,535 bytes", "more than 201 keys", "longer than the limit"};
    for (uint32_t a = 0; a <= 22; a++) {
        const char *sentence = fringewell_describe(a);
        EXPECT(sentence != NULL && strstr(sentence, words[a]) != NULL);
        for (uint32_t b = 0; b < a; b++) {
            EXPECT(strcmp(sentence, fringewell_describe(b)) != 0);
        }
    }
    for (uint32_t number = 23; number <= 1000; number++) {
        EXPECT(strcmp(fringewell_describe(number), "this is no number of the library") == 0);
    }
    EXPECT(strcmp(fringewell_describe(UINT32_MAX), "this is no number of the library") == 0);
}

/* The 21 tags by their names, in the order of `every_type`; all others are unknown. */
static void tag_names(void) {
    static const char *const names[21] = {"double", "string", "document", "array", "binary", "undefined", "object id", "bool",
                                          "datetime", "null", "regex", "dbpointer", "code", "symbol", "code with scope", "int32",
                                          "timestamp", "int64", "decimal128", "min key", "max key"};
    int known = 0;
    for (int i = 0; i < 21; i++) {
        EXPECT(strcmp(fringewell_tag_name(every_value[i].tag), names[i]) == 0);
    }
    for (unsigned tag = 0; tag <= UINT8_MAX; tag++) {
        known += strcmp(fringewell_tag_name((uint8_t)tag), "unknown") != 0;
    }
    EXPECT(known == 21);
}

/* The library's is the header's, and its three parts make the text. */
static void version(void) {
    uint32_t number = fringewell_version();
    char text[40];
    EXPECT_EQUAL(number, FRINGEWELL_VERSION_NUMBER);
    snprintf(text, sizeof text, "%" PRIu32 ".%" PRIu32 ".%" PRIu32, number / 1000000, number / 1000 % 1000, number % 1000);
    EXPECT(strcmp(text, FRINGEWELL_VERSION) == 0);
}

int main(void) {
    for (int row = 0; row < GETTERS; row++) {
        every_type_by(row);
        inside_by(row);
        refused(row);
    }
    corners();
    sentences();
    tag_names();
    version();
    return held();
}
