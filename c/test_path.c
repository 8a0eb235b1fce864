/* Paths: one lookup after another (RULES.md, request 1). */
#include "samples.h"
#include "test.h"

/* {p: {b: 7, c: [1, {v: 2}]}, n: 5, s: a code g with the scope {y: null}}. In front of each line: the offset of its first byte. */
static const uint8_t nested[78] = {
    /*  0 */ 78, 0, 0, 0,
    /*  4 */ 0x03, 'p', 0, 42, 0, 0, 0,
    /* 11 */ 0x10, 'b', 0, 7, 0, 0, 0,
    /* 18 */ 0x04, 'c', 0, 27, 0, 0, 0,
    /* 25 */ 0x10, '0', 0, 1, 0, 0, 0,
    /* 32 */ 0x03, '1', 0, 12, 0, 0, 0,
    /* 39 */ 0x10, 'v', 0, 2, 0, 0, 0,
    /* 46 */ 0, 0, 0, /* of {v: 2}, of the array, of p */
    /* 49 */ 0x10, 'n', 0, 5, 0, 0, 0,
    /* 56 */ 0x0F, 's', 0, 18, 0, 0, 0, 2, 0, 0, 0, 'g', 0, 8, 0, 0, 0, 0x0A, 'y', 0, 0,
    /* 77 */ 0,
};

/* What is found: an int32, and a document or an array, whose part is all of its framed bytes. */
static fringewell_value int32_at(size_t place, size_t framed, uint64_t bits) {
    return VALUE(.tag = FRINGEWELL_TAG_INT32, .place = place, .framed_offset = framed, .framed_size = 4, .bits = bits);
}

static fringewell_value part_at(uint8_t tag, size_t place, size_t framed, size_t size) {
    return VALUE(.tag = tag, .place = place, .framed_offset = framed, .framed_size = size, .offset = framed, .size = size);
}

#define NESTED WHOLE(nested)

/* Places and parts are those of the whole document, at every level; the last value may be of any type. */
static void present(void) {
    EXPECT_VALUE(fringewell_path(NESTED, TEXT("n")), int32_at(49, 52, 5));
    EXPECT_VALUE(fringewell_path(NESTED, TEXT("p")), part_at(FRINGEWELL_TAG_DOCUMENT, 4, 7, 42));
    EXPECT_VALUE(fringewell_path(NESTED, TEXT("p\0b")), int32_at(11, 14, 7));
    EXPECT_VALUE(fringewell_path(NESTED, TEXT("p\0c")), part_at(FRINGEWELL_TAG_ARRAY, 18, 21, 27));
    EXPECT_VALUE(fringewell_path(NESTED, TEXT("p\0c\0" "0")), int32_at(25, 28, 1));
    EXPECT_VALUE(fringewell_path(NESTED, TEXT("p\0c\0" "1")), part_at(FRINGEWELL_TAG_DOCUMENT, 32, 35, 12));
    EXPECT_VALUE(fringewell_path(NESTED, TEXT("p\0c\0" "1\0v")), int32_at(39, 42, 2));
    EXPECT_VALUE(fringewell_path(NESTED, TEXT("s")),
                 VALUE(.tag = FRINGEWELL_TAG_CODE_WITH_SCOPE, .place = 56, .framed_offset = 59, .framed_size = 18, .offset = 67, .size = 1,
                       .offset2 = 69, .size2 = 8));
}

/* 16 at the terminator of the document or array that was searched; a longer key, and one that is not UTF-8, match nothing. */
static void absent(void) {
    EXPECT_NO_VALUE(fringewell_path(NESTED, TEXT("x")), FRINGEWELL_ABSENT, 77);
    EXPECT_NO_VALUE(fringewell_path(NESTED, TEXT("b")), FRINGEWELL_ABSENT, 77); /* b lies inside p */
    EXPECT_NO_VALUE(fringewell_path(NESTED, TEXT("x\0b")), FRINGEWELL_ABSENT, 77);
    EXPECT_NO_VALUE(fringewell_path(NESTED, TEXT("p\0x")), FRINGEWELL_ABSENT, 48);
    EXPECT_NO_VALUE(fringewell_path(NESTED, TEXT("p\0n")), FRINGEWELL_ABSENT, 48); /* n lies outside */
    EXPECT_NO_VALUE(fringewell_path(NESTED, TEXT("p\0bb")), FRINGEWELL_ABSENT, 48);
    EXPECT_NO_VALUE(fringewell_path(NESTED, TEXT("p\0\xFF")), FRINGEWELL_ABSENT, 48);
    EXPECT_NO_VALUE(fringewell_path(NESTED, TEXT("p\0x\0v")), FRINGEWELL_ABSENT, 48);
    EXPECT_NO_VALUE(fringewell_path(NESTED, TEXT("p\0c\0" "2")), FRINGEWELL_ABSENT, 47);
    EXPECT_NO_VALUE(fringewell_path(NESTED, TEXT("p\0c\0" "1\0x")), FRINGEWELL_ABSENT, 46);
    EXPECT_NO_VALUE(fringewell_path(BYTES(5, 0, 0, 0, 0), TEXT("p\0b")), FRINGEWELL_ABSENT, 4);
}

/* 17 at a value on the way that is neither document nor array, however many keys are left; a scope is not entered. */
static void not_entered(void) {
    EXPECT_NO_VALUE(fringewell_path(NESTED, TEXT("n\0b")), FRINGEWELL_OTHER_TYPE, 49);
    EXPECT_NO_VALUE(fringewell_path(NESTED, TEXT("n\0b\0c\0d")), FRINGEWELL_OTHER_TYPE, 49);
    EXPECT_NO_VALUE(fringewell_path(NESTED, TEXT("p\0b\0x")), FRINGEWELL_OTHER_TYPE, 11);
    EXPECT_NO_VALUE(fringewell_path(NESTED, TEXT("p\0c\0" "0\0v")), FRINGEWELL_OTHER_TYPE, 25);
    EXPECT_NO_VALUE(fringewell_path(NESTED, TEXT("p\0c\0" "1\0v\0x")), FRINGEWELL_OTHER_TYPE, 39);
    EXPECT_NO_VALUE(fringewell_path(NESTED, TEXT("s\0y")), FRINGEWELL_OTHER_TYPE, 56);
    /* of every type but document and array, c and d */
    for (size_t i = 0; i < 21; i++) {
        const char path[3] = {(char)('a' + i), 0, 'z'};
        bool document = every_value[i].tag == FRINGEWELL_TAG_DOCUMENT, array = every_value[i].tag == FRINGEWELL_TAG_ARRAY;
        EXPECT_VALUE(fringewell_path(WHOLE(every_type), path, 1), every_value[i]);
        if (!document && !array) {
            EXPECT_NO_VALUE(fringewell_path(WHOLE(every_type), WHOLE(path)), FRINGEWELL_OTHER_TYPE, every_value[i].place);
        }
    }
    EXPECT_NO_VALUE(fringewell_path(WHOLE(every_type), TEXT("c\0z")), FRINGEWELL_ABSENT, 36);
    EXPECT_NO_VALUE(fringewell_path(WHOLE(every_type), TEXT("d\0z")), FRINGEWELL_ABSENT, 51);
}

/* The path is split at every zero byte: first, last and doubled ones make empty keys, and no key holds one. */
static void zeros(void) {
    static uint8_t empty_keys[25]; /* {"": {"": {"": 9}}}: documents at 6 and 12, each of 7 bytes more than the one inside it */
    EXPECT_NO_VALUE(fringewell_path(NESTED, NOTHING), FRINGEWELL_ABSENT, 77);
    EXPECT_NO_VALUE(fringewell_path(NESTED, TEXT("\0")), FRINGEWELL_ABSENT, 77);
    EXPECT_NO_VALUE(fringewell_path(NESTED, TEXT("\0p")), FRINGEWELL_ABSENT, 77);
    EXPECT_NO_VALUE(fringewell_path(NESTED, TEXT("p\0")), FRINGEWELL_ABSENT, 48);
    EXPECT_NO_VALUE(fringewell_path(NESTED, TEXT("p\0\0b")), FRINGEWELL_ABSENT, 48);
    EXPECT_NO_VALUE(fringewell_path(NESTED, TEXT("n\0")), FRINGEWELL_OTHER_TYPE, 49);
    EXPECT_EQUAL(nest(empty_keys, 2, BYTES(0x03, 0), BYTES(0x10, 0, 9, 0, 0, 0)), sizeof empty_keys);
    EXPECT_VALUE(fringewell_path(WHOLE(empty_keys), NOTHING), part_at(FRINGEWELL_TAG_DOCUMENT, 4, 6, 18));
    EXPECT_VALUE(fringewell_path(WHOLE(empty_keys), TEXT("\0")), part_at(FRINGEWELL_TAG_DOCUMENT, 10, 12, 11));
    EXPECT_VALUE(fringewell_path(WHOLE(empty_keys), TEXT("\0\0")), int32_at(16, 18, 9));
    EXPECT_NO_VALUE(fringewell_path(WHOLE(empty_keys), TEXT("\0\0\0")), FRINGEWELL_OTHER_TYPE, 16);
    EXPECT_NO_VALUE(fringewell_path(WHOLE(empty_keys), TEXT("\0\0a")), FRINGEWELL_ABSENT, 22);
    EXPECT_NO_VALUE(fringewell_path(WHOLE(empty_keys), TEXT("\0a\0")), FRINGEWELL_ABSENT, 23);
    /* as a key the same bytes match nothing, as a path they go into a boolean */
    EXPECT_NO_VALUE(fringewell_lookup(WHOLE(p12), TEXT("a\0")), FRINGEWELL_ABSENT, 12);
    EXPECT_NO_VALUE(fringewell_path(WHOLE(p12), TEXT("a\0")), FRINGEWELL_OTHER_TYPE, 4);
}

/* The first of two elements counts at every level, and where it leads nowhere the second is not tried. */
static void first_match(void) {
    static const uint8_t empty_first[24] = {24, 0, 0, 0, 0x03, 'a', 0, 5, 0, 0, 0, 0, 0x03, 'a', 0, 8, 0, 0, 0, 0x0A, 'x', 0, 0, 0};
    static const uint8_t null_first[19] = {19, 0, 0, 0, 0x0A, 'a', 0, 0x03, 'a', 0, 8, 0, 0, 0, 0x0A, 'x', 0, 0, 0};
    static uint8_t twice[21]; /* P12's body in a document: its first boolean at 11 */
    EXPECT_NO_VALUE(fringewell_path(WHOLE(empty_first), TEXT("a\0x")), FRINGEWELL_ABSENT, 11);
    EXPECT_NO_VALUE(fringewell_path(WHOLE(null_first), TEXT("a\0x")), FRINGEWELL_OTHER_TYPE, 4);
    EXPECT_EQUAL(nest(twice, 1, BYTES(0x03, 'w', 0), p12 + 4, 8), sizeof twice);
    EXPECT_VALUE(fringewell_path(WHOLE(twice), TEXT("w\0a")),
                 VALUE(.tag = FRINGEWELL_TAG_BOOL, .place = 11, .framed_offset = 14, .framed_size = 1));
}

/* An array's element by its position in decimal: of eleven nulls the first lies at 10, and each but the last has three bytes. */
static void arrays(void) {
    static uint8_t eleven[46];
    EXPECT_EQUAL(nulls(eleven, 11, 11, NULL), sizeof eleven);
    EXPECT_VALUE(fringewell_path(WHOLE(eleven), TEXT("\0" "0")), VALUE(.tag = FRINGEWELL_TAG_NULL, .place = 10, .framed_offset = 13));
    EXPECT_VALUE(fringewell_path(WHOLE(eleven), TEXT("\0" "9")), VALUE(.tag = FRINGEWELL_TAG_NULL, .place = 37, .framed_offset = 40));
    EXPECT_VALUE(fringewell_path(WHOLE(eleven), TEXT("\0" "10")), VALUE(.tag = FRINGEWELL_TAG_NULL, .place = 40, .framed_offset = 44));
    EXPECT_NO_VALUE(fringewell_path(WHOLE(eleven), TEXT("\0" "11")), FRINGEWELL_ABSENT, 44);
    EXPECT_NO_VALUE(fringewell_path(WHOLE(eleven), TEXT("\0" "010")), FRINGEWELL_ABSENT, 44);
    EXPECT_NO_VALUE(fringewell_path(WHOLE(eleven), TEXT("\0" "1\0" "0")), FRINGEWELL_OTHER_TYPE, 13);
}

/* Damage before an element is returned, at every level; damage behind the elements that the keys lead to is not seen. */
static void damaged_steps(void) {
    /* {p: {b: 7, and a tag that is none}, and a tag that is none} */
    static const uint8_t tags[26] = {26, 0, 0, 0, 0x03, 'p', 0, 15, 0, 0, 0, 0x10, 'b', 0, 7, 0, 0, 0, 0x14, 'x', 0, 0, 0x14, 'y', 0, 0};
    /* the int32 in p has p's terminator for its last byte */
    static const uint8_t past[18] = {18, 0, 0, 0, 0x03, 'p', 0, 10, 0, 0, 0, 0x10, 0, 7, 0, 0, 0, 0};
    static const uint8_t not_ended[14] = {14, 0, 0, 0, 0x03, 'p', 0, 6, 0, 0, 0, 0, 1, 0};
    EXPECT_VALUE(fringewell_path(WHOLE(tags), TEXT("p")), part_at(FRINGEWELL_TAG_DOCUMENT, 4, 7, 15));
    EXPECT_VALUE(fringewell_path(WHOLE(tags), TEXT("p\0b")), int32_at(11, 14, 7));
    EXPECT_NO_VALUE(fringewell_path(WHOLE(tags), TEXT("p\0b\0x")), FRINGEWELL_OTHER_TYPE, 11);
    EXPECT_NO_VALUE(fringewell_path(WHOLE(tags), TEXT("p\0c")), FRINGEWELL_UNKNOWN_TAG, 18);
    EXPECT_NO_VALUE(fringewell_path(WHOLE(tags), TEXT("p\0x\0b")), FRINGEWELL_UNKNOWN_TAG, 18);
    EXPECT_NO_VALUE(fringewell_path(WHOLE(tags), TEXT("q\0b")), FRINGEWELL_UNKNOWN_TAG, 22);
    EXPECT_VALUE(fringewell_path(WHOLE(past), TEXT("p\0")), int32_at(11, 13, 7));
    EXPECT_NO_VALUE(fringewell_path(WHOLE(past), TEXT("p\0a")), FRINGEWELL_STEP_OUTSIDE, 17);
    EXPECT_NO_VALUE(fringewell_path(WHOLE(not_ended), TEXT("p")), FRINGEWELL_NOT_ENDED, 4);
    EXPECT_NO_VALUE(fringewell_path(WHOLE(not_ended), TEXT("p\0a")), FRINGEWELL_NOT_ENDED, 4);
    EXPECT_NO_VALUE(fringewell_path(NOTHING, TEXT("p\0b")), FRINGEWELL_TOO_SHORT, 0);
    EXPECT_NO_VALUE(fringewell_path(BYTES(6, 0, 0, 0, 0), TEXT("p\0b")), FRINGEWELL_LENGTH_DIFFERS, 0);
    EXPECT_NO_VALUE(fringewell_path(BYTES(5, 0, 0, 0, 1), TEXT("p\0b")), FRINGEWELL_NO_TERMINATOR, 0);
}

/* {a: a text FF, b: a boolean of 2, c: subtype 2 with data under four bytes, s: a code g with a scope that ends in 1, d: a document of
 * declared length 0} */
static const uint8_t bad_values[53] = {
    /*  0 */ 53, 0, 0, 0,
    /*  4 */ 0x02, 'a', 0, 2, 0, 0, 0, 0xFF, 0,
    /* 13 */ 0x08, 'b', 0, 2,
    /* 17 */ 0x05, 'c', 0, 3, 0, 0, 0, 2, 0, 0, 0,
    /* 28 */ 0x0F, 's', 0, 15, 0, 0, 0, 2, 0, 0, 0, 'g', 0, 5, 0, 0, 0, 1,
    /* 46 */ 0x03, 'd', 0, 0, 0, 0, 0,
};

/* A value on the way is read before it is entered: its own refusal, then 17. So is the last one, and typed 17 comes behind. */
static void damaged_values(void) {
    static const struct {
        const char *path;
        uint32_t number;
        size_t place;
    } rows[] = {{"a", FRINGEWELL_NOT_UTF8, 4}, {"b", FRINGEWELL_BAD_BOOLEAN, 13}, {"c", FRINGEWELL_BAD_SHAPE, 17},
                {"s", FRINGEWELL_NO_TERMINATOR, 28}, {"d", FRINGEWELL_BAD_LENGTH, 46}};
    static uint8_t inside[61]; /* the same in a document `w`, so that it begins at 7 */
    EXPECT_EQUAL(nest(inside, 1, BYTES(0x03, 'w', 0), bad_values + 4, 48), sizeof inside);
    for (size_t i = 0; i < sizeof rows / sizeof *rows; i++) {
        const char path[5] = {'w', 0, rows[i].path[0], 0, 'x'};
        EXPECT_NO_VALUE(fringewell_path(WHOLE(bad_values), path + 2, 1), rows[i].number, rows[i].place);
        EXPECT_NO_VALUE(fringewell_path(WHOLE(bad_values), path + 2, 3), rows[i].number, rows[i].place);
        EXPECT_NO_VALUE(fringewell_path(WHOLE(inside), path, 3), rows[i].number, 7 + rows[i].place);
        EXPECT_NO_VALUE(fringewell_path(WHOLE(inside), path, 5), rows[i].number, 7 + rows[i].place);
        EXPECT_NO_VALUE(fringewell_path_typed(WHOLE(inside), path, 3, FRINGEWELL_TAG_INT32), rows[i].number, 7 + rows[i].place);
        EXPECT_NO_VALUE(fringewell_path_typed(WHOLE(inside), path, 5, FRINGEWELL_TAG_INT32), rows[i].number, 7 + rows[i].place);
    }
}

/* The last value must have the tag, else 17 at it; values on the way need not. */
static void typed(void) {
    EXPECT_VALUE(fringewell_path_typed(NESTED, TEXT("p\0b"), FRINGEWELL_TAG_INT32), int32_at(11, 14, 7));
    EXPECT_VALUE(fringewell_path_typed(NESTED, TEXT("p\0c"), FRINGEWELL_TAG_ARRAY), part_at(FRINGEWELL_TAG_ARRAY, 18, 21, 27));
    EXPECT_VALUE(fringewell_path_typed(NESTED, TEXT("n"), FRINGEWELL_TAG_INT32), int32_at(49, 52, 5));
    EXPECT_NO_VALUE(fringewell_path_typed(NESTED, TEXT("p\0b"), FRINGEWELL_TAG_INT64), FRINGEWELL_OTHER_TYPE, 11);
    EXPECT_NO_VALUE(fringewell_path_typed(NESTED, TEXT("p\0b"), 0x14), FRINGEWELL_OTHER_TYPE, 11);
    EXPECT_NO_VALUE(fringewell_path_typed(NESTED, TEXT("p\0c\0" "1"), FRINGEWELL_TAG_ARRAY), FRINGEWELL_OTHER_TYPE, 32);
    EXPECT_NO_VALUE(fringewell_path_typed(NESTED, TEXT("n\0b"), FRINGEWELL_TAG_INT32), FRINGEWELL_OTHER_TYPE, 49);
    EXPECT_NO_VALUE(fringewell_path_typed(NESTED, TEXT("p\0x"), FRINGEWELL_TAG_INT32), FRINGEWELL_ABSENT, 48);
    EXPECT_NO_VALUE(fringewell_path_typed(NOTHING, TEXT("p\0x"), FRINGEWELL_TAG_INT32), FRINGEWELL_TOO_SHORT, 0);
}

/* A limit is the same at every level; the path's own keys have none. 22 stands in the place of 5, and comes before what is entered. */
static void limited(void) {
    /* {p: {bat: 7}} */
    static const uint8_t longer[22] = {22, 0, 0, 0, 0x03, 'p', 0, 14, 0, 0, 0, 0x10, 'b', 'a', 't', 0, 7, 0, 0, 0, 0, 0};
    static const uint8_t regex[12] = {12, 0, 0, 0, 0x0B, 'k', 0, 'a', 'b', 0, 0, 0};
    static const uint8_t no_options[15] = {15, 0, 0, 0, 0x03, 'p', 0, 7, 0, 0, 0, 0x0B, 0, 0, 0};
    static const size_t wide[] = {3, 4, UINT32_MAX, PTRDIFF_MAX, SIZE_MAX - 1, SIZE_MAX};
    for (size_t i = 0; i < sizeof wide / sizeof *wide; i++) {
        EXPECT_VALUE(fringewell_path_under(WHOLE(longer), TEXT("p\0bat"), wide[i]), int32_at(11, 16, 7));
        EXPECT_VALUE(fringewell_path_typed_under(WHOLE(longer), TEXT("p\0bat"), FRINGEWELL_TAG_INT32, wide[i]), int32_at(11, 16, 7));
        EXPECT_NO_VALUE(fringewell_path_typed_under(WHOLE(longer), TEXT("p\0bat"), FRINGEWELL_TAG_BOOL, wide[i]), FRINGEWELL_OTHER_TYPE,
                        11);
        EXPECT_NO_VALUE(fringewell_path_under(WHOLE(no_options), TEXT("p\0"), wide[i]), FRINGEWELL_TOO_LONG, 11);
    }
    for (size_t limit = 1; limit < 3; limit++) {
        EXPECT_NO_VALUE(fringewell_path_under(WHOLE(longer), TEXT("p\0bat"), limit), FRINGEWELL_TOO_LONG, 11);
        EXPECT_NO_VALUE(fringewell_path_typed_under(WHOLE(longer), TEXT("p\0bat"), FRINGEWELL_TAG_INT32, limit), FRINGEWELL_TOO_LONG, 11);
        EXPECT_VALUE(fringewell_path_under(WHOLE(longer), TEXT("p"), limit), part_at(FRINGEWELL_TAG_DOCUMENT, 4, 7, 14));
    }
    EXPECT_NO_VALUE(fringewell_path_under(WHOLE(longer), TEXT("p\0bat"), 0), FRINGEWELL_TOO_LONG, 4);
    EXPECT_NO_VALUE(fringewell_path_under(WHOLE(longer), TEXT("p\0battery"), 3), FRINGEWELL_ABSENT, 20);
    EXPECT_NO_VALUE(fringewell_path_under(WHOLE(longer), TEXT("battery\0p"), 1), FRINGEWELL_ABSENT, 21);
    EXPECT_NO_VALUE(fringewell_path_under(WHOLE(regex), TEXT("k\0x"), 2), FRINGEWELL_OTHER_TYPE, 4);
    EXPECT_NO_VALUE(fringewell_path_under(WHOLE(regex), TEXT("k\0x"), 1), FRINGEWELL_TOO_LONG, 4);
    EXPECT_NO_VALUE(fringewell_path(WHOLE(no_options), TEXT("p\0")), FRINGEWELL_NO_ZERO, 11);
    EXPECT_NO_VALUE(fringewell_path_under(WHOLE(no_options), TEXT("p\0"), 0), FRINGEWELL_TOO_LONG, 4); /* the key p */
    EXPECT_NO_VALUE(fringewell_path_under(NOTHING, TEXT("p\0b"), 0), FRINGEWELL_TOO_SHORT, 0);
}

/* Every form of a path: this number at this place. */
static void refused_always(const uint8_t *document, size_t length, const uint8_t *path, size_t path_length, uint32_t number, size_t place) {
    EXPECT_NO_VALUE(fringewell_path(document, length, path, path_length), number, place);
    EXPECT_NO_VALUE(fringewell_path_under(document, length, path, path_length, 1), number, place);
    EXPECT_NO_VALUE(fringewell_path_typed(document, length, path, path_length, FRINGEWELL_TAG_INT32), number, place);
    EXPECT_NO_VALUE(fringewell_path_typed_under(document, length, path, path_length, FRINGEWELL_TAG_INT32, 1), number, place);
}

/* 202 documents, one in the other, each under an empty key or under `a`: number k, from 1, lies behind the lengths and fronts of those
 * around it. A path of up to 201 keys leads to each of the first 201, longer ones are refused. */
static void deepest(size_t key_size) {
    static uint8_t deep[2048], path[512];
    const uint8_t front[3] = {0x03, key_size == 1 ? 'a' : 0, 0};
    size_t front_size = 2 + key_size, length = nest(deep, 202, front, front_size, NOTHING);
    for (size_t i = 0; i < sizeof path; i++) {
        path[i] = key_size == 1 && i % 2 == 0 ? 'a' : 0;
    }
    for (size_t k = 1; k <= 210; k++) {
        size_t path_length = k * (key_size + 1) - 1, begin = k * (4 + front_size), size = 5 + (202 - k) * (4 + front_size + 1);
        if (k <= 201) {
            fringewell_value want = part_at(FRINGEWELL_TAG_DOCUMENT, begin - front_size, begin, size);
            EXPECT_VALUE(fringewell_path(deep, length, path, path_length), want);
            EXPECT_VALUE(fringewell_path_typed_under(deep, length, path, path_length, FRINGEWELL_TAG_DOCUMENT, key_size), want);
        } else {
            refused_always(deep, length, path, path_length, FRINGEWELL_PATH_TOO_LONG, 0);
        }
    }
}

/* More than 200 zero bytes: 21 before the slice is looked at. Of fewer keys the path may be of any length. */
static void too_long(void) {
    static uint8_t path[1024];
    refused_always(NOTHING, path, 201, FRINGEWELL_PATH_TOO_LONG, 0);
    refused_always(BYTES(5, 0, 0, 0, 1), path, 201, FRINGEWELL_PATH_TOO_LONG, 0);
    refused_always(NESTED, path, sizeof path, FRINGEWELL_PATH_TOO_LONG, 0);
    refused_always(NOTHING, path, 200, FRINGEWELL_TOO_SHORT, 0);
    refused_always(NESTED, path, 200, FRINGEWELL_ABSENT, 77);
    memset(path, 'a', sizeof path);
    refused_always(NESTED, WHOLE(path), FRINGEWELL_ABSENT, 77);
    memset(path + 400, 0, 200);
    refused_always(NESTED, path, 600, FRINGEWELL_ABSENT, 77);
    path[0] = 0;
    refused_always(NESTED, path, 600, FRINGEWELL_PATH_TOO_LONG, 0);
    refused_always(NESTED, path, sizeof path, FRINGEWELL_PATH_TOO_LONG, 0);
    memset(path + 400, 'a', 200);
    path[1023] = 0;
    refused_always(NESTED, WHOLE(path), FRINGEWELL_ABSENT, 77);
}

/* The macro's bytes: literals side by side, so that a digit behind a zero byte is a key, and no octal number. */
static bool written(const void *path, size_t length, const void *bytes, size_t size) {
    return length == size && memcmp(path, bytes, size) == 0;
}

static void macro(void) {
    static uint8_t zeros[69]; /* documents under `0`, eight of them inside the top: number k begins at 7 * k, and has 8 bytes more each */
    EXPECT(written(FRINGEWELL_PATH(""), NOTHING));
    EXPECT(written(FRINGEWELL_PATH("cells"), BYTES('c', 'e', 'l', 'l', 's')));
    EXPECT(written(FRINGEWELL_PATH("cells", "0"), BYTES('c', 'e', 'l', 'l', 's', 0, '0')));
    EXPECT(written(FRINGEWELL_PATH("a", "", "12", "\xC3\xA9"), BYTES('a', 0, 0, '1', '2', 0, 0xC3, 0xA9)));
    EXPECT(written(FRINGEWELL_PATH("1", "2", "3", "4", "5", "6", "7", "8"),
                   BYTES('1', 0, '2', 0, '3', 0, '4', 0, '5', 0, '6', 0, '7', 0, '8')));
    EXPECT_EQUAL(nest(zeros, 8, BYTES(0x03, '0', 0), NOTHING), sizeof zeros);
#define NUMBER(k) part_at(FRINGEWELL_TAG_DOCUMENT, 7 * (k) - 3, 7 * (k), 5 + 8 * (8 - (k)))
    EXPECT_VALUE(fringewell_path(WHOLE(zeros), FRINGEWELL_PATH("0")), NUMBER(1));
    EXPECT_VALUE(fringewell_path(WHOLE(zeros), FRINGEWELL_PATH("0", "0")), NUMBER(2));
    EXPECT_VALUE(fringewell_path(WHOLE(zeros), FRINGEWELL_PATH("0", "0", "0")), NUMBER(3));
    EXPECT_VALUE(fringewell_path(WHOLE(zeros), FRINGEWELL_PATH("0", "0", "0", "0")), NUMBER(4));
    EXPECT_VALUE(fringewell_path(WHOLE(zeros), FRINGEWELL_PATH("0", "0", "0", "0", "0")), NUMBER(5));
    EXPECT_VALUE(fringewell_path(WHOLE(zeros), FRINGEWELL_PATH("0", "0", "0", "0", "0", "0")), NUMBER(6));
    EXPECT_VALUE(fringewell_path(WHOLE(zeros), FRINGEWELL_PATH("0", "0", "0", "0", "0", "0", "0")), NUMBER(7));
    EXPECT_VALUE(fringewell_path(WHOLE(zeros), FRINGEWELL_PATH("0", "0", "0", "0", "0", "0", "0", "0")), NUMBER(8));
#undef NUMBER
}

/* What was answered of a part that begins at an offset of the whole document, as it lies in that. No part begins at 0 of its document. */
static fringewell_value moved(fringewell_value value, size_t by) {
    value.place += by;
    if (value.number == 0) {
        value.framed_offset += by;
        value.offset += value.offset > 0 ? by : 0;
        value.offset2 += value.offset2 > 0 ? by : 0;
    }
    return value;
}

/* The lookup of a key in a part of the document; a limit, or none. */
static fringewell_value look_up(const uint8_t *part, size_t size, const char *key, size_t key_size, const size_t *limit) {
    return limit == NULL ? fringewell_lookup(part, size, key, key_size) : fringewell_lookup_under(part, size, key, key_size, *limit);
}

/* One lookup after another, of a path of few keys: each in the part that the one before gave. */
static fringewell_value by_lookups(const uint8_t *document, size_t length, const char *path, size_t path_length, const size_t *limit) {
    size_t begin = 0, size = length;
    for (;;) {
        const char *zero = memchr(path, 0, path_length);
        size_t key_size = zero == NULL ? path_length : (size_t)(zero - path);
        fringewell_value value = moved(look_up(document + begin, size, path, key_size, limit), begin);
        if (value.number != 0 || zero == NULL) {
            return value;
        }
        if (value.tag != FRINGEWELL_TAG_DOCUMENT && value.tag != FRINGEWELL_TAG_ARRAY) {
            return VALUE(.number = FRINGEWELL_OTHER_TYPE, .place = value.place);
        }
        begin = value.offset;
        size = value.size;
        path += key_size + 1;
        path_length -= key_size + 1;
    }
}

/* The path answers as one lookup after another, with a limit and without; what it finds is what a reading gives at its place; and in a
 * document that passed the check it is refused by 16 or 17 alone. */
static bool agrees(const uint8_t *document, size_t length, const char *path, size_t path_length) {
    fringewell_value value = fringewell_path(document, length, path, path_length);
    bool passed = fringewell_check(document, length).number == 0;
    bool good = same_value(value, by_lookups(document, length, path, path_length, NULL)) &&
                (value.number != 0 || same_value(value, fringewell_read(document, length, value.place))) &&
                (!passed || value.number == 0 || value.number == FRINGEWELL_ABSENT || value.number == FRINGEWELL_OTHER_TYPE);
    for (size_t limit = 0; limit < 3; limit++) {
        fringewell_value under = fringewell_path_under(document, length, path, path_length, limit);
        good = good && same_value(under, by_lookups(document, length, path, path_length, &limit)) &&
               (under.number != 0 || same_value(under, fringewell_read_under(document, length, under.place, limit)));
    }
    return good;
}

/* Any one byte of `nested` made any other, and paths to all that is in it and past it. */
static void any_byte(void) {
    static const struct {
        const char *path;
        size_t length;
    } paths[] = {
        {TEXT("p")},
        {TEXT("n")},
        {TEXT("p\0b")},
        {TEXT("s\0y")},
        {TEXT("\0")},
        {TEXT("p\0c\0" "0")},
        {TEXT("p\0c\0" "1\0v")},
        {TEXT("p\0c\0" "1\0x")},
        {TEXT("p\0c\0" "1\0v\0z")},
        {TEXT("p\0b\0x\0y")},
    };
    static uint8_t copy[sizeof nested];
    for (size_t at = 0; at < sizeof nested; at++) {
        unsigned disagreed = 0;
        for (unsigned byte = 0; byte <= UINT8_MAX; byte++) {
            memcpy(copy, nested, sizeof nested);
            copy[at] = (uint8_t)byte;
            for (size_t i = 0; i < sizeof paths / sizeof *paths; i++) {
                disagreed += !agrees(WHOLE(copy), paths[i].path, paths[i].length);
            }
        }
        EXPECT_EQUAL(disagreed, 0);
    }
}

/* Each element of a part of the beacon, and of what is in it, by its path: the path so far ends in a zero byte, or is empty. Returns how
 * many there are. */
static size_t walk(const uint8_t *frame, size_t length, size_t begin, size_t size, char *path, size_t used) {
    size_t count = 0;
    fringewell_element at = fringewell_next(frame + begin, size, FRINGEWELL_START, false);
    for (; !at.ended; at = fringewell_next(frame + begin, size, at.next, at.ended)) {
        size_t path_length = used + at.key_size;
        memcpy(path + used, frame + begin + at.key_offset, at.key_size);
        EXPECT_VALUE(fringewell_path(frame, length, path, path_length), moved(at.value, begin));
        EXPECT_VALUE(fringewell_path_typed(frame, length, path, path_length, at.value.tag), moved(at.value, begin));
        EXPECT(agrees(frame, length, path, path_length));
        count++;
        if (at.value.tag == FRINGEWELL_TAG_DOCUMENT || at.value.tag == FRINGEWELL_TAG_ARRAY) {
            path[path_length] = 0;
            count += walk(frame, length, begin + at.value.offset, at.value.size, path, path_length + 1);
        }
    }
    return count;
}

/* The sample beacon: `power` lies at 140, and in it battery and panels; the second of its receivers is `Troms` and U+00F8. Of its 80 values
 * one lies in a scope, where no path leads to. */
static void beacon(void) {
    static uint8_t frame[1255];
    char path[64];
    int32_t millivolts = 0;
    fringewell_text station = {NULL, 0};
    EXPECT_EQUAL(load("beacon", WHOLE(frame)), sizeof frame);
    EXPECT_VALUE(fringewell_path(WHOLE(frame), FRINGEWELL_PATH("power")), part_at(FRINGEWELL_TAG_DOCUMENT, 140, 147, 91));
    EXPECT_VALUE(fringewell_path(WHOLE(frame), FRINGEWELL_PATH("power", "battery")), int32_at(151, 160, 7412));
    EXPECT_VALUE(fringewell_path(WHOLE(frame), FRINGEWELL_PATH("power", "panels", "2")), int32_at(213, 216, 1175));
    EXPECT_NO_VALUE(fringewell_path(WHOLE(frame), FRINGEWELL_PATH("power", "panels", "4")), FRINGEWELL_ABSENT, 227);
    EXPECT_EQUAL(fringewell_path_int32(WHOLE(frame), FRINGEWELL_PATH("power", "battery"), &millivolts), FRINGEWELL_OK);
    EXPECT(millivolts == 7412);
    EXPECT_EQUAL(fringewell_path_string(WHOLE(frame), FRINGEWELL_PATH("receivers", "1", "station"), &station), FRINGEWELL_OK);
    EXPECT(station.length == 7 && memcmp(station.data, "Troms\xC3\xB8", 7) == 0);
    EXPECT_EQUAL(walk(WHOLE(frame), 0, sizeof frame, path, 0), 79);
}

int main(void) {
    present();
    absent();
    not_entered();
    zeros();
    first_match();
    arrays();
    damaged_steps();
    damaged_values();
    typed();
    limited();
    deepest(0);
    deepest(1);
    too_long();
    macro();
    any_byte();
    beacon();
    return held();
}
