/* Each call that puts an element into the innermost document, by its row, with the bytes of that element under a key of one letter. */
#ifndef CALLS_H
#define CALLS_H

#include "test.h"

enum { CALLS = 20, OPENING = 18 }; /* the rows from OPENING on open what they put */

/* tag, key and zero, and the value */
static const size_t call_sizes[CALLS] = {
    3 + 8, 3 + 1, 3 + 4, 3 + 8, 3 + 8, 3 + 8, 3, 3, 3, 3,                  /* double, bool, integers and times, and what has no bytes */
    3 + 4 + 3, 3 + 4 + 3, 3 + 4 + 3, 3 + 5 + 2, 3 + 2 + 2, 3 + 4 + 3 + 12, /* texts of two letters, two bytes, pattern and options, `db` */
    3 + 12, 3 + 16, 3 + 4, 3 + 4,                                          /* ObjectId, decimal128, document, array */
};

/* of an ObjectId or a decimal128 */
static const uint8_t call_bytes[16] = {1, 2, 3, 4, 5, 6, 7, 8, 9, 10, 11, 12, 13, 14, 15, 16};

typedef struct {
    fringewell_state *state;
    uint8_t *out;
    size_t size;
    const void *key;
    size_t key_length;
} lent;

#define LENT to.state, to.out, to.size, to.key, to.key_length

static inline fringewell_written call_number(int row, lent to) {
    switch (row) {
    case 0:
        return fringewell_state_append_double(LENT, 0x4000000000000000);
    case 1:
        return fringewell_state_append_bool(LENT, false);
    case 2:
        return fringewell_state_append_int32(LENT, 7);
    case 3:
        return fringewell_state_append_int64(LENT, 7);
    case 4:
        return fringewell_state_append_datetime(LENT, 7);
    case 5:
        return fringewell_state_append_timestamp(LENT, 1, 2);
    case 6:
        return fringewell_state_append_null(LENT);
    case 7:
        return fringewell_state_append_undefined(LENT);
    case 8:
        return fringewell_state_append_min_key(LENT);
    default:
        return fringewell_state_append_max_key(LENT);
    }
}

static inline fringewell_written call_row(int row, lent to) {
    switch (row) {
    case 10:
        return fringewell_state_append_string(LENT, TEXT("hi"));
    case 11:
        return fringewell_state_append_code(LENT, TEXT("hi"));
    case 12:
        return fringewell_state_append_symbol(LENT, TEXT("hi"));
    case 13:
        return fringewell_state_append_binary(LENT, 0, TEXT("hi"));
    case 14:
        return fringewell_state_append_regex(LENT, TEXT("a"), TEXT("i"));
    case 15:
        return fringewell_state_append_dbpointer(LENT, TEXT("db"), call_bytes);
    case 16:
        return fringewell_state_append_object_id(LENT, call_bytes);
    case 17:
        return fringewell_state_append_decimal128(LENT, call_bytes);
    case 18:
        return fringewell_state_open_document(LENT);
    case 19:
        return fringewell_state_open_array(LENT);
    default:
        return call_number(row, to);
    }
}

#endif
