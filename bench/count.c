// Takes turns of a row of bench/rows.py on this library, and yields before and behind them, where bench/instructions.c writes its count.
// usage: count TASK DOCUMENT KEY TURNS     by bench/count; of a path KEY is two keys with a dot between them. Prints the answer of a turn,
//        as bench/beside_rust/src/side.rs describes it
#include <inttypes.h>
#include <sched.h>
#include <stdio.h>
#include <stdlib.h>
#include <string.h>

#include "fringewell.h"

enum { MOST = 1 << 21, ROOM = 4096, PIECES = 256, CLOSING = 0 };

// An element to be written. Behind one that opens come those inside it, and then a piece of the tag CLOSING, which is no element's.
struct piece {
    uint64_t tag, bits;
    const uint8_t *key, *part, *part2;
    size_t key_size, size, size2;
};

struct row {
    uint64_t (*turn)(const struct row *row);
    size_t length;
    const uint8_t *key; // or a path
    size_t key_size;
    size_t first_size; // of a path, its first key
    size_t count;
    struct piece pieces[PIECES];
};

static uint8_t document[MOST];
static uint8_t out[ROOM];

static void need(int held, const char *what)
{
    if (!held) {
        fprintf(stderr, "count: not so: %s\n", what);
        exit(1);
    }
}

// ---- reading

// what a value holds: a number, or the sizes of its parts; as the Rust's caller matches, so this one looks at the tag
static uint64_t held(const fringewell_value *value)
{
    switch (value->tag) {
    case FRINGEWELL_TAG_DOUBLE:
    case FRINGEWELL_TAG_BOOL:
    case FRINGEWELL_TAG_DATETIME:
    case FRINGEWELL_TAG_INT32:
    case FRINGEWELL_TAG_TIMESTAMP:
    case FRINGEWELL_TAG_INT64:
        return value->bits;
    case FRINGEWELL_TAG_STRING:
    case FRINGEWELL_TAG_DOCUMENT:
    case FRINGEWELL_TAG_ARRAY:
    case FRINGEWELL_TAG_OBJECT_ID:
    case FRINGEWELL_TAG_CODE:
    case FRINGEWELL_TAG_SYMBOL:
    case FRINGEWELL_TAG_DECIMAL128:
        return value->size;
    case FRINGEWELL_TAG_BINARY:
        return value->bits + value->size;
    case FRINGEWELL_TAG_REGEX:
    case FRINGEWELL_TAG_DBPOINTER:
    case FRINGEWELL_TAG_CODE_WITH_SCOPE:
        return value->size + value->size2;
    default:
        return 0;
    }
}

// every step and every value of the top, in one call; an answer is declared inside the loop, since some compilers copy one that is assigned
static uint64_t iterate(const struct row *row)
{
    uint64_t sum = 0;
    for (size_t offset = FRINGEWELL_START;;) {
        fringewell_element at = fringewell_next(document, row->length, offset, false);
        need(at.value.number == FRINGEWELL_OK, "every step is answered and every value read");
        if (at.ended)
            return sum;
        sum += at.value.tag + at.key_size + held(&at.value);
        offset = at.next;
    }
}

// the same in two calls: a step, and a reading at its place, which steps there again
static uint64_t read_at_place(const struct row *row)
{
    uint64_t sum = 0;
    for (size_t offset = FRINGEWELL_START;;) {
        fringewell_stepped at = fringewell_step(document, row->length, offset, false);
        need(at.number == FRINGEWELL_OK, "every step is answered");
        if (at.ended)
            return sum;
        fringewell_value value = fringewell_read(document, row->length, at.place);
        need(value.number == FRINGEWELL_OK, "every value is read");
        sum += at.tag + at.key_size + held(&value);
        offset = at.next;
    }
}

static uint64_t passed(fringewell_verdict verdict)
{
    need(verdict.number == FRINGEWELL_OK, "the document passes");
    return verdict.count;
}

static uint64_t check(const struct row *row)
{
    return passed(fringewell_check(document, row->length));
}

static uint64_t check_strict(const struct row *row)
{
    return passed(fringewell_check_strict(document, row->length));
}

static uint64_t lookup(const struct row *row)
{
    fringewell_value found = fringewell_lookup(document, row->length, row->key, row->key_size);
    need(found.number == FRINGEWELL_OK, "the key is found");
    return found.tag + held(&found);
}

static uint64_t path(const struct row *row)
{
    fringewell_value found = fringewell_path(document, row->length, row->key, row->key_size);
    need(found.number == FRINGEWELL_OK, "the path leads to a value");
    return found.tag + held(&found);
}

// the same in two calls, the second in the part that the first gives
static uint64_t path_by_lookups(const struct row *row)
{
    size_t behind = row->first_size + 1;
    fringewell_value outer = fringewell_lookup(document, row->length, row->key, row->first_size);
    need(outer.number == FRINGEWELL_OK && outer.tag == FRINGEWELL_TAG_DOCUMENT, "the first key leads to a document");
    fringewell_value found = fringewell_lookup(document + outer.offset, outer.size, row->key + behind, row->key_size - behind);
    need(found.number == FRINGEWELL_OK, "the second key is found");
    return found.tag + held(&found);
}

// ---- writing

static void add(struct row *row, struct piece piece)
{
    need(row->count < PIECES, "there is room for the pieces");
    row->pieces[row->count++] = piece;
}

// the pieces of a document and of those inside it, made before any turn, so that a turn only writes
static void collect(struct row *row, const uint8_t *bytes, size_t length)
{
    fringewell_element at = fringewell_next(bytes, length, FRINGEWELL_START, false);
    for (; !at.ended; at = fringewell_next(bytes, length, at.next, at.ended)) {
        const fringewell_value *value = &at.value;
        need(value->number == FRINGEWELL_OK, "every value is read");
        add(row, (struct piece){
                     .tag = value->tag,
                     .bits = value->bits,
                     .key = bytes + at.key_offset,
                     .key_size = at.key_size,
                     .part = bytes + value->offset,
                     .size = value->size,
                     .part2 = bytes + value->offset2,
                     .size2 = value->size2,
                 });
        if (value->tag == FRINGEWELL_TAG_DOCUMENT || value->tag == FRINGEWELL_TAG_ARRAY)
            collect(row, bytes + value->offset, value->size);
    }
    need(at.value.number == FRINGEWELL_OK, "every step is answered");
    add(row, (struct piece){.tag = CLOSING});
}

#define LENT state, out, ROOM, piece->key, piece->key_size

static fringewell_written append_number(fringewell_state *state, const struct piece *piece)
{
    switch (piece->tag) {
    case FRINGEWELL_TAG_DOUBLE:
        return fringewell_state_append_double(LENT, piece->bits);
    case FRINGEWELL_TAG_BOOL:
        return fringewell_state_append_bool(LENT, piece->bits);
    case FRINGEWELL_TAG_INT32:
        return fringewell_state_append_int32(LENT, (int32_t)piece->bits);
    case FRINGEWELL_TAG_INT64:
        return fringewell_state_append_int64(LENT, (int64_t)piece->bits);
    case FRINGEWELL_TAG_DATETIME:
        return fringewell_state_append_datetime(LENT, (int64_t)piece->bits);
    case FRINGEWELL_TAG_TIMESTAMP:
        return fringewell_state_append_timestamp(LENT, (uint32_t)piece->bits, (uint32_t)(piece->bits >> 32));
    default:
        need(piece->tag == FRINGEWELL_TAG_NULL, "the value is of a type that the rows write");
        return fringewell_state_append_null(LENT);
    }
}

// appends a value, of a document or an array only its opening; or closes the innermost
static fringewell_written append(fringewell_state *state, const struct piece *piece)
{
    switch (piece->tag) {
    case CLOSING:
        return fringewell_state_close(state, out, ROOM);
    case FRINGEWELL_TAG_DOCUMENT:
        return fringewell_state_open_document(LENT);
    case FRINGEWELL_TAG_ARRAY:
        return fringewell_state_open_array(LENT);
    case FRINGEWELL_TAG_STRING:
        return fringewell_state_append_string(LENT, piece->part, piece->size);
    case FRINGEWELL_TAG_SYMBOL:
        return fringewell_state_append_symbol(LENT, piece->part, piece->size);
    case FRINGEWELL_TAG_BINARY:
        return fringewell_state_append_binary(LENT, (uint8_t)piece->bits, piece->part, piece->size);
    case FRINGEWELL_TAG_REGEX:
        return fringewell_state_append_regex(LENT, piece->part, piece->size, piece->part2, piece->size2);
    case FRINGEWELL_TAG_OBJECT_ID:
        return fringewell_state_append_object_id(LENT, piece->part);
    case FRINGEWELL_TAG_DECIMAL128:
        return fringewell_state_append_decimal128(LENT, piece->part);
    default:
        return append_number(state, piece);
    }
}

static uint64_t build(const struct row *row)
{
    _Alignas(64) fringewell_state state = fringewell_state_new(); // for which memset, wherever the stack begins, does the same
    fringewell_written did = fringewell_state_open(&state, out, ROOM);
    for (size_t i = 0; did.number == FRINGEWELL_OK && i < row->count; i++)
        did = append(&state, &row->pieces[i]);
    need(did.number == FRINGEWELL_OK, "every piece is written");
    return did.used;
}

// ---- the turns

static const struct {
    const char *name;
    uint64_t (*turn)(const struct row *row);
} tasks[] = {
    {"iterate", iterate}, {"read_at_place", read_at_place}, {"check", check}, {"check_strict", check_strict}, {"lookup", lookup},
    {"path", path},       {"path_by_lookups", path_by_lookups}, {"build", build}, {"build_tested", build},
};

// a zero byte for the dot of a path
static void split(struct row *row, char *key)
{
    char *dot = strchr(key, '.');
    need(dot != NULL, "a path has two keys");
    *dot = 0;
    row->first_size = (size_t)(dot - key);
}

static void prepare(struct row *row, const char *task, const char *file_name, char *key)
{
    for (size_t i = 0; i < sizeof tasks / sizeof *tasks; i++)
        if (!strcmp(task, tasks[i].name))
            row->turn = tasks[i].turn;
    need(row->turn != NULL, "the task is known");
    FILE *file = fopen(file_name, "rb");
    need(file != NULL, "the document can be opened");
    row->length = fread(document, 1, MOST, file);
    fclose(file);
    row->key = (const uint8_t *)key;
    row->key_size = strlen(key);
    if (row->turn == path || row->turn == path_by_lookups)
        split(row, key);
    if (row->turn == build)
        collect(row, document, row->length);
}

// the sum of the answers; not inlined, so that no turns differ from some by the turns alone
static __attribute__((noinline)) uint64_t take(const struct row *row, uint64_t turns)
{
    uint64_t sum = 0;
    for (uint64_t i = 0; i < turns; i++)
        sum += row->turn(row);
    return sum;
}

int main(int arguments, char **argument)
{
    static struct row row;
    need(arguments == 5, "a task, a document, a key and a number of turns are given");
    uint64_t most = strtoul(argument[4], NULL, 10);
    need(most > 0, "there are turns");
    prepare(&row, argument[1], argument[2], argument[3]);
    uint64_t answer = take(&row, 1); // what is bound or chosen at the first call is not counted
    need(row.turn != build || (answer == row.length && !memcmp(out, document, row.length)), "what is built is the document");
    for (uint64_t turns = 0; turns <= most; turns += most) {
        sched_yield();
        uint64_t sum = take(&row, turns);
        sched_yield();
        need(sum == turns * answer, "every turn has the same answer");
    }
    printf("%" PRIu64 "\n", answer);
    return 0;
}
