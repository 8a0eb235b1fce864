/* How much stack the deepest calls take: each runs on a thread whose stack was filled with a pattern, and the lowest byte that is no
 * longer the pattern tells how far down it went. */
#define _GNU_SOURCE
#include "samples.h"
#include "test.h"
#include <pthread.h>
#include <sys/mman.h>
#include <unistd.h>

enum { SIZE = 1 << 20 };

/* The same memory twice: one view is the stack, the other is looked at. Memory checkers forbid to look below a stack's end. */
static uint8_t *stack, *view;

typedef struct {
    void (*call)(const uint8_t *document, size_t length);
    const uint8_t *document;
    size_t length, from;
} task;

static void make_stack(void) {
    int file = memfd_create("stack", 0);
    bool sized = file >= 0 && ftruncate(file, SIZE) == 0;
    stack = sized ? mmap(NULL, SIZE, PROT_READ | PROT_WRITE, MAP_SHARED, file, 0) : MAP_FAILED;
    view = sized ? mmap(NULL, SIZE, PROT_READ | PROT_WRITE, MAP_SHARED, file, 0) : MAP_FAILED;
}

static void *run(void *argument) {
    task *t = argument;
    const uint8_t here = 0;
    t->from = (size_t)(&here - stack);
    t->call(t->document, t->length);
    return NULL;
}

/* From the frame that calls, so a little more than the call itself takes. */
static size_t measure(void (*call)(const uint8_t *, size_t), const uint8_t *document, size_t length) {
    task t = {call, document, length, 0};
    pthread_attr_t attributes;
    pthread_t thread;
    memset(view, GUARD, SIZE);
    pthread_attr_init(&attributes);
    pthread_attr_setstack(&attributes, stack, SIZE);
    EXPECT(pthread_create(&thread, &attributes, run, &t) == 0 && pthread_join(thread, NULL) == 0);
    pthread_attr_destroy(&attributes);
    size_t low = 0;
    while (low < t.from && view[low] == GUARD) {
        low++;
    }
    return t.from - low;
}

static void plain(const uint8_t *document, size_t length) {
    fringewell_check(document, length);
}

static void strict(const uint8_t *document, size_t length) {
    fringewell_check_strict(document, length);
}

/* No key, pattern or options of the documents below is longer, and some are as long. */
enum { LIMIT = 2 };

static void limited(const uint8_t *document, size_t length) {
    fringewell_check_under(document, length, LIMIT);
}

static void strict_limited(const uint8_t *document, size_t length) {
    fringewell_check_strict_under(document, length, LIMIT);
}

static void joining(const uint8_t *document, size_t length) {
    static uint8_t out[8192];
    fringewell_join(document, length, document, length, out, sizeof out);
}

/* As many keys as a path may have, all empty or all `0`: so one of the two goes down all levels of documents or arrays. */
static void along(const uint8_t *document, size_t length) {
    static const uint8_t empty[200];
    static uint8_t positions[401];
    for (size_t i = 0; i < sizeof positions; i += 2) {
        positions[i] = '0';
    }
    fringewell_path(document, length, empty, sizeof empty);
    fringewell_path_typed_under(document, length, empty, sizeof empty, FRINGEWELL_TAG_DOCUMENT, LIMIT);
    fringewell_path(document, length, positions, sizeof positions);
    fringewell_path_typed_under(document, length, positions, sizeof positions, FRINGEWELL_TAG_ARRAY, LIMIT);
}

/* Some of the rest: no call but the check and the path goes down by levels. */
static void others(const uint8_t *document, size_t length) {
    static uint8_t out[64];
    static fringewell_state state;
    state = fringewell_state_new();
    fringewell_state_open(&state, out, sizeof out);
    fringewell_state_append_regex(&state, out, sizeof out, TEXT("\xC3\xA9"), TEXT("\xC3\xA9"), TEXT("\xC3\xA9"));
    fringewell_lookup_typed(document, length, TEXT("absent"), FRINGEWELL_TAG_INT32);
    fringewell_lookup_typed_under(document, length, TEXT("absent"), FRINGEWELL_TAG_INT32, LIMIT);
    fringewell_next(document, length, 4, false);
    fringewell_next_under(document, length, 4, false, LIMIT);
    fringewell_read(document, length, 4);
    fringewell_read_under(document, length, 4, LIMIT);
}

static const struct {
    const char *name;
    void (*call)(const uint8_t *document, size_t length);
} calls[] = {
    {"plain check", plain}, {"strict check", strict}, {"plain under a limit", limited}, {"strict under a limit", strict_limited},
    {"join", joining},      {"path", along},          {"others", others},
};

static size_t most;

static void try_all(const char *name, const uint8_t *document, size_t length) {
    printf("%-9s:", name);
    for (size_t i = 0; i < sizeof calls / sizeof *calls; i++) {
        size_t taken = measure(calls[i].call, document, length);
        printf("%s %s %zu", i > 0 ? "," : "", calls[i].name, taken);
        EXPECT(taken > 0 && taken <= FRINGEWELL_STACK_BYTES);
        most = taken > most ? taken : most;
    }
    printf(" bytes\n");
}

/* 201 documents or arrays inside the top, or 101 scopes; in the innermost of 200 arrays nulls under keys of up to four digits; and in the
 * innermost of 201 documents what takes the longest way through its texts, and is read before it is found too deep: a regex, a code with
 * scope. */
int main(void) {
    static uint8_t deep[8192], array[8192];
    size_t array_length = nulls(array, 1001, 1001, NULL);
    make_stack();
    EXPECT(stack != MAP_FAILED && view != MAP_FAILED);
    if (failed == 0) {
        try_all("documents", deep, nest(deep, 201, BYTES(0x03, 0), NOTHING));
        try_all("arrays", deep, nest(deep, 201, BYTES(0x04, '0', 0), NOTHING));
        try_all("keys", deep, nest(deep, 200, BYTES(0x04, '0', 0), array + 10, array_length - 12));
        try_all("scopes", deep, nest_scopes(deep, 101));
        try_all("regex", deep, nest(deep, 201, BYTES(0x03, 0), BYTES(0x0B, 0xC3, 0xA9, 0, 0xC3, 0xA9, 0, 0xC3, 0xA9, 0)));
        try_all("code", deep, nest(deep, 201, BYTES(0x03, 0), BYTES(0x0F, 0, 16, 0, 0, 0, 3, 0, 0, 0, 0xC3, 0xA9, 0, 5, 0, 0, 0, 0)));
        printf("at most %zu bytes of stack, of the %d that the header says\n", most, FRINGEWELL_STACK_BYTES);
    }
    return held();
}
