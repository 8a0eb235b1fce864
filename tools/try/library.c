/* The other end of library.py, linked with the library: makes the calls that come on standard input, as C makes them, and writes what each
 * returned and what it left in the memory that it was lent. EACH names the functions, in the order of their numbers. */
#define _GNU_SOURCE
#include <stdint.h>
#include <stdio.h>
#include <stdlib.h>
#include <string.h>
#include <sys/mman.h>

enum { WORDS = 9, AREAS = 5, AREA = 1 << 20, GUARD = 1 << 16 };

/* A call. Behind it come the bytes of each area, which end where the area does. The answer is what the function returned, then the last
 * `written` bytes of each area; its byte of the number `spoiled`, if there is one, is changed. */
typedef struct {
    uint64_t function, returned, spoiled, words[WORDS];
    struct {
        uint64_t size, written;
    } areas[AREAS];
} asked;

/* Every argument is passed as 64 bits, so a narrow one with anything above it. More are passed than a function takes: it does not look at them. */
#define ARGUMENTS(a) a(0), a(1), a(2), a(3), a(4), a(5), a(6), a(7), a(8)
#define TYPE(i) uint64_t
#define WORD(i) call->words[i]

typedef struct {
    uint64_t numbers[2];
} in_registers;
typedef struct {
    uint64_t numbers[203]; /* a state: the most that is returned */
} in_memory;
typedef in_registers (*gives_registers)(ARGUMENTS(TYPE));
typedef in_memory (*gives_memory)(ARGUMENTS(TYPE));

#define DECLARED(name) void fringewell_##name(void);
#define LISTED(name) fringewell_##name,
EACH(DECLARED)
static void (*const functions[])(void) = {EACH(LISTED)};

static void need(int held, const char *what) {
    if (!held) {
        fprintf(stderr, "library.c: not so: %s\n", what);
        exit(2);
    }
}

static uint8_t *end_of(int area) {
    return (uint8_t *)((uintptr_t)(area + 1) << 32);
}

/* Behind its end are pages that may not be touched: the program ends where they are. */
static void make_area(int area) {
    uint8_t *start = end_of(area) - AREA;
    void *got = mmap(start, AREA + GUARD, PROT_NONE, MAP_PRIVATE | MAP_ANONYMOUS | MAP_FIXED_NOREPLACE, -1, 0);
    need(got == start && mprotect(start, AREA, PROT_READ | PROT_WRITE) == 0, "an area can be made");
}

static void fill_area(int area, size_t size) {
    need(size <= AREA, "an area holds what is lent");
    need(fread(end_of(area) - size, 1, size, stdin) == size, "a call comes whole");
}

static void make_call(const asked *call, uint8_t *answer) {
    if (call->returned <= sizeof(in_registers)) {
        in_registers returned = ((gives_registers)functions[call->function])(ARGUMENTS(WORD));
        memcpy(answer, &returned, call->returned);
    } else {
        in_memory returned = ((gives_memory)functions[call->function])(ARGUMENTS(WORD));
        memcpy(answer, &returned, call->returned);
    }
}

static void answer_call(const asked *call) {
    static uint8_t answer[sizeof(in_memory) + AREAS * AREA];
    size_t size = call->returned;
    for (int i = 0; i < AREAS; i++) {
        fill_area(i, call->areas[i].size);
    }
    make_call(call, answer);
    for (int i = 0; i < AREAS; i++) {
        memcpy(answer + size, end_of(i) - call->areas[i].written, call->areas[i].written);
        size += call->areas[i].written;
    }
    if (call->spoiled < size) {
        answer[call->spoiled] ^= 1;
    }
    fwrite(answer, 1, size, stdout);
}

int main(void) {
    asked call;
    for (int i = 0; i < AREAS; i++) {
        make_area(i);
    }
    setvbuf(stdout, NULL, _IONBF, 0); /* an answer is out before the next call, which may end the program */
    while (fread(&call, sizeof call, 1, stdin) == 1) {
        answer_call(&call);
    }
    return 0;
}
