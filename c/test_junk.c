/* Any 406 words are safe to pass: a refused call changes nothing, an accepted one nothing behind the bytes used. Same seed, same states. */
#include "calls.h"

enum { SIZE = 96, STATES = 5000 };

typedef struct {
    fringewell_state state;
    uint8_t out[SIZE];
} desk;

static uint64_t seed = 0x9E3779B97F4A7C15;

static uint32_t below(uint32_t bound) { /* xorshift */
    seed ^= seed << 13;
    seed ^= seed >> 7;
    seed ^= seed << 17;
    return (uint32_t)((seed >> 32) * bound >> 32);
}

/* Words of every size, few of which are possible. */
static void wild(fringewell_state *state) {
    for (int i = 0; i < 406; i++) {
        state->words[i] = below(UINT32_MAX) >> below(32);
    }
}

/* A few open documents and arrays as calls would leave them, and then, of every second state, one word made another. */
static void near(fringewell_state *state) {
    uint32_t open = 1 + below(4), start = 0;
    for (uint32_t i = 0; i < open; i++) {
        state->words[2 + 2 * i] = start;
        state->words[3 + 2 * i] = below(2) ? UINT32_MAX : below(4);
        start += 4 + below(8);
    }
    state->words[0] = start + below(4);
    state->words[1] = open;
    if (below(2)) {
        state->words[below(2 + 2 * open)] = below(UINT32_MAX) >> below(32);
    }
}

static fringewell_written any_call(desk *d, size_t size, int row) {
    if (row == CALLS) {
        return fringewell_state_close(&d->state, d->out, size);
    }
    if (row == CALLS + 1) {
        return fringewell_state_open(&d->state, d->out, size);
    }
    return call_row(row, (lent){&d->state, d->out, size, TEXT("key")});
}

/* Refused: by a number that this call has, and nothing changed. */
static bool refused_well(fringewell_written written, const desk *before, const desk *after, int row) {
    bool known = written.number == FRINGEWELL_OUT_OF_TURN || (row < CALLS && written.number == FRINGEWELL_TOO_DEEP) ||
                 (row != CALLS && written.number == FRINGEWELL_NO_ROOM);
    return known && written.used == 0 && memcmp(before, after, sizeof *before) == 0;
}

/* Accepted: what lies behind the bytes used stays, and so does, unless a length is closed, what lay before them. */
static bool accepted_well(fringewell_written written, const desk *before, const desk *after, size_t size, int row) {
    size_t old = row < CALLS ? before->state.words[0] : 0;
    return written.used <= size && memcmp(before->out + written.used, after->out + written.used, SIZE - written.used) == 0 &&
           memcmp(before->out, after->out, old) == 0;
}

int main(void) {
    static desk d, before;
    unsigned accepted = 0;
    for (int i = 0; i < STATES; i++) {
        wild(&d.state);
        if (i % 4 != 0) {
            near(&d.state);
        }
        memset(d.out, GUARD, SIZE);
        size_t size = below(SIZE);
        int row = (int)below(CALLS + 2);
        before = d;
        fringewell_written written = any_call(&d, size, row);
        EXPECT(written.number == 0 ? accepted_well(written, &before, &d, size, row) : refused_well(written, &before, &d, row));
        accepted += written.number == 0;
    }
    EXPECT(accepted > STATES / 10 && accepted < STATES * 9 / 10); /* both are met often enough to mean something */
    return held();
}
