// Times an append through the C boundary, with the state lent, and with the state copied in and out around it.
#include <stdio.h>
#include <string.h>
#include <time.h>

#include "fringewell.h"

enum { ROUNDS = 200, APPENDS = 2000, ROOM = 1 << 16 };

static uint8_t out[ROOM];

static double seconds(void)
{
    struct timespec now;
    clock_gettime(CLOCK_MONOTONIC, &now);
    return (double)now.tv_sec + 1e-9 * (double)now.tv_nsec;
}

// appends nulls under a key of four bytes; the best round, in nanoseconds an append
static double best(int copied)
{
    static const uint8_t key[] = "cell";
    double least = 1e9;
    for (int round = 0; round < ROUNDS; round++) {
        fringewell_state state = fringewell_state_new();
        fringewell_state copy;
        fringewell_state_open(&state, out, ROOM);
        double start = seconds();
        for (int i = 0; i < APPENDS; i++) {
            if (copied) {
                memcpy(&copy, &state, sizeof copy);
                fringewell_state_append_null(&copy, out, ROOM, key, 4);
                memcpy(&state, &copy, sizeof copy);
            } else {
                fringewell_state_append_null(&state, out, ROOM, key, 4);
            }
        }
        double each = (seconds() - start) * 1e9 / APPENDS;
        if (each < least)
            least = each;
    }
    return least;
}

int main(void)
{
    double lent = best(0);
    double copied = best(1);
    printf("an append with the state lent: %.1f ns\n", lent);
    printf("with the state copied in and out: %.1f ns, %.1f times as long\n", copied, copied / lent);
    return 0;
}
