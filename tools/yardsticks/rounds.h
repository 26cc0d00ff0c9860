// What the yardsticks in C share: the clock, and a round's line.
#include <stdint.h>
#include <stdio.h>
#include <time.h>

// The number of rounds that are reported, after a warm-up round that is not: the same as in `rb_trials bench`.
#define ROUNDS 3

static uint64_t now(void) {
    struct timespec t;
    clock_gettime(CLOCK_MONOTONIC, &t);
    return (uint64_t)t.tv_sec * 1000000000u + (uint64_t)t.tv_nsec;
}

// Prints a round's line: its nanoseconds, and the number of records or jobs that were refused.
static void tell(uint64_t nanos, uint64_t refused) {
    printf("%llu %llu\n", (unsigned long long)nanos, (unsigned long long)refused);
}
