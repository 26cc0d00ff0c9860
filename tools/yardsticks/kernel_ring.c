// Records through the kernel ring's logic in user space.
// Usage: kernel_ring RECORDS LENGTH PRODUCERS     (0 producers: one thread reserves, writes, submits and takes in turn)
// Prints a line for each of three rounds: its nanoseconds, and 0.
#define SIZE (1u << 16)
#include "kernel_ring.h"
#include "rounds.h"
#include <stdlib.h>

static uint64_t records;
static uint32_t length;
static unsigned char filled[4096];

static void *produce(void *count) {
    for (uint64_t left = (uint64_t)count; left > 0;) {
        void *record = ring_reserve(length);
        if (!record) {
            sched_yield();
            continue;
        }
        memcpy(record, filled, length);
        ring_submit(record);
        left--;
    }
    return 0;
}

static void consume(uint64_t wanted) {
    uint64_t taken = 0, sum = 0;
    while (taken < wanted) {
        if (ring_take(&sum)) taken++;
        else sched_yield();
    }
}

static void one_thread(void) {
    for (uint64_t i = 0; i < records; i++) {
        void *record = ring_reserve(length);
        memcpy(record, filled, length);
        ring_submit(record);
        consume(1);
    }
}

static void threads(int producers) {
    pthread_t made[64];
    for (int i = 0; i < producers; i++) pthread_create(&made[i], 0, produce, (void *)(records / producers));
    consume(records / producers * producers);
    for (int i = 0; i < producers; i++) pthread_join(made[i], 0);
}

int main(int count, char **words) {
    if (count != 4) return 2;
    records = strtoull(words[1], 0, 10);
    length = strtoul(words[2], 0, 10);
    int producers = atoi(words[3]);
    if (length > sizeof filled || producers < 0 || producers > 64) return 2;
    memset(filled, 42, sizeof filled);
    pthread_spin_init(&lock, 0);
    for (int round = 0; round <= ROUNDS; round++) {
        uint64_t began = now();
        if (producers == 0) one_thread();
        else threads(producers);
        if (round > 0) tell(now() - began, 0);
    }
    return 0;
}
