/*
 * Four producers and one consumer share a ring of an engine: a mutex orders their calls.
 *
 *     gcc -O2 -pthread -Iinclude examples/embed/c/threads.c libheskavo.a -o threads && ./threads [RECORDS]
 *
 * Each producer puts RECORDS records (100,000 unless given) with its number and the record's; if the ring is full, it lets the others go on. The consumer takes
 * them all, and checks that each follows the one before it in the ring without a gap, and that each producer's come in their order.
 */
#include "heskavo_host.h"
#include <inttypes.h>
#include <pthread.h>
#include <sched.h>
#include <stdio.h>
#include <stdlib.h>

enum { PRODUCERS = 4, RING = 0, RING_BYTES = 65536, HEADER = 8 };

struct payload {
    uint64_t producer;
    uint64_t number;
};

struct shared {
    pthread_mutex_t lock;
    struct heskavo_engine engine;
    uint64_t records; /* how many each producer puts */
};

struct producer {
    struct shared *shared;
    uint64_t number;
};

static void fail(const char *what) {
    fprintf(stderr, "threads: %s\n", what);
    exit(1);
}

static uint32_t put(struct shared *shared, const struct payload *payload) {
    pthread_mutex_lock(&shared->lock);
    uint32_t status = heskavo_engine_put(&shared->engine, RING, (const uint8_t *)payload, sizeof *payload, 0);
    pthread_mutex_unlock(&shared->lock);
    return status;
}

static uint32_t take(struct shared *shared, struct payload *payload, struct heskavo_taken_record *record) {
    pthread_mutex_lock(&shared->lock);
    uint32_t status = heskavo_engine_take(&shared->engine, RING, (uint8_t *)payload, sizeof *payload, record);
    pthread_mutex_unlock(&shared->lock);
    return status;
}

static void *produce(void *given) {
    const struct producer *self = given;
    struct payload payload = {self->number, 0};
    while (payload.number < self->shared->records) {
        uint32_t status = put(self->shared, &payload);
        if (status == HESKAVO_DONE) payload.number++;
        else if (status == HESKAVO_FULL) sched_yield();
        else fail("a record was not put");
    }
    return NULL;
}

/* Takes all records, and checks their order. */
static void consume(struct shared *shared) {
    uint64_t next[PRODUCERS] = {0}, taken = 0, position = 0;
    while (taken < PRODUCERS * shared->records) {
        struct payload payload;
        struct heskavo_taken_record record;
        uint32_t status = take(shared, &payload, &record);
        if (status == HESKAVO_EMPTY) {
            sched_yield();
            continue;
        }
        if (status != HESKAVO_DONE || record.len != sizeof payload || record.discarded) fail("a record was not taken");
        if (record.position != position) fail("a record does not follow the one before it");
        if (payload.producer >= PRODUCERS || payload.number != next[payload.producer]) fail("a producer's records are not in order");
        next[payload.producer]++;
        position += HEADER + sizeof payload;
        taken++;
    }
}

int main(int count, char **words) {
    static const uint64_t sizes[] = {RING_BYTES};
    struct shared shared = {.lock = PTHREAD_MUTEX_INITIALIZER, .engine = {0}, .records = count > 1 ? strtoull(words[1], NULL, 10) : 100000};
    struct producer producers[PRODUCERS];
    pthread_t threads[PRODUCERS];
    struct heskavo_ring_counts counts;
    if (heskavo_engine_open(sizes, 1, 0, &shared.engine) != HESKAVO_DONE) fail("no engine was opened");
    for (uint64_t number = 0; number < PRODUCERS; number++) {
        producers[number] = (struct producer){&shared, number};
        if (pthread_create(&threads[number], NULL, produce, &producers[number])) fail("no thread was started");
    }
    consume(&shared);
    for (int number = 0; number < PRODUCERS; number++) pthread_join(threads[number], NULL);
    if (heskavo_engine_counts(&shared.engine, RING, &counts) != HESKAVO_DONE) fail("no counts");
    printf("made %" PRIu64 " consumed %" PRIu64 " discarded %" PRIu64 " waiting %" PRIu64 " busy %" PRIu64 "\n", counts.made, counts.consumed, counts.discarded,
           counts.waiting, counts.busy);
    heskavo_engine_close(&shared.engine);
    return 0;
}
