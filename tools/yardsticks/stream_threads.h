// A stream host as a C programmer would build it: one thread reads contexts from standard input (read(2), 64 KiB at a time) and deals them to the
// workers in turn, through one single-producer queue of 64 pieces each; the workers run a filter; one consumer writes the records to standard output
// (write(2), 64 KiB at a time, and whenever the ring is empty). The includer defines how a context is filtered, and the consumer.
#include "stream_programs.h"
#include <errno.h>
#include <pthread.h>
#include <sched.h>
#include <stdatomic.h>
#include <stdint.h>
#include <stdio.h>
#include <stdlib.h>
#include <string.h>
#include <unistd.h>

#define PIECE 65536u
#define PIECES 64u
#define MOST_WORKERS 64

struct piece {
    uint32_t length;
    unsigned char bytes[PIECE];
};

// A queue with one producer and one consumer.
struct queue {
    _Alignas(64) _Atomic uint32_t head;
    _Alignas(64) _Atomic uint32_t tail;
    struct piece *at[PIECES];
};

struct worker {
    struct queue full, empty;
    uint64_t contexts, refused;
};

static struct worker workers[MOST_WORKERS];
static int worker_count;
static _Atomic int has_ended, has_run;

static int push(struct queue *queue, struct piece *piece) {
    uint32_t tail = atomic_load_explicit(&queue->tail, memory_order_relaxed);
    if (tail - atomic_load_explicit(&queue->head, memory_order_acquire) == PIECES) return 0;
    queue->at[tail % PIECES] = piece;
    atomic_store_explicit(&queue->tail, tail + 1, memory_order_release);
    return 1;
}

static struct piece *pop(struct queue *queue) {
    uint32_t head = atomic_load_explicit(&queue->head, memory_order_relaxed);
    if (head == atomic_load_explicit(&queue->tail, memory_order_acquire)) return 0;
    struct piece *piece = queue->at[head % PIECES];
    atomic_store_explicit(&queue->head, head + 1, memory_order_release);
    return piece;
}

// Runs the filter over a context, and returns its result.
static uint64_t run_filter(unsigned char *context);

// Writes all records to standard output until `has_run` is set and no record is left, and returns their number.
static void *consume(void *unused);

// Returns a piece that is empty: a used one, a new one while there are fewer than a queue holds, or one that a worker returns in the meantime.
static struct piece *empty_piece(struct worker *worker, uint32_t *made) {
    for (;;) {
        struct piece *piece = pop(&worker->empty);
        if (piece) return piece;
        if (*made < PIECES) {
            ++*made;
            return malloc(sizeof(struct piece));
        }
        sched_yield();
    }
}

// Reads what one read(2) brings and the rest of its last context, and returns its length: 0 at the end of the input.
static uint32_t fill(unsigned char *bytes) {
    uint32_t length = 0;
    while (length == 0 || length % CONTEXT != 0) {
        ssize_t got = read(0, bytes + length, PIECE - length);
        if (got < 0 && errno == EINTR) continue;
        if (got <= 0) return length - length % CONTEXT;
        length += (uint32_t)got;
    }
    return length;
}

static void deal(void) {
    uint32_t made[MOST_WORKERS] = {0};
    for (int turn = 0;; turn = (turn + 1) % worker_count) {
        struct worker *worker = &workers[turn];
        struct piece *piece = empty_piece(worker, &made[turn]);
        piece->length = fill(piece->bytes);
        if (piece->length == 0) break;
        while (!push(&worker->full, piece)) sched_yield();
    }
    atomic_store(&has_ended, 1);
}

static void *work(void *of) {
    struct worker *worker = of;
    for (;;) {
        int last = atomic_load(&has_ended);
        struct piece *piece = pop(&worker->full);
        if (!piece) {
            if (last) return 0;
            sched_yield();
            continue;
        }
        for (uint32_t at = 0; at < piece->length; at += CONTEXT) worker->refused += run_filter(piece->bytes + at) == 2;
        worker->contexts += piece->length / CONTEXT;
        push(&worker->empty, piece);
    }
}

static void write_all(const unsigned char *from, size_t length) {
    while (length > 0) {
        ssize_t put = write(1, from, length);
        if (put < 0 && errno == EINTR) continue;
        if (put <= 0) exit(1);
        from += put;
        length -= (size_t)put;
    }
}


// Runs the host, and prints the number of contexts, of records, and of contexts whose record found no room, on standard error.
static int stream(const char *worker_word) {
    worker_count = worker_word ? atoi(worker_word) : 0;
    if (worker_count < 1 || worker_count > MOST_WORKERS) return 2;
    pthread_t threads[MOST_WORKERS], consumer;
    pthread_create(&consumer, 0, consume, 0);
    for (int i = 0; i < worker_count; i++) pthread_create(&threads[i], 0, work, &workers[i]);
    deal();
    uint64_t contexts = 0, refused = 0;
    for (int i = 0; i < worker_count; i++) {
        pthread_join(threads[i], 0);
        contexts += workers[i].contexts;
        refused += workers[i].refused;
    }
    atomic_store(&has_run, 1);
    void *records;
    pthread_join(consumer, &records);
    fprintf(stderr, "contexts %llu records %llu refused %llu\n", (unsigned long long)contexts, (unsigned long long)(uintptr_t)records, (unsigned long long)refused);
    return 0;
}
