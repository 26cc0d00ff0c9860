// The throughput that the lock of a ring allows: a queue of one place, like Heskavo's lock, and under it what its ring writes for a record of eight bytes: three
// entries, the record and its slot. No program is run and nothing is tested, so it is a bound for whole jobs and not a usable ring.
// Usage: lock_model WORKERS JOBS [OUTSIDE [WAIT]]
// JOBS for each worker; OUTSIDE: how often a job counts outside the lock (0); WAIT: how a worker waits if the lock is taken: `long` like Heskavo's
// (the default), `spin` for as long without yielding the processor, or `short` for four pauses each time.
// Prints a line for each of three rounds: its nanoseconds, and the number of jobs that found no room.
#define _GNU_SOURCE
#include "rounds.h"
#include "workers.h"
#include <pthread.h>
#include <sched.h>
#include <stdatomic.h>
#include <stdlib.h>
#include <string.h>

#define SIZE (1u << 20)     // the ring's bytes
#define ENTRIES (2u * 65536) // two chapters
#define PLACES 65536u       // of records, and of slots
#define BATCH 512
#define SPAN 16             // of a record of eight bytes, with its header

enum wait { LONG, SPIN, SHORT };

// ---- the lock: crossbeam's ArrayQueue with one place, whose words are in separate cache lines

struct word { _Alignas(128) _Atomic uint64_t value; };

static struct word tail, head, stamp, batch_is_taken;
static void *place;

static void pause_for(int times) {
    for (int i = 0; i < times; i++) __builtin_ia32_pause();
}

static void *pop(void) {
    uint64_t at = atomic_load(&head.value);
    for (;;) {
        uint64_t found = atomic_load(&stamp.value);
        if (found == at + 1) {
            if (!atomic_compare_exchange_strong(&head.value, &at, at + 2)) continue;
            void *popped = place;
            place = 0;
            atomic_store(&stamp.value, at + 2);
            return popped;
        }
        if (found == at && atomic_load(&tail.value) == at) return 0;
        pause_for(1);
        at = atomic_load(&head.value);
    }
}

static void push(void *pushed) {
    uint64_t at = atomic_load(&tail.value);
    while (!atomic_compare_exchange_strong(&tail.value, &at, at + 2)) pause_for(1);
    place = pushed;
    atomic_store(&stamp.value, at + 1);
}

// ---- the ring's state, in the sizes of Heskavo's

struct entry { uint32_t kind, worker, length, unused; uint64_t serial, position; };
struct record { uint64_t position; uint32_t length, worker; uint64_t serial, status; };
struct slot { uint64_t form; unsigned char bytes[16]; uint64_t length, more; };
struct tally { uint64_t made, submitted, refused, discarded; };
struct reservation { uint64_t position, serial, ordinal; struct slot slot; };

static struct state {
    uint64_t producer, consumer, granted, taken, logged;
    struct tally tallies[64];
    struct entry entries[ENTRIES];
    struct record records[PLACES];
    struct slot slots[PLACES];
} ring;

static void write_entry(struct state *s, uint32_t kind, uint32_t worker, uint64_t serial, uint64_t position) {
    s->entries[s->logged++ % ENTRIES] = (struct entry){kind, worker, 8, 0, serial, position};
}

static int reserve(struct state *s, uint32_t worker, struct reservation *out) {
    if (s->producer - s->consumer + SPAN >= SIZE) return 0;
    out->position = s->producer;
    out->serial = s->tallies[worker].made++;
    out->ordinal = s->granted++;
    s->producer += SPAN;
    s->records[out->ordinal % PLACES] = (struct record){out->position, 8, worker, out->serial, 0};
    write_entry(s, 0, worker, out->serial, out->position);
    return 1;
}

static void submit(struct state *s, uint32_t worker, struct reservation *in) {
    s->records[in->ordinal % PLACES].status = 1;
    s->slots[in->ordinal % PLACES] = in->slot;
    s->tallies[worker].submitted++;
    write_entry(s, 1, worker, in->serial, in->position);
}

static int take(struct state *s, struct reservation *out) {
    if (s->taken == s->granted) return 0;
    struct record *front = &s->records[s->taken % PLACES];
    if (!front->status) return 0;
    *out = (struct reservation){front->position, front->serial, s->taken, s->slots[s->taken % PLACES]};
    s->taken++;
    s->consumer += SPAN;
    write_entry(s, 2, front->worker, 0, out->position);
    return 1;
}

// ---- threads

static uint64_t jobs, outside;
static enum wait wait;

// Backs off this many times: seven times for 1, 2, 4 .. 64 pauses, and from then on by yielding.
static void back_off(uint32_t times) {
    for (uint32_t i = 0; i < times; i++) {
        if (i < 7) pause_for(1 << i);
        else sched_yield();
    }
}

static struct state *take_out(void) {
    int has_just_come = 1;
    for (uint32_t times = 11;; times = times < 44 ? 2 * times : 88, has_just_come = 0) {
        struct state *found = pop();
        if (found) return found;
        if (wait == SHORT) pause_for(4);
        else if (wait == SPIN) pause_for(8 * (int)times);
        else if (has_just_come && atomic_load(&batch_is_taken.value)) {
            for (uint32_t i = 0; i < 88 && atomic_load(&batch_is_taken.value); i++) {
                if (i < 7) pause_for(1 << i);
                else sched_yield();
            }
        } else back_off(times);
    }
}

static void *work(void *number) {
    uint32_t worker = (uint32_t)(uintptr_t)number;
    unsigned char stack[512];
    struct reservation own = {0};
    for (uint64_t job = 0; job < jobs; job++) {
        memset(stack, 0, sizeof stack);
        __asm__ volatile("" : : "r"(stack) : "memory");
        for (uint64_t i = 0; i < outside; i++) __asm__ volatile("" : : : "memory");
        own.slot = (struct slot){.length = 8};
        struct state *s = take_out();
        int granted = reserve(s, worker, &own);
        push(s);
        if (!granted) {
            atomic_fetch_add(&refused, 1);
            continue;
        }
        memcpy(own.slot.bytes, &job, 8);
        s = take_out();
        submit(s, worker, &own);
        push(s);
    }
    return 0;
}

static void *consume(void *unused) {
    (void)unused;
    static struct reservation batch[BATCH];
    uint64_t sum = 0;
    for (int pauses = 1024, times = 11;;) {
        int last = atomic_load(&ended), count = 0;
        struct state *s = take_out();
        atomic_store(&batch_is_taken.value, 1);
        while (count < BATCH && take(s, &batch[count])) count++;
        push(s);
        atomic_store(&batch_is_taken.value, 0);
        for (int i = 0; i < count; i++) sum += batch[i].slot.bytes[0];
        if (count == 0) {
            if (last) return (void *)(uintptr_t)sum;
            back_off((uint32_t)times);
            times = times < 44 ? 2 * times : 88;
            continue;
        }
        times = 11;
        pauses = count >= BATCH / 2 ? pauses / 2 : pauses * 2;
        pauses = pauses < 1024 ? 1024 : pauses > 65536 ? 65536 : pauses;
        for (int i = 0; count < BATCH && i < pauses && !atomic_load(&ended); i++) {}
    }
}

int main(int count, char **words) {
    if (count < 3 || count > 5) return 2;
    int workers = atoi(words[1]);
    jobs = strtoull(words[2], 0, 10);
    if (workers < 1 || workers > 64) return 2;
    if (count > 3) outside = strtoull(words[3], 0, 10);
    if (count > 4) wait = strcmp(words[4], "short") == 0 ? SHORT : strcmp(words[4], "spin") == 0 ? SPIN : LONG;
    push(&ring);
    for (int round = 0; round <= ROUNDS; round++) {
        uint64_t began = now();
        all_jobs(workers, work, consume);
        if (round > 0) tell(now() - began, refused);
    }
    return 0;
}
