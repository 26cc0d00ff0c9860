// The kernel ring's logic in user space (kernel/bpf/ringbuf.c): a spin lock around reserve, an atomic header word at commit, one circular
// buffer. It keeps no history and no counts. SIZE, its size in bytes, is a power of two that the includer defines.
#include <pthread.h>
#include <sched.h>
#include <stdatomic.h>
#include <stdint.h>
#include <string.h>

#define BUSY (1u << 31)
#define LENGTH 0x3fffffffu

static unsigned char bytes[SIZE * 2 + 8]; // twice, so that a record never wraps
static _Atomic uint64_t producer_position, consumer_position;
static pthread_spinlock_t lock;

static uint64_t span(uint32_t length) { return 8 + ((length + 7ull) & ~7ull); }

static _Atomic uint32_t *header_at(uint64_t position) { return (void *)(bytes + (position & (SIZE - 1))); }

// Returns the address of a record's bytes, or null if the ring has no room.
static void *ring_reserve(uint32_t length) {
    pthread_spin_lock(&lock);
    uint64_t position = atomic_load(&producer_position);
    if (position + span(length) - atomic_load(&consumer_position) > SIZE - 1) {
        pthread_spin_unlock(&lock);
        return 0;
    }
    _Atomic uint32_t *header = header_at(position);
    atomic_store(header, length | BUSY);
    header[1] = 0;
    atomic_store(&producer_position, position + span(length));
    pthread_spin_unlock(&lock);
    return (void *)(header + 2);
}

static void ring_submit(void *record) {
    _Atomic uint32_t *header = (_Atomic uint32_t *)record - 2;
    atomic_fetch_and(header, ~BUSY);
}

// Returns whether there was a record to take; its first byte is added to the sum.
static inline int ring_take(uint64_t *sum) {
    uint64_t position = atomic_load(&consumer_position);
    if (position == atomic_load(&producer_position)) return 0;
    _Atomic uint32_t *header = header_at(position);
    uint32_t word = atomic_load(header);
    if (word & BUSY) return 0;
    *sum += *(unsigned char *)(header + 2);
    atomic_store(&consumer_position, position + span(word & LENGTH));
    return 1;
}
