// A ring buffer map of Linux as its consumer sees it (Documentation/bpf/ringbuf.rst): a page with the consumer's position, one with the
// producer's, and the data mapped twice in a row, so that a record that wraps around is contiguous.
#include <stdint.h>
#include <stdio.h>
#include <sys/mman.h>
#include <unistd.h>

// A header: the length in bits 0 to 29, whether the record was discarded, whether it is busy; then the page of the record, counted from the map's own.
#define DISCARDED (1u << 30)
#define BUSY (1u << 31)
#define HEADER 8
// The number of pages before the data, as the header counts them: the map's own, the consumer's and the producer's.
#define PAGES_BEFORE_DATA 3

struct ring_map {
    int map;
    uint64_t size;
    volatile uint64_t *consumer, *producer;
    const unsigned char *data;
};

struct ring_record {
    uint64_t position;
    uint32_t length, page;
    int discarded;
    const unsigned char *bytes;
};

// Maps a ring of this size; returns -1 with errno if that is refused.
static inline int map_ring(struct ring_map *ring, int map, uint64_t size) {
    size_t page = (size_t)sysconf(_SC_PAGESIZE);
    void *consumer = mmap(0, page, PROT_READ | PROT_WRITE, MAP_SHARED, map, 0);
    if (consumer == MAP_FAILED) return -1;
    unsigned char *producer = mmap(0, page + 2 * size, PROT_READ, MAP_SHARED, map, (off_t)page);
    if (producer == MAP_FAILED) {
        munmap(consumer, page);
        return -1;
    }
    *ring = (struct ring_map){map, size, consumer, (void *)producer, producer + page};
    return 0;
}

static inline void unmap_ring(struct ring_map *ring) {
    size_t page = (size_t)sysconf(_SC_PAGESIZE);
    munmap((void *)ring->consumer, page);
    munmap((void *)ring->producer, page + 2 * ring->size);
}

static inline uint64_t consumer_of(const struct ring_map *ring) {
    return __atomic_load_n(ring->consumer, __ATOMIC_ACQUIRE);
}

static inline uint64_t producer_of(const struct ring_map *ring) {
    return __atomic_load_n(ring->producer, __ATOMIC_ACQUIRE);
}

// Returns the span of a record: its header, and its bytes rounded up to a multiple of eight.
static inline uint64_t span(uint32_t length) {
    return HEADER + ((uint64_t)length + 7) / 8 * 8;
}

// Returns whether there is a record at a position that is not busy, and the record.
static inline int record_at(const struct ring_map *ring, uint64_t position, struct ring_record *record) {
    if (position >= producer_of(ring)) return 0;
    const unsigned char *header = ring->data + (position & (ring->size - 1));
    uint32_t word = __atomic_load_n((const uint32_t *)header, __ATOMIC_ACQUIRE);
    if (word & BUSY) return 0;
    uint32_t page = ((const uint32_t *)header)[1];
    *record = (struct ring_record){position, word & ~DISCARDED, page, (word & DISCARDED) != 0, header + HEADER};
    return 1;
}

// Returns whether there is a next record, and the record; `give_back` releases its bytes to the producers.
static inline int next_record(const struct ring_map *ring, struct ring_record *record) {
    return record_at(ring, consumer_of(ring), record);
}

static inline void give_back(struct ring_map *ring, const struct ring_record *record) {
    __atomic_store_n(ring->consumer, record->position + span(record->length), __ATOMIC_RELEASE);
}

// Releases all bytes below a position to the producers. The store is ordered before any later load of this thread: so either the thread finds that the record
// at this position is committed, or the kernel finds, when it commits it, that the consumer has reached it, and wakes it.
static inline void give_back_to(struct ring_map *ring, uint64_t position) {
    __atomic_store_n(ring->consumer, position, __ATOMIC_SEQ_CST);
}
