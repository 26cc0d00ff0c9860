/*
 * A reader of Linux's BPF ring buffers with the interface of libbpf's: include this header in place of <bpf/libbpf.h>, and link with libheskavo.a.
 *
 * Header only. It maps a ring (Linux Documentation/bpf/ringbuf.rst), and loads each record's header as one number.
 * heskavo_linux_page reports, once for a page, which numbers are the headers of submitted records, and
 * heskavo_linux_record what another number means. So the meaning of a header is proved. The loads, the stores, the
 * mapping, and the comparison of a number with these bounds are this file's. Differences from libbpf 1.x:
 * a header that no kernel writes ends a call with -EBADMSG, where libbpf trusts it; and of the interface there are new, free, add, poll, consume and epoll_fd.
 *
 * As with libbpf, one thread at a time uses a `struct ring_buffer`.
 */
#ifndef HESKAVO_LINUX_H
#define HESKAVO_LINUX_H

#include "heskavo_host.h"
#include <errno.h>
#include <limits.h>
#include <linux/bpf.h>
#include <stdlib.h>
#include <string.h>
#include <sys/epoll.h>
#include <sys/mman.h>
#include <sys/syscall.h>
#include <unistd.h>

#ifdef __cplusplus
extern "C" {
#endif

/* How many pages the kernel has before a ring's data: the ring itself, the consumer's position and the producer's (RINGBUF_NR_META_PAGES). */
#define HESKAVO_LINUX_PAGES_BEFORE_DATA 3

/* Called for each record. A negative answer ends the call that made it, which returns it; the record counts as consumed. */
typedef int (*ring_buffer_sample_fn)(void *ctx, void *data, size_t size);

/* Options, as libbpf has them: `sz` is the size of the struct. There are none so far. */
struct ring_buffer_opts {
    size_t sz;
};

/* One ring: its memory, and what is called for its records. */
struct heskavo_linux_ring {
    ring_buffer_sample_fn sample_cb;
    void *ctx;
    uint64_t *consumer; /* a page of which only the consumer's position is read or written */
    uint64_t *producer; /* a page with the producer's position, and then the data, twice in a row */
    unsigned char *data;
    uint64_t size;
};

struct ring_buffer {
    struct heskavo_linux_ring *rings;
    struct epoll_event *events;
    size_t count, page;
    int epoll;
};

/* Returns the size of a ring map's data in bytes; 0, with errno, if the file descriptor is no ring map. */
static inline uint64_t heskavo_linux_size(int map_fd) {
    struct bpf_map_info info;
    union bpf_attr attr;
    memset(&info, 0, sizeof info);
    memset(&attr, 0, sizeof attr);
    attr.info.bpf_fd = (uint32_t)map_fd;
    attr.info.info_len = sizeof info;
    attr.info.info = (uint64_t)(uintptr_t)&info;
    if (syscall(SYS_bpf, BPF_OBJ_GET_INFO_BY_FD, &attr, sizeof attr) != 0) return 0;
    if (info.type == BPF_MAP_TYPE_RINGBUF) return info.max_entries;
    errno = EINVAL;
    return 0;
}

static inline void heskavo_linux_unmap(const struct heskavo_linux_ring *ring, size_t page) {
    if (ring->consumer) munmap(ring->consumer, page);
    if (ring->producer) munmap(ring->producer, page + 2 * ring->size);
}

/* Maps a ring with `size` bytes of data; returns 0, or a negative error. */
static inline int heskavo_linux_map(struct heskavo_linux_ring *ring, int map_fd, uint64_t size, size_t page) {
    void *consumer = mmap(NULL, page, PROT_READ | PROT_WRITE, MAP_SHARED, map_fd, 0);
    if (consumer == MAP_FAILED) return -errno;
    ring->consumer = (uint64_t *)consumer;
    ring->size = size;
    void *producer = mmap(NULL, page + 2 * size, PROT_READ, MAP_SHARED, map_fd, (off_t)page);
    if (producer == MAP_FAILED) return -errno;
    ring->producer = (uint64_t *)producer;
    ring->data = (unsigned char *)producer + page;
    return 0;
}

/* Loads a header as one number. The kernel stores the length word last, so a committed record's bytes are there with it. A header lies at a multiple of 8. */
static inline uint64_t heskavo_linux_load(const unsigned char *header) {
    uint64_t number = __atomic_load_n((const uint64_t *)header, __ATOMIC_ACQUIRE);
#if __BYTE_ORDER__ == __ORDER_BIG_ENDIAN__
    number = number >> 32 | number << 32;
#endif
    return number;
}

/* Passes over the record at `*position`, whose header is not that of a submitted record: returns 1 if it was discarded,
 * 0 if it is busy, and -EBADMSG if no kernel writes such a header. */
static inline int heskavo_linux_pass(const struct heskavo_linux_ring *ring, uint64_t number, uint64_t *position) {
    struct heskavo_linux_record record;
    const uint32_t pages = HESKAVO_LINUX_PAGES_BEFORE_DATA;
    uint32_t status = heskavo_linux_record(number, ring->size, *position, pages, &record);
    if (status == HESKAVO_MORE) return 0;
    if (status != HESKAVO_DONE || !record.discarded) return -EBADMSG;
    *position = record.next;
    return 1;
}

/* Consumes the records of a ring up to the first that is busy; returns how many samples there were, or a negative error: the callback's, whose record is
 * consumed, or -EBADMSG for a header that no kernel writes, at which the consumer stays. */
static inline int64_t heskavo_linux_drain(const struct heskavo_linux_ring *ring) {
    unsigned char *const data = ring->data;
    const uint64_t size = ring->size;
    uint64_t position = __atomic_load_n(ring->consumer, __ATOMIC_ACQUIRE), end;
    uint64_t first = 0, to_span = 0, max_len = 0, page_end = 0;
    int64_t samples = 0;
    while (position < (end = __atomic_load_n(ring->producer, __ATOMIC_ACQUIRE)))
        while (position < end) {
            if (position >= page_end) {
                struct heskavo_linux_page page;
                const uint32_t pages = HESKAVO_LINUX_PAGES_BEFORE_DATA;
                if (heskavo_linux_page(size, position, pages, &page) != HESKAVO_DONE) return -EBADMSG;
                first = page.first;
                to_span = 15 - first;
                max_len = page.max_len;
                page_end = page.end;
            }
            unsigned char *header = data + (position & (size - 1));
            const uint64_t number = heskavo_linux_load(header), len = number - first;
            if (len <= max_len) {
                /* 8 and `len`, rounded up to a multiple of 8; without `len`, since the next load waits for this sum. */
                position += (number + to_span) & ~(uint64_t)7;
                samples++;
                int answer = ring->sample_cb(ring->ctx, header + 8, (size_t)len);
                __atomic_store_n(ring->consumer, position, __ATOMIC_RELEASE);
                if (answer < 0) return answer;
            } else {
                int passed = heskavo_linux_pass(ring, number, &position);
                if (passed <= 0) return passed < 0 ? passed : samples;
                __atomic_store_n(ring->consumer, position, __ATOMIC_RELEASE);
            }
        }
    return samples;
}

/* Frees the rings and closes the epoll instance; the maps stay open. */
static inline void ring_buffer__free(struct ring_buffer *rb) {
    if (!rb) return;
    for (size_t i = 0; i < rb->count; i++) heskavo_linux_unmap(&rb->rings[i], rb->page);
    if (rb->epoll >= 0) close(rb->epoll);
    free(rb->rings);
    free(rb->events);
    free(rb);
}

/* Adds a ring; returns 0, or a negative error, and then the ring buffer is as it was. */
static inline int ring_buffer__add(struct ring_buffer *rb, int map_fd, ring_buffer_sample_fn sample_cb, void *ctx) {
    uint64_t size = heskavo_linux_size(map_fd);
    if (!size) return -errno;
    struct heskavo_linux_ring *rings = (struct heskavo_linux_ring *)realloc(rb->rings, (rb->count + 1) * sizeof *rings);
    if (!rings) return -ENOMEM;
    rb->rings = rings;
    struct epoll_event *events = (struct epoll_event *)realloc(rb->events, (rb->count + 1) * sizeof *events);
    if (!events) return -ENOMEM;
    rb->events = events;
    struct heskavo_linux_ring *ring = &rings[rb->count];
    memset(ring, 0, sizeof *ring);
    ring->sample_cb = sample_cb;
    ring->ctx = ctx;
    struct epoll_event event;
    memset(&event, 0, sizeof event);
    event.events = EPOLLIN;
    event.data.u64 = rb->count;
    int error = heskavo_linux_map(ring, map_fd, size, rb->page);
    if (!error && epoll_ctl(rb->epoll, EPOLL_CTL_ADD, map_fd, &event) != 0) error = -errno;
    if (error) heskavo_linux_unmap(ring, rb->page);
    else rb->count++;
    return error;
}

/* Returns a reader of one ring, or NULL with errno. */
static inline struct ring_buffer *ring_buffer__new(int map_fd, ring_buffer_sample_fn sample_cb, void *ctx, const struct ring_buffer_opts *opts) {
    (void)opts;
    struct ring_buffer *rb = (struct ring_buffer *)calloc(1, sizeof *rb);
    if (!rb) return NULL;
    rb->page = (size_t)sysconf(_SC_PAGESIZE);
    rb->epoll = epoll_create1(EPOLL_CLOEXEC);
    int error = rb->epoll < 0 ? -errno : ring_buffer__add(rb, map_fd, sample_cb, ctx);
    if (!error) return rb;
    ring_buffer__free(rb);
    errno = -error;
    return NULL;
}

/* Consumes what all rings have; returns the number of samples, at most INT_MAX, or a negative error. */
static inline int ring_buffer__consume(struct ring_buffer *rb) {
    int64_t all = 0;
    for (size_t i = 0; i < rb->count; i++) {
        int64_t samples = heskavo_linux_drain(&rb->rings[i]);
        if (samples < 0) return (int)samples;
        all += samples;
    }
    return all > INT_MAX ? INT_MAX : (int)all;
}

/* Waits up to `timeout_ms` milliseconds (-1: as long as it takes) for a ring with data, and consumes what the rings that have some hold. */
static inline int ring_buffer__poll(struct ring_buffer *rb, int timeout_ms) {
    int ready = epoll_wait(rb->epoll, rb->events, (int)rb->count, timeout_ms);
    if (ready < 0) return -errno;
    int64_t all = 0;
    for (int i = 0; i < ready; i++) {
        int64_t samples = heskavo_linux_drain(&rb->rings[rb->events[i].data.u64]);
        if (samples < 0) return (int)samples;
        all += samples;
    }
    return all > INT_MAX ? INT_MAX : (int)all;
}

/* Returns the file descriptor that is readable when a ring has data. */
static inline int ring_buffer__epoll_fd(const struct ring_buffer *rb) {
    return rb->epoll;
}

#ifdef __cplusplus
}
#endif

#endif
