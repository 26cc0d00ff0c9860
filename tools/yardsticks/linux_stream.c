// A stream host over Linux: the threads of stream_threads.h, a filter that Linux runs by BPF_PROG_TEST_RUN, and libbpf's ring_buffer__poll.
// Usage: linux_stream WORKERS < CONTEXTS > RECORDS. The status is 3 if bpf(2) is refused.
#define SIZE (1u << 20)
#include "../linux/bpf_calls.h"
#include "stream_threads.h"
#include <bpf/libbpf.h>

#define HEADER 8

static int program, ring;

static uint64_t run_filter(unsigned char *context) {
    uint32_t result;
    if (run_program(program, context, CONTEXT, &result) != 0) exit(1);
    return result;
}

struct written {
    unsigned char bytes[PIECE];
    size_t length;
    uint64_t records;
};

static void write_out(struct written *out) {
    write_all(out->bytes, out->length);
    out->length = 0;
}

static int append(void *of, void *record, size_t length) {
    struct written *out = of;
    size_t all = HEADER + (length + 7) / 8 * 8;
    if (out->length + all > sizeof out->bytes) write_out(out);
    memset(out->bytes + out->length, 0, all);
    memcpy(out->bytes + out->length, &(uint32_t){(uint32_t)length}, 4);
    memcpy(out->bytes + out->length + HEADER, record, length);
    out->length += all;
    out->records++;
    return 0;
}

static void *consume(void *unused) {
    (void)unused;
    static struct written out;
    struct ring_buffer *rings = ring_buffer__new(ring, append, &out, 0);
    if (!rings) exit(1);
    for (;;) {
        int last = atomic_load(&has_run);
        if (ring_buffer__poll(rings, 10) < 0) exit(1);
        write_out(&out);
        if (last) break;
    }
    ring_buffer__consume(rings);
    write_out(&out);
    return (void *)(uintptr_t)out.records;
}

#define LOAD_RING {.code = 0x18, .dst_reg = 1, .src_reg = BPF_PSEUDO_MAP_IDX}, {.code = 0}
static struct bpf_insn instructions[] = {FILTER(LOAD_RING, BPF_FUNC_ringbuf_reserve, BPF_FUNC_ringbuf_submit)};

int main(int count, char **words) {
    ring = make_ring(SIZE);
    if (ring < 0) return refused_here();
    struct load load = {BPF_PROG_TYPE_SYSCALL, BPF_F_SLEEPABLE, instructions, sizeof instructions / sizeof *instructions, &ring};
    program = load_program(&load, 0, 0);
    if (program < 0) return refused_here();
    return stream(count == 2 ? words[1] : 0);
}
