// A stream host from known parts: the threads of stream_threads.h, a filter by DPDK's interpreter, and the kernel ring's logic.
// Usage: stream_host WORKERS < CONTEXTS > RECORDS
#define SIZE (1u << 20)
#include "kernel_ring.h"
#include "stream_threads.h"
#include <rte_bpf.h>

static struct rte_bpf *program;

static uint64_t reserve(uint64_t ring, uint64_t size, uint64_t flags, uint64_t d, uint64_t e) {
    (void)ring, (void)flags, (void)d, (void)e;
    void *record = ring_reserve((uint32_t)size);
    if (record) memset(record, 0, size);
    return (uint64_t)(uintptr_t)record;
}

static uint64_t submit(uint64_t record, uint64_t flags, uint64_t c, uint64_t d, uint64_t e) {
    (void)flags, (void)c, (void)d, (void)e;
    ring_submit((void *)(uintptr_t)record);
    return 0;
}

static uint64_t run_filter(unsigned char *context) { return rte_bpf_exec(program, context); }

static void *consume(void *unused) {
    (void)unused;
    static unsigned char out[PIECE];
    size_t length = 0;
    uint64_t records = 0;
    for (;;) {
        int last = atomic_load(&has_run);
        uint64_t position = atomic_load(&consumer_position);
        _Atomic uint32_t *header = header_at(position);
        uint32_t word = position == atomic_load(&producer_position) ? BUSY : atomic_load(header);
        if (word & BUSY) {
            write_all(out, length);
            length = 0;
            if (last) return (void *)(uintptr_t)records;
            sched_yield();
            continue;
        }
        uint64_t bytes_of_record = span(word & LENGTH);
        if (length + bytes_of_record > sizeof out) {
            write_all(out, length);
            length = 0;
        }
        memcpy(out + length, (const void *)header, bytes_of_record);
        length += bytes_of_record;
        records++;
        atomic_store(&consumer_position, position + bytes_of_record);
    }
}

#define LOAD_RING {.code = 0xb7, .dst_reg = 1, .imm = 0}
static struct ebpf_insn instructions[] = {FILTER(LOAD_RING, 0, 1)};

static struct rte_bpf *load(void) {
    static struct rte_bpf_xsym helpers[2] = {
        {.name = "reserve", .type = RTE_BPF_XTYPE_FUNC, .func = {.val = reserve, .nb_args = 3, .ret = {RTE_BPF_ARG_PTR, RECORD, 0}}},
        {.name = "submit", .type = RTE_BPF_XTYPE_FUNC, .func = {.val = submit, .nb_args = 2, .ret = {RTE_BPF_ARG_RAW, 8, 0}}},
    };
    for (int i = 0; i < 3; i++) helpers[0].func.args[i] = (struct rte_bpf_arg){RTE_BPF_ARG_RAW, 8, 0};
    helpers[1].func.args[0] = (struct rte_bpf_arg){RTE_BPF_ARG_PTR, RECORD, 0};
    helpers[1].func.args[1] = (struct rte_bpf_arg){RTE_BPF_ARG_RAW, 8, 0};
    struct rte_bpf_prm given = {
        .ins = instructions,
        .nb_ins = sizeof instructions / sizeof *instructions,
        .xsym = helpers,
        .nb_xsym = 2,
        .prog_arg = {.type = RTE_BPF_ARG_PTR, .size = CONTEXT},
    };
    return rte_bpf_load(&given);
}

int main(int count, char **words) {
    program = load();
    if (!program) return 1;
    pthread_spin_init(&lock, 0);
    return stream(count == 2 ? words[1] : 0);
}
