// Whole jobs as a user would build them from known parts: DPDK's eBPF interpreter runs a program that reserves a record of eight bytes, ends with
// 1 if it got none, and otherwise stores 42 there and submits it; its two helpers are the kernel ring's logic, on worker threads with one consumer.
// Usage: jobs WORKERS JOBS     (JOBS for each worker; with 0 workers one thread runs JOBS jobs, and takes each record itself)
// Prints a line for each of three rounds: its nanoseconds, and the number of jobs that got no record.
#define SIZE (1u << 20)
#include "kernel_ring.h"
#include "rounds.h"
#include "workers.h"
#include <rte_bpf.h>
#include <stdlib.h>

static uint64_t jobs;
static struct rte_bpf *program;

static uint64_t reserve(uint64_t ring, uint64_t size, uint64_t flags, uint64_t d, uint64_t e) {
    (void)ring, (void)flags, (void)d, (void)e;
    void *record = ring_reserve((uint32_t)size);
    if (record) memset(record, 0, size);
    return (uint64_t)(uintptr_t)record;
}

static uint64_t submit(uint64_t record, uint64_t flags, uint64_t c, uint64_t d, uint64_t e) {
    (void)flags, (void)c, (void)d, (void)e;
    ring_submit((void *)(uintptr_t)record);
    return 0;
}

static void *work(void *worker) {
    uint64_t context[2] = {(uint64_t)(uintptr_t)worker, 0}, none = 0;
    for (uint64_t job = 0; job < jobs; job++) {
        context[1] = job;
        if (rte_bpf_exec(program, context)) none++;
    }
    atomic_fetch_add(&refused, none);
    return 0;
}

static void work_alone(void) {
    uint64_t context[2] = {0, 0}, sum = 0;
    refused = 0;
    for (uint64_t job = 0; job < jobs; job++) {
        context[1] = job;
        if (rte_bpf_exec(program, context) || !ring_take(&sum)) refused++;
    }
}

static void *consume(void *unused) {
    (void)unused;
    uint64_t sum = 0;
    for (;;) {
        int last = atomic_load(&ended);
        if (ring_take(&sum)) continue;
        if (last) return (void *)(uintptr_t)sum;
        sched_yield();
    }
}

static struct ebpf_insn instructions[] = {
    {.code = 0xb7, .dst_reg = 1, .imm = 0},              // r1 = 0: the ring
    {.code = 0xb7, .dst_reg = 2, .imm = 8},              // r2 = 8: the size
    {.code = 0xb7, .dst_reg = 3, .imm = 0},              // r3 = 0: the flags
    {.code = 0x85, .imm = 0},                            // call reserve
    {.code = 0x55, .dst_reg = 0, .off = 2, .imm = 0},    // if r0 != 0 goto +2
    {.code = 0xb7, .dst_reg = 0, .imm = 1},              // r0 = 1
    {.code = 0x95},                                      // exit
    {.code = 0x7a, .dst_reg = 0, .off = 0, .imm = 42},   // *(u64 *)(r0 + 0) = 42
    {.code = 0xbf, .dst_reg = 1, .src_reg = 0},          // r1 = r0: the record
    {.code = 0xb7, .dst_reg = 2, .imm = 0},              // r2 = 0: the flags
    {.code = 0x85, .imm = 1},                            // call submit
    {.code = 0xb7, .dst_reg = 0, .imm = 0},              // r0 = 0
    {.code = 0x95},                                      // exit
};

static struct rte_bpf *load(void) {
    static struct rte_bpf_xsym helpers[2] = {
        {.name = "reserve", .type = RTE_BPF_XTYPE_FUNC, .func = {.val = reserve, .nb_args = 3, .ret = {RTE_BPF_ARG_PTR, 8, 0}}},
        {.name = "submit", .type = RTE_BPF_XTYPE_FUNC, .func = {.val = submit, .nb_args = 2, .ret = {RTE_BPF_ARG_RAW, 8, 0}}},
    };
    for (int i = 0; i < 3; i++) helpers[0].func.args[i] = (struct rte_bpf_arg){RTE_BPF_ARG_RAW, 8, 0};
    helpers[1].func.args[0] = (struct rte_bpf_arg){RTE_BPF_ARG_PTR, 8, 0};
    helpers[1].func.args[1] = (struct rte_bpf_arg){RTE_BPF_ARG_RAW, 8, 0};
    struct rte_bpf_prm given = {
        .ins = instructions,
        .nb_ins = sizeof instructions / sizeof *instructions,
        .xsym = helpers,
        .nb_xsym = 2,
        .prog_arg = {.type = RTE_BPF_ARG_PTR, .size = 16},
    };
    return rte_bpf_load(&given);
}

int main(int count, char **words) {
    if (count != 3) return 2;
    int workers = atoi(words[1]);
    jobs = strtoull(words[2], 0, 10);
    if (workers < 0 || workers > 64) return 2;
    program = load();
    if (!program) return 1;
    pthread_spin_init(&lock, 0);
    for (int round = 0; round <= ROUNDS; round++) {
        uint64_t began = now();
        if (workers == 0) work_alone();
        else all_jobs(workers, work, consume);
        if (round > 0) tell(now() - began, refused);
    }
    return 0;
}
