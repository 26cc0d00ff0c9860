// Whole jobs by Linux itself: each thread runs the program of examples/submit_42.hex repeatedly by BPF_PROG_TEST_RUN over one ring buffer map, and one reads the mapped
// ring as libbpf does. The program has the type BPF_PROG_TYPE_SOCKET_FILTER, since Linux repeats runs of that type.
// Usage: linux_jobs WORKERS JOBS     (JOBS for each worker)
// Prints a line for each of three rounds: its nanoseconds, and the number of jobs that got no record. The status is 3 if bpf(2) is refused.
#define SIZE (1u << 20)
#include "../linux/bpf_calls.h"
#include "../linux/ring_map.h"
#include "rounds.h"
#include "workers.h"
#include <sched.h>
#include <stdlib.h>

static uint32_t jobs;
static int program;
static struct ring_map ring;
static _Atomic uint64_t taken;

static void *work(void *worker) {
    unsigned char packet[64] = {(unsigned char)(uintptr_t)worker};
    union bpf_attr attr = {.test = {.prog_fd = (uint32_t)program, .data_in = (uintptr_t)packet, .data_size_in = sizeof packet, .repeat = jobs}};
    if (bpf(BPF_PROG_TEST_RUN, &attr) != 0) exit(1);
    return 0;
}

static void *consume(void *unused) {
    (void)unused;
    uint64_t count = 0, sum = 0;
    for (;;) {
        struct ring_record record;
        int last = atomic_load(&ended);
        if (next_record(&ring, &record)) {
            sum += *(const uint64_t *)record.bytes;
            count += !record.discarded;
            give_back(&ring, &record);
            continue;
        }
        if (last) break;
        sched_yield();
    }
    if (sum != 42 * count) exit(1);
    atomic_store(&taken, count);
    return 0;
}

static struct bpf_insn instructions[] = {
    {.code = 0x18, .dst_reg = 1, .src_reg = BPF_PSEUDO_MAP_IDX}, // r1 = map_by_idx(0)
    {.code = 0},                                                 //
    {.code = 0xb7, .dst_reg = 2, .imm = 8},                      // r2 = 8: the size
    {.code = 0xb7, .dst_reg = 3, .imm = 0},                      // r3 = 0: the flags
    {.code = 0x85, .imm = BPF_FUNC_ringbuf_reserve},             // call reserve
    {.code = 0x15, .dst_reg = 0, .off = 4, .imm = 0},            // if r0 == 0 goto +4
    {.code = 0x7a, .dst_reg = 0, .off = 0, .imm = 42},           // *(u64 *)(r0 + 0) = 42
    {.code = 0xbf, .dst_reg = 1, .src_reg = 0},                  // r1 = r0: the record
    {.code = 0xb7, .dst_reg = 2, .imm = 0},                      // r2 = 0: the flags
    {.code = 0x85, .imm = BPF_FUNC_ringbuf_submit},              // call submit
    {.code = 0xb7, .dst_reg = 0, .imm = 0},                      // r0 = 0
    {.code = 0x95},                                              // exit
};

int main(int count, char **words) {
    if (count != 3) return 2;
    int workers = atoi(words[1]), map = make_ring(SIZE);
    jobs = (uint32_t)strtoul(words[2], 0, 10);
    if (workers < 1 || workers > 64 || jobs > 10000000) return 2;
    if (map < 0) return refused_here();
    struct load load = {BPF_PROG_TYPE_SOCKET_FILTER, 0, instructions, sizeof instructions / sizeof *instructions, &map};
    program = load_program(&load, 0, 0);
    if (program < 0 || map_ring(&ring, map, SIZE) != 0) return refused_here();
    for (int round = 0; round <= ROUNDS; round++) {
        uint64_t began = now();
        all_jobs(workers, work, consume);
        if (round > 0) tell(now() - began, (uint64_t)workers * jobs - taken);
    }
    return 0;
}
