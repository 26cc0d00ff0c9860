// DPDK's eBPF loader with its verifier, and its interpreter, on 4,000 instructions and an exit: of arithmetic (add, exclusive or, multiply, shift, add in
// turn), of the stack (eight bytes are stored and loaded in turn), or of memory (eight bytes are stored and loaded on the stack, loaded from the context, and
// stored to and loaded from a record that a helper returns, in turn).
// Usage: interpreter load | interpreter run | interpreter stack | interpreter memory
// Prints a line for each of three rounds: the nanoseconds of 20 loads of the arithmetic, or of 250 runs of one of the three, and 0.
#include "rounds.h"
#include <rte_bpf.h>
#include <string.h>

#define EXECUTED 4001
#define LOADS 20
#define RUNS 250

static struct ebpf_insn instructions[EXECUTED + 2];
static unsigned units;

static void put(struct ebpf_insn one) { instructions[units++] = one; }

static void write_arithmetic(void) {
    static const unsigned char codes[5] = {0x0f, 0xa7, 0x27, 0x67, 0x07};
    put((struct ebpf_insn){.code = 0xb7, .dst_reg = 0, .imm = 7});
    put((struct ebpf_insn){.code = 0xb7, .dst_reg = 2, .imm = 12345});
    for (int unit = 2; unit < EXECUTED - 1; unit++) {
        int kind = unit % 5;
        struct ebpf_insn one = {.code = codes[kind], .dst_reg = 0};
        if (kind == 0) one.src_reg = 2;
        else one.imm = kind == 3 ? 3 : 0x1234567;
        put(one);
    }
    put((struct ebpf_insn){.code = 0x95});
}

// Stores src to the eight bytes at base + offset; loads the eight bytes at base + offset into dst.
static void put_store(int base, int offset, int src) { put((struct ebpf_insn){.code = 0x7b, .dst_reg = base, .src_reg = src, .off = offset}); }
static void put_load(int dst, int base, int offset) { put((struct ebpf_insn){.code = 0x79, .dst_reg = dst, .src_reg = base, .off = offset}); }

static void write_stack(void) {
    put((struct ebpf_insn){.code = 0xb7, .dst_reg = 0, .imm = 7});
    for (int unit = 1; unit < EXECUTED - 1; unit++) {
        if (unit % 2 == 1) put_store(10, -8, 0);
        else put_load(0, 10, -8);
    }
    put((struct ebpf_insn){.code = 0x95});
}

static void write_memory(void) {
    static const struct ebpf_insn start[] = {
        {.code = 0xbf, .dst_reg = 6, .src_reg = 1},         // r6 = r1: the context
        {.code = 0xb7, .dst_reg = 1, .imm = 0},             // r1 = 0: the ring
        {.code = 0xb7, .dst_reg = 2, .imm = 8},             // r2 = 8: the size
        {.code = 0xb7, .dst_reg = 3, .imm = 0},             // r3 = 0: the flags
        {.code = 0x85, .imm = 0},                           // call reserve
        {.code = 0x55, .dst_reg = 0, .off = 2, .imm = 0},   // if r0 != 0 goto +2
        {.code = 0xb7, .dst_reg = 0, .imm = 1},             // r0 = 1
        {.code = 0x95},                                     // exit
        {.code = 0xbf, .dst_reg = 7, .src_reg = 0},         // r7 = r0: the record
        {.code = 0xb7, .dst_reg = 0, .imm = 7},             // r0 = 7
    };
    static const struct ebpf_insn end[] = {
        {.code = 0xbf, .dst_reg = 8, .src_reg = 0},         // r8 = r0
        {.code = 0xbf, .dst_reg = 1, .src_reg = 7},         // r1 = r7: the record
        {.code = 0xb7, .dst_reg = 2, .imm = 0},             // r2 = 0: the flags
        {.code = 0x85, .imm = 1},                           // call discard
        {.code = 0xbf, .dst_reg = 0, .src_reg = 8},         // r0 = r8
        {.code = 0x95},                                     // exit
    };
    for (unsigned i = 0; i < sizeof start / sizeof *start; i++) put(start[i]);
    for (int unit = 13; unit < EXECUTED - 1; unit++) {
        switch (unit % 5) {
            case 0: put_store(10, -8, 0); break;
            case 1: put_load(0, 10, -8); break;
            case 2: put_load(1, 6, 0); break;
            case 3: put_store(7, 0, 0); break;
            default: put_load(0, 7, 0);
        }
    }
    for (unsigned i = 0; i < sizeof end / sizeof *end; i++) put(end[i]);
}

static uint64_t record;

static uint64_t reserve(uint64_t ring, uint64_t size, uint64_t flags, uint64_t d, uint64_t e) {
    (void)ring, (void)size, (void)flags, (void)d, (void)e;
    record = 0;
    return (uint64_t)(uintptr_t)&record;
}

static uint64_t discard(uint64_t given, uint64_t flags, uint64_t c, uint64_t d, uint64_t e) {
    (void)given, (void)flags, (void)c, (void)d, (void)e;
    return 0;
}

static struct rte_bpf *load(void) {
    static struct rte_bpf_xsym helpers[2] = {
        {.name = "reserve", .type = RTE_BPF_XTYPE_FUNC, .func = {.val = reserve, .nb_args = 3, .ret = {RTE_BPF_ARG_PTR, 8, 0}}},
        {.name = "discard", .type = RTE_BPF_XTYPE_FUNC, .func = {.val = discard, .nb_args = 2, .ret = {RTE_BPF_ARG_RAW, 8, 0}}},
    };
    for (int i = 0; i < 3; i++) helpers[0].func.args[i] = (struct rte_bpf_arg){RTE_BPF_ARG_RAW, 8, 0};
    helpers[1].func.args[0] = (struct rte_bpf_arg){RTE_BPF_ARG_PTR, 8, 0};
    helpers[1].func.args[1] = (struct rte_bpf_arg){RTE_BPF_ARG_RAW, 8, 0};
    struct rte_bpf_prm given = {
        .ins = instructions,
        .nb_ins = units,
        .xsym = helpers,
        .nb_xsym = 2,
        .prog_arg = {.type = RTE_BPF_ARG_PTR, .size = 16},
    };
    return rte_bpf_load(&given);
}

static void loads(void) {
    for (int i = 0; i < LOADS; i++) {
        struct rte_bpf *program = load();
        if (program) rte_bpf_destroy(program);
    }
}

static uint64_t runs(struct rte_bpf *program) {
    uint64_t sum = 0;
    for (uint64_t i = 0; i < RUNS; i++) {
        uint64_t context[2] = {i, 0};
        sum += rte_bpf_exec(program, context);
    }
    return sum;
}

int main(int count, char **words) {
    if (count != 2) return 2;
    int loading = strcmp(words[1], "load") == 0;
    if (strcmp(words[1], "memory") == 0) write_memory();
    else if (strcmp(words[1], "stack") == 0) write_stack();
    else write_arithmetic();
    struct rte_bpf *program = load();
    if (!program) return 1;
    volatile uint64_t sum = 0; // so that no run is optimized away
    for (int round = 0; round <= ROUNDS; round++) {
        uint64_t began = now();
        if (loading) loads();
        else sum += runs(program);
        if (round > 0) tell(now() - began, 0);
    }
    return 0;
}
