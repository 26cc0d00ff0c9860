// Compares heskavo_linux.h with libbpf over rings of Linux: programs write the same records into two rings, one for each reader, and what the readers saw has
// must be the same after each call. Then both read one ring alternately, and the time that each takes for a record is printed.
//
//     readers ROUNDS    the status is 1 if the readers differ, and 3 if bpf(2) is refused
#include "../linux/bpf_calls.h"
#include "readers.h"
#include <stdlib.h>
#include <time.h>

#define SIZE (1u << 20)
#define LENGTHS (sizeof LENGTH / sizeof *LENGTH)

// The lengths of records: each has a program that submits one, and each a program that discards one.
static const uint32_t LENGTH[] = {0, 1, 7, 8, 9, 24, 100, 1000, 4096, 30000};
#define EIGHT 3 // the number of the length 8

// Writes a program that reserves a record of this length, stores the first 8 bytes of the context there if they fit, and submits or discards it. Returns the
// number of its units.
static uint32_t put_program(struct bpf_insn *code, uint32_t length, int is_discarded) {
    const struct bpf_insn begin[] = {
        {.code = BPF_ALU64 | BPF_MOV | BPF_X, .dst_reg = 6, .src_reg = 1},
        {.code = BPF_LD | BPF_IMM | BPF_DW, .dst_reg = 1, .src_reg = BPF_PSEUDO_MAP_IDX},
        {.code = 0},
        {.code = BPF_ALU64 | BPF_MOV | BPF_K, .dst_reg = 2, .imm = (int32_t)length},
        {.code = BPF_ALU64 | BPF_MOV | BPF_K, .dst_reg = 3},
        {.code = BPF_JMP | BPF_CALL, .imm = BPF_FUNC_ringbuf_reserve},
        {.code = BPF_JMP | BPF_JEQ | BPF_K, .dst_reg = 0, .off = length < 8 ? 3 : 5},
    };
    const struct bpf_insn store[] = {
        {.code = BPF_LDX | BPF_MEM | BPF_DW, .dst_reg = 1, .src_reg = 6},
        {.code = BPF_STX | BPF_MEM | BPF_DW, .dst_reg = 0, .src_reg = 1},
    };
    const struct bpf_insn end[] = {
        {.code = BPF_ALU64 | BPF_MOV | BPF_X, .dst_reg = 1, .src_reg = 0},
        {.code = BPF_ALU64 | BPF_MOV | BPF_K, .dst_reg = 2},
        {.code = BPF_JMP | BPF_CALL, .imm = is_discarded ? BPF_FUNC_ringbuf_discard : BPF_FUNC_ringbuf_submit},
        {.code = BPF_ALU64 | BPF_MOV | BPF_K, .dst_reg = 0},
        {.code = BPF_JMP | BPF_EXIT},
    };
    struct bpf_insn *at = code;
    memcpy(at, begin, sizeof begin);
    at += sizeof begin / sizeof *begin;
    if (length >= 8) {
        memcpy(at, store, sizeof store);
        at += sizeof store / sizeof *store;
    }
    memcpy(at, end, sizeof end);
    return (uint32_t)(at - code + sizeof end / sizeof *end);
}

struct reader {
    const char *name;
    void *(*open)(int map, struct sum *sum);
    int (*add)(void *reader, int map, struct sum *sum);
    int (*consume)(void *reader);
    int (*poll)(void *reader, int timeout);
    int (*epoll_fd)(void *reader);
    void (*close)(void *reader);
};

static const struct reader READERS[] = {
    {"libbpf", libbpf_open, libbpf_add, libbpf_consume, libbpf_poll, libbpf_epoll_fd, libbpf_close},
    {"heskavo_linux.h", heskavo_open, heskavo_add, heskavo_consume, heskavo_poll, heskavo_epoll_fd, heskavo_close},
};

struct writer {
    int ring, programs[2][LENGTHS];
};

static int open_writer(struct writer *writer) {
    writer->ring = make_ring(SIZE);
    if (writer->ring < 0) return -1;
    for (int is_discarded = 0; is_discarded < 2; is_discarded++)
        for (size_t i = 0; i < LENGTHS; i++) {
            struct bpf_insn code[16];
            uint32_t units = put_program(code, LENGTH[i], is_discarded);
            struct load load = {BPF_PROG_TYPE_SYSCALL, BPF_F_SLEEPABLE, code, units, &writer->ring};
            if ((writer->programs[is_discarded][i] = load_program(&load, 0, 0)) < 0) return -1;
        }
    return 0;
}

// Writes a record of the length with this number, or discards one; a full ring takes none.
static void write_one(const struct writer *writer, size_t length, uint64_t seed, int is_discarded) {
    uint32_t result;
    run_program(writer->programs[is_discarded][length], &seed, sizeof seed, &result);
}

static int are_same(const struct sum *sums, const int *answers, const char *what) {
    if (answers[0] == answers[1] && sums[0].samples == sums[1].samples && sums[0].hash == sums[1].hash) return 1;
    printf("%s: libbpf %d with %llu samples, heskavo_linux.h %d with %llu\n", what, answers[0], (unsigned long long)sums[0].samples, answers[1],
           (unsigned long long)sums[1].samples);
    return 0;
}

// Both readers see the same in two rings with the same records, whether they consume or poll, and if a callback refuses a sample.
static int compare(uint32_t rounds) {
    struct writer writers[2][2];
    struct sum sums[2] = {{0, 0, 0, 0}, {0, 0, 0, 0}};
    void *open[2];
    int same = 1, answers[2];
    for (int i = 0; i < 2; i++) {
        if (open_writer(&writers[i][0]) != 0 || open_writer(&writers[i][1]) != 0) return -1;
        open[i] = READERS[i].open(writers[i][0].ring, &sums[i]);
        if (!open[i] || READERS[i].add(open[i], writers[i][1].ring, &sums[i]) != 0 || READERS[i].epoll_fd(open[i]) < 0) return -1;
        answers[i] = READERS[i].add(open[i], 0, &sums[i]);
    }
    same = (answers[0] < 0) == (answers[1] < 0) && answers[1] < 0;
    srand(1);
    for (uint32_t round = 0; round < rounds && same; round++) {
        int records = rand() % 40, polls = rand() % 2;
        sums[0].left = sums[1].left = rand() % 4 ? 0 : 1 + (uint32_t)rand() % 20;
        for (int k = 0; k < records; k++) {
            size_t length = (size_t)rand() % LENGTHS;
            uint64_t seed = (uint64_t)rand() << 32 | (uint64_t)rand();
            int which = rand() % 2, is_discarded = rand() % 8 == 0;
            for (int i = 0; i < 2; i++) write_one(&writers[i][which], length, seed, is_discarded);
        }
        for (int i = 0; i < 2; i++) answers[i] = polls ? READERS[i].poll(open[i], 0) : READERS[i].consume(open[i]);
        same = are_same(sums, answers, polls ? "poll" : "consume");
    }
    for (int i = 0; i < 2; i++) READERS[i].close(open[i]);
    if (same) printf("%u rounds, %llu samples, the same\n", rounds, (unsigned long long)sums[0].samples);
    return same;
}

static double seconds_now(void) {
    struct timespec now;
    clock_gettime(CLOCK_MONOTONIC, &now);
    return (double)now.tv_sec + (double)now.tv_nsec / 1e9;
}

// Both read one ring alternately, full of records of eight bytes, with a callback that does next to nothing.
static int time_turns(uint32_t turns) {
    struct writer writer;
    if (open_writer(&writer) != 0) return -1;
    struct sum sum = {0, 0, 0, 1};
    void *open[2] = {READERS[0].open(writer.ring, &sum), READERS[1].open(writer.ring, &sum)};
    double best[2] = {1, 1};
    for (uint32_t turn = 0; turn < 2 * turns; turn++) {
        int records = 0;
        for (uint32_t k = 0; k < SIZE / 16 - 1; k++) write_one(&writer, EIGHT, k, 0);
        double begin = seconds_now();
        records = READERS[turn % 2].consume(open[turn % 2]);
        double each = (seconds_now() - begin) / records;
        if (each < best[turn % 2]) best[turn % 2] = each;
    }
    for (int i = 0; i < 2; i++) {
        printf("%s %.1f ns a record\n", READERS[i].name, 1e9 * best[i]);
        READERS[i].close(open[i]);
    }
    printf("speed %.2f of libbpf's\n", best[0] / best[1]);
    return 1;
}

int main(int argc, char **argv) {
    uint32_t rounds = argc == 2 ? (uint32_t)atoi(argv[1]) : 0;
    if (rounds == 0) return fprintf(stderr, "usage: readers ROUNDS\n"), 2;
    int same = compare(rounds);
    if (same > 0) same = time_turns(20);
    if (same < 0) return refused_here();
    return same ? 0 : 1;
}
