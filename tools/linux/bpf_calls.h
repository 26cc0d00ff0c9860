// bpf(2) as the programs of this folder use it: a ring buffer map, a program, and a run of it.
#include <errno.h>
#include <linux/bpf.h>
#include <stdint.h>
#include <stdio.h>
#include <stdlib.h>
#include <string.h>
#include <sys/syscall.h>
#include <unistd.h>

// The size of the verifier's log in bytes; of a longer log the end is kept (since Linux 6.4).
#define LOG_SIZE (1u << 24)

static inline long bpf(enum bpf_cmd command, union bpf_attr *attr) {
    return syscall(SYS_bpf, command, attr, sizeof *attr);
}

// Creates a ring buffer map of this size; returns -1 with errno if Linux refuses.
static inline int make_ring(uint32_t size) {
    union bpf_attr attr = {.map_type = BPF_MAP_TYPE_RINGBUF, .max_entries = size};
    return (int)bpf(BPF_MAP_CREATE, &attr);
}

// The options of loading a program; the type determines its context.
struct load {
    uint32_t type, flags;
    const void *code;
    uint32_t units;
    const int *rings; // by their numbers, as BPF_PSEUDO_MAP_IDX names them
};

// Loads a program; returns -1 with errno if Linux refuses it. The verifier writes the reason (level 1), or each of its steps (level 2), to a log.
static inline int load_program(const struct load *load, char *log, uint32_t level) {
    union bpf_attr attr = {
        .prog_type = load->type,
        .prog_flags = load->flags,
        .insns = (uintptr_t)load->code,
        .insn_cnt = load->units,
        .license = (uintptr_t)"GPL",
        .fd_array = (uintptr_t)load->rings,
        .log_buf = (uintptr_t)log,
        .log_size = log ? LOG_SIZE : 0,
        .log_level = level,
    };
    return (int)bpf(BPF_PROG_LOAD, &attr);
}

// Runs a program once over a context; returns -1 with errno if Linux refuses. The result has 32 bits.
static inline int run_program(int program, void *context, uint32_t length, uint32_t *result) {
    uintptr_t begin = length ? (uintptr_t)context : 0;
    union bpf_attr attr = {.test = {.prog_fd = (uint32_t)program, .ctx_in = begin, .ctx_size_in = length}};
    if (bpf(BPF_PROG_TEST_RUN, &attr) != 0) return -1;
    *result = attr.test.retval;
    return 0;
}

// Reports that bpf(2) is refused and what would allow it, and returns the status of a caller that cannot continue.
static inline int refused_here(void) {
    fprintf(stderr, "bpf(2) is refused: %s. It requires Linux 5.15 or newer with CONFIG_BPF_SYSCALL, and root or CAP_BPF and CAP_PERFMON.\n", strerror(errno));
    return 3;
}
