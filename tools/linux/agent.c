// A typical agent: creates a ring buffer map, pins it, and runs a program from standard input that writes into it.
//
//     agent PATH SIZE RUNS PAUSE < HEX   runs it RUNS times, each time over a context of two numbers of eight bytes, the number of the run and the time
//                                        (CLOCK_MONOTONIC, in nanoseconds); it pauses PAUSE microseconds after every 64th run
//
// Prints `made N refused M`: how many runs returned 0, and how many something else. The pin stays. The statuses are those of tape.
#include "bpf_calls.h"
#include "hex_file.h"
#include <time.h>

static int failed(const char *what) {
    if (errno == EPERM || errno == ENOSYS) return refused_here();
    fprintf(stderr, "agent: %s: %s\n", what, strerror(errno));
    return 1;
}

int main(int count, char **words) {
    static unsigned char code[8 * 4096];
    if (count != 5) return fputs("usage: agent PATH SIZE RUNS PAUSE < HEX\n", stderr), 2;
    int ring = make_ring((uint32_t)strtoul(words[2], 0, 10));
    if (ring < 0) return failed("ring");
    union bpf_attr pin = {.pathname = (uintptr_t)words[1], .bpf_fd = (uint32_t)ring};
    if (bpf(BPF_OBJ_PIN, &pin) != 0) return failed(words[1]);
    long length = read_hex(stdin, code, sizeof code);
    struct load load = {BPF_PROG_TYPE_SYSCALL, BPF_F_SLEEPABLE, code, length > 0 ? (uint32_t)(length / 8) : 0, &ring};
    int program = load_program(&load, 0, 0);
    if (program < 0) return failed("program");
    uint64_t runs = strtoull(words[3], 0, 10), made = 0, context[2] = {0, 0};
    for (; context[0] < runs; context[0]++) {
        uint32_t result;
        struct timespec now;
        clock_gettime(CLOCK_MONOTONIC, &now);
        context[1] = (uint64_t)now.tv_sec * 1000000000 + (uint64_t)now.tv_nsec;
        if (run_program(program, context, sizeof context, &result) != 0) return failed("run");
        made += result == 0;
        if (context[0] % 64 == 63) usleep((useconds_t)strtoul(words[4], 0, 10));
    }
    printf("made %llu refused %llu\n", (unsigned long long)made, (unsigned long long)(runs - made));
    return 0;
}
