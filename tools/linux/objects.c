// Loads an object file by libbpf, runs one of its programs, and prints the records of its rings by ring_buffer__poll.
//
//     objects run FILE PROGRAM CONTEXT RUNS [PIN]   runs a program RUNS times over a context in hex, `-` for none. Prints `accepted` or `refused ERRNO`, `result R`
//                                                   for each run, and for each ring buffer map of the file, in its order, `ring I len N HEX` for each record that
//                                                   libbpf returns. With PIN the first map is pinned there instead of being read
//     objects poll PIN                              the same lines for a pinned map
//
// The status is 1 if Linux or libbpf refuses something, 2 for wrong usage, and 3 if bpf(2) is refused.
#include "bpf_calls.h"
#include "hex.h"
#include <bpf/bpf.h>
#include <bpf/libbpf.h>

#define MOST_CONTEXT 65535

static int silent(enum libbpf_print_level level, const char *format, va_list words) {
    (void)level, (void)format, (void)words;
    return 0;
}

static int failed(const char *what) {
    printf("refused %s %s\n", strerrorname_np(errno), what);
    return 1;
}

static int print_record(void *number, void *bytes, size_t length) {
    printf("ring %ld len %zu ", (long)(intptr_t)number, length);
    print_hex(stdout, bytes, length);
    putchar('\n');
    return 0;
}

// Prints the records that libbpf returns from a ring buffer map.
static int poll_ring(int map, long number) {
    struct ring_buffer *ring = ring_buffer__new(map, print_record, (void *)(intptr_t)number, 0);
    if (!ring) return failed("ring_buffer__new");
    int count = ring_buffer__poll(ring, 0);
    ring_buffer__free(ring);
    return count < 0 ? failed("ring_buffer__poll") : 0;
}

static int poll_rings(struct bpf_object *object) {
    struct bpf_map *map;
    long number = 0;
    int status = 0;
    bpf_object__for_each_map(map, object)
        if (bpf_map__type(map) == BPF_MAP_TYPE_RINGBUF) status |= poll_ring(bpf_map__fd(map), number++);
    return status;
}

static int run_often(int program, const char *hex, long runs) {
    static unsigned char context[MOST_CONTEXT];
    long length = bytes_of(hex, context, sizeof context);
    for (long run = 0; run < runs; run++) {
        uint32_t result;
        errno = EINVAL;
        if (length < 0 || run_program(program, context, (uint32_t)length, &result) != 0) return failed("run");
        printf("result %u\n", result);
    }
    return 0;
}

// Loads an object with one of its programs, of a type whose context is plain bytes.
static struct bpf_program *loaded(struct bpf_object *object, const char *name) {
    struct bpf_program *each, *chosen = 0;
    bpf_object__for_each_program(each, object) {
        bpf_program__set_autoload(each, strcmp(bpf_program__name(each), name) == 0);
        if (strcmp(bpf_program__name(each), name) == 0) chosen = each;
    }
    if (!chosen) return 0;
    bpf_program__set_type(chosen, BPF_PROG_TYPE_SYSCALL);
    bpf_program__set_flags(chosen, BPF_F_SLEEPABLE);
    return bpf_object__load(object) == 0 ? chosen : 0;
}

static int run_object(char **words, const char *pin) {
    struct bpf_object *object = bpf_object__open_file(words[0], 0);
    if (!object) return failed("open");
    struct bpf_program *program = loaded(object, words[1]);
    int status = program ? 0 : failed("load");
    if (program) {
        puts("accepted");
        status = run_often(bpf_program__fd(program), words[2], strtol(words[3], 0, 10));
        struct bpf_map *first = bpf_object__next_map(object, 0);
        if (pin) status |= first && bpf_map__pin(first, pin) == 0 ? 0 : failed(pin);
        else status |= poll_rings(object);
    }
    bpf_object__close(object);
    return status;
}

int main(int count, char **words) {
    int probe = make_ring(4096);
    if (probe < 0) return refused_here();
    close(probe);
    libbpf_set_print(silent);
    if (count >= 6 && count <= 7 && strcmp(words[1], "run") == 0) return run_object(words + 2, words[6]);
    if (count != 3 || strcmp(words[1], "poll") != 0) return 2;
    int map = bpf_obj_get(words[2]);
    return map < 0 ? failed(words[2]) : poll_ring(map, 0);
}
