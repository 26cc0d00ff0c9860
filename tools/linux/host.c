// A host over Linux: creates ring buffer maps, loads programs, runs them and reads the rings, as requested by the lines of its input.
//
//     ring SIZE              creates a ring of this size, numbered from 0 on: `ring N`
//     program HEX            loads a program over the rings so far, numbered from 0 on: `program N`
//     seen HEX               the units of a program that Linux checks: `seen 0 1 5`
//     run PROGRAM CONTEXT    runs it over a context in hex, `-` for none: `result R`
//     woken                  which rings woke their reader since the last such line: `woken 0 2`
//     positions RING         `positions CONSUMER PRODUCER`
//     bytes RING             the bytes between the positions: `bytes HEX`
//     take RING COUNT        at most COUNT records, each as `pos P len N page G HEX` or `pos P len N page G discarded`; then `taken N`
//     end                    closes all rings and programs: `end`
//
// If Linux refuses, the answer is `refused ERRNO`, for a program with the unit that Linux names, or `-`, and the last line of its log.
// Usage: host < LINES. The status is 3 if bpf(2) is refused, and 2 at any other line.
#include "bpf_calls.h"
#include "hex.h"
#include "ring_map.h"
#include <sys/epoll.h>

#define MOST_RINGS 16
#define MOST_PROGRAMS 64
#define MOST_UNITS 8192
#define MOST_CONTEXT 65536

static struct ring_map rings[MOST_RINGS];
static int maps[MOST_RINGS], programs[MOST_PROGRAMS], ring_count, program_count, waker = -1;
static char log_text[LOG_SIZE];

static void refused(void) {
    printf("refused %s\n", strerrorname_np(errno));
}

static void answer_ring(uint32_t size) {
    if (ring_count == MOST_RINGS) {
        errno = ENFILE;
        return refused();
    }
    int map = make_ring(size);
    if (map < 0) return refused();
    struct epoll_event edge = {.events = EPOLLIN | EPOLLET, .data = {.u32 = (uint32_t)ring_count}};
    if (map_ring(&rings[ring_count], map, size) != 0 || epoll_ctl(waker, EPOLL_CTL_ADD, map, &edge) != 0) {
        refused();
        close(map);
        return;
    }
    maps[ring_count] = map;
    printf("ring %d\n", ring_count++);
}

static const char *next_line(const char *line) {
    const char *end = strchr(line, '\n');
    return end ? end + 1 : 0;
}

// Returns the unit that a line of the log is about, such as `5: (85) call bpf_ringbuf_output#130`, or -1.
static long unit_of(const char *line) {
    char *end;
    long unit = strtol(line, &end, 10);
    return end != line && strncmp(end, ": (", 3) == 0 ? unit : -1;
}

// Returns the last unit that the verifier checked, or -1.
static long last_unit(const char *log) {
    long unit = -1;
    for (const char *line = log; line; line = next_line(line))
        if (unit_of(line) >= 0) unit = unit_of(line);
    return unit;
}

// Returns the last line of the log that concerns the program.
static const char *last_line(char *log) {
    static const char *counts[] = {"processed ", "verification time ", "stack depth ", "mark_read "};
    for (;;) {
        size_t length = strlen(log);
        while (length > 0 && log[length - 1] == '\n') log[--length] = 0;
        char *begin = strrchr(log, '\n');
        const char *line = begin ? begin + 1 : log;
        int is_count = 0;
        for (unsigned i = 0; i < sizeof counts / sizeof *counts; i++) is_count |= strncmp(line, counts[i], strlen(counts[i])) == 0;
        if (!is_count || !begin) return is_count ? "" : line;
        *begin = 0;
    }
}

// Reports why a program is refused: loads it again, with a log.
static void tell_refused(const struct load *load) {
    int first = errno;
    log_text[0] = 0;
    int program = load_program(load, log_text, 1);
    if (program >= 0) close(program);
    long unit = last_unit(log_text);
    printf("refused %s ", strerrorname_np(first));
    if (unit >= 0) printf("%ld ", unit);
    else printf("- ");
    printf("%s\n", last_line(log_text));
}

static void answer_program(const char *hex) {
    static unsigned char code[8 * MOST_UNITS];
    long length = bytes_of(hex, code, sizeof code);
    if (length < 0 || length % 8 != 0 || program_count == MOST_PROGRAMS) {
        errno = E2BIG;
        return refused();
    }
    struct load load = {BPF_PROG_TYPE_SYSCALL, BPF_F_SLEEPABLE, code, (uint32_t)(length / 8), maps};
    int program = load_program(&load, 0, 0);
    if (program < 0) return tell_refused(&load);
    programs[program_count] = program;
    printf("program %d\n", program_count++);
}

// Reports which units of a program the verifier checks, by its log. A unit after a branch that is never taken is not checked.
static void answer_seen(const char *hex) {
    static unsigned char code[8 * MOST_UNITS], is_seen[MOST_UNITS];
    long length = bytes_of(hex, code, sizeof code);
    struct load load = {BPF_PROG_TYPE_SYSCALL, BPF_F_SLEEPABLE, code, (uint32_t)(length / 8), maps};
    int program = length < 0 ? -1 : load_program(&load, log_text, 2);
    if (program < 0) return refused();
    close(program);
    memset(is_seen, 0, sizeof is_seen);
    for (const char *line = log_text; line; line = next_line(line)) {
        long unit = unit_of(line);
        if (unit >= 0 && unit < MOST_UNITS) is_seen[unit] = 1;
    }
    printf("seen");
    for (int unit = 0; unit < MOST_UNITS; unit++)
        if (is_seen[unit]) printf(" %d", unit);
    putchar('\n');
}

static void answer_run(unsigned program, const char *hex) {
    static unsigned char context[MOST_CONTEXT];
    long length = bytes_of(hex, context, sizeof context);
    uint32_t result;
    errno = EINVAL;
    if (length < 0 || program >= (unsigned)program_count || run_program(programs[program], context, (uint32_t)length, &result) != 0) return refused();
    printf("result %u\n", result);
}

static void answer_woken(void) {
    struct epoll_event events[MOST_RINGS];
    int count = epoll_wait(waker, events, MOST_RINGS, 0), is_woken[MOST_RINGS] = {0};
    for (int i = 0; i < count; i++) is_woken[events[i].data.u32] = 1;
    printf("woken");
    for (int i = 0; i < ring_count; i++)
        if (is_woken[i]) printf(" %d", i);
    putchar('\n');
}

static void answer_bytes(const struct ring_map *ring) {
    uint64_t from = consumer_of(ring);
    printf("bytes ");
    print_hex(stdout, ring->data + (from & (ring->size - 1)), producer_of(ring) - from);
    putchar('\n');
}

static void answer_take(struct ring_map *ring, long count) {
    struct ring_record record;
    long taken = 0;
    for (; taken < count && next_record(ring, &record); taken++) {
        printf("pos %llu len %u page %u ", (unsigned long long)record.position, record.length, record.page);
        if (record.discarded) printf("discarded");
        else print_hex(stdout, record.bytes, record.length);
        putchar('\n');
        give_back(ring, &record);
    }
    printf("taken %ld\n", taken);
}

static void answer_end(void) {
    while (program_count > 0) close(programs[--program_count]);
    while (ring_count > 0) {
        unmap_ring(&rings[--ring_count]);
        close(maps[ring_count]);
        maps[ring_count] = -1;
    }
}

// Answers one line; returns 0 if it is not a request.
static int answer(const char *line) {
    unsigned long first = 0;
    int behind = 0;
    long count;
    if (strcmp(line, "end\n") == 0) return answer_end(), puts("end"), 1;
    if (strcmp(line, "woken\n") == 0) return answer_woken(), 1;
    if (sscanf(line, "ring %lu\n", &first) == 1) return answer_ring((uint32_t)first), 1;
    if (strncmp(line, "seen ", 5) == 0) return answer_seen(line + 5), 1;
    if (strncmp(line, "program ", 8) == 0) return answer_program(line + 8), 1;
    if (sscanf(line, "run %lu %n", &first, &behind) == 1 && behind) return answer_run((unsigned)first, line + behind), 1;
    if (sscanf(line, "%*s %lu", &first) != 1 || first >= (unsigned long)ring_count) return 0;
    struct ring_map *ring = &rings[first];
    if (strncmp(line, "bytes ", 6) == 0) return answer_bytes(ring), 1;
    if (sscanf(line, "take %*u %ld", &count) == 1) return answer_take(ring, count), 1;
    if (strncmp(line, "positions ", 10) != 0) return 0;
    printf("positions %llu %llu\n", (unsigned long long)consumer_of(ring), (unsigned long long)producer_of(ring));
    return 1;
}

int main(void) {
    char *line = 0;
    size_t room = 0;
    int probe = make_ring(4096);
    if (probe < 0) return refused_here();
    close(probe);
    waker = epoll_create1(0);
    memset(maps, -1, sizeof maps);
    while (getline(&line, &room, stdin) > 0) {
        if (!answer(line)) {
            fprintf(stderr, "unknown request: %.60s\n", line);
            return 2;
        }
    }
    answer_end();
    free(line);
    return 0;
}
