// Writes the tape of a ring buffer map of Linux to standard output: each record from the consumer's position up to the first busy one, as its
// header, its bytes, and zeros up to a multiple of eight. Pages are counted from the first data page, and discarded records are zeros.
//
//     tape --pinned PATH [--take | --follow]                     the tape of a map that is pinned in a BPF file system
//     tape --size N [--rings N] [--ring R] [--runs N] [--context HEX] < HEX   the tape of ring R after N runs of a program over rings of this size
//
// With --take the records are consumed. With --follow they are too, and tape continues: it waits on the map by epoll(7), and writes all available
// records after each wake-up, and twice a second those that were committed without one (BPF_RB_NO_WAKEUP), until SIGINT or SIGTERM.
// A record is consumed only after it was written. `--size N --start P`, the options for `rbhost tape`, go to standard error. Sizes accept K and M. The
// status is 1 if Linux refuses something or a write fails, 2 for wrong usage, and 3 if bpf(2) is refused.
#include "bpf_calls.h"
#include "hex_file.h"
#include "pinned_ring.h"
#include "ring_map.h"
#include <getopt.h>
#include <signal.h>
#include <sys/epoll.h>

#define MOST_RINGS 16
#define MOST_UNITS 4096
#define MOST_CONTEXT 65535
#define MOST_RUNS 1000000
// After this many bytes the records are flushed and consumed, so that the ring gets room while many wait.
#define BATCH (256u << 10)
#define MILLISECONDS 500

struct options {
    const char *pinned, *context;
    uint64_t size, rings, ring, runs;
    int takes, follows;
};

static volatile sig_atomic_t is_stopped;

static void stop(int signal) {
    (void)signal;
    is_stopped = 1;
}

static int failed(const char *what) {
    fprintf(stderr, "tape: %s: %s\n", what, strerror(errno));
    return 1;
}

// Reports what Linux refused, and returns the negative exit status.
static int refused(const char *what) {
    return errno == EPERM || errno == ENOSYS ? -refused_here() : -failed(what);
}

static int reported(const char *what) {
    fprintf(stderr, "tape: %s\n", what);
    return -1;
}

// Runs the program from standard input on fresh rings, and returns the map of the requested ring, or the negative exit status.
static int ring_of_runs(const struct options *options) {
    static unsigned char code[8 * MOST_UNITS], context[MOST_CONTEXT];
    int maps[MOST_RINGS];
    for (uint64_t i = 0; i < options->rings; i++)
        if ((maps[i] = make_ring((uint32_t)options->size)) < 0) return refused("a ring cannot be created");
    long length = read_hex(stdin, code, sizeof code), context_length = bytes_of(options->context, context, sizeof context);
    if (length <= 0 || length % 8 != 0) return reported("standard input is not a program in hex, 1 to 4096 units of eight bytes");
    struct load load = {BPF_PROG_TYPE_SYSCALL, BPF_F_SLEEPABLE, code, (uint32_t)(length / 8), maps};
    int program = load_program(&load, 0, 0);
    if (program < 0) return refused("Linux does not load the program");
    for (uint64_t run = 0; run < options->runs; run++) {
        uint32_t result;
        if (run_program(program, context, (uint32_t)context_length, &result) != 0) return refused("Linux does not run the program");
    }
    return maps[options->ring];
}

static void write_zeros(uint64_t count) {
    while (count-- > 0) putchar(0);
}

static void write_record(const struct ring_record *record) {
    uint32_t header[2] = {record->length | (record->discarded ? DISCARDED : 0), record->page - PAGES_BEFORE_DATA};
    fwrite(header, sizeof header, 1, stdout);
    if (record->discarded) write_zeros(record->length);
    else fwrite(record->bytes, 1, record->length, stdout);
    write_zeros(span(record->length) - HEADER - record->length);
}

// Writes the records that the ring has now, from a position up to the first busy one. They are flushed in batches, and with `takes` the
// bytes of a batch are released after that.
static int write_waiting(struct ring_map *ring, uint64_t *position, int takes) {
    uint64_t end = producer_of(ring);
    struct ring_record record;
    while (*position < end && record_at(ring, *position, &record)) {
        uint64_t begin = *position;
        do {
            write_record(&record);
            *position += span(record.length);
        } while (*position < end && *position - begin < BATCH && record_at(ring, *position, &record));
        if (fflush(stdout) != 0) return failed("standard output");
        if (takes) give_back_to(ring, *position);
    }
    return 0;
}

// Writes the waiting records, and then those that arrive, until a signal stops it. It waits only if the record at the position is not committed. The wait is edge-triggered,
// since a busy record keeps the map readable: the kernel wakes for the commit of a record that the consumer has reached.
static int follow(struct ring_map *ring, uint64_t position) {
    struct epoll_event event = {.events = EPOLLIN | EPOLLET};
    struct sigaction action = {.sa_handler = stop};
    struct ring_record record;
    int waker = epoll_create1(EPOLL_CLOEXEC), status;
    if (waker < 0 || epoll_ctl(waker, EPOLL_CTL_ADD, ring->map, &event) != 0) return failed("epoll");
    sigaction(SIGINT, &action, 0);
    sigaction(SIGTERM, &action, 0);
    while ((status = write_waiting(ring, &position, 1)) == 0 && !is_stopped)
        if (!record_at(ring, position, &record) && epoll_wait(waker, &event, 1, MILLISECONDS) < 0 && errno != EINTR) return failed("epoll");
    return status != 0 ? status : write_waiting(ring, &position, 1);
}

// Reads a number, with K or M for 1,024 and 1,048,576 times as much; returns 0 if it is not a number.
static int number_of(const char *text, uint64_t *number) {
    char *end;
    errno = 0;
    *number = strtoull(text, &end, 10);
    int shift = *end == 'K' ? 10 : *end == 'M' ? 20 : 0;
    if (*text < '0' || *text > '9' || errno || *number >> 32) return 0;
    *number <<= shift;
    return end[shift != 0] == 0;
}

// Returns whether the options can be combined.
static int are_together(const struct options *options) {
    if (options->pinned) return !options->size && !(options->takes && options->follows);
    return options->size && !options->takes && !options->follows;
}

// Reports the first option whose value is out of bounds, and returns whether there is one.
static int has_bad_value(const struct options *options) {
    size_t digits = strlen(options->context);
    if (options->pinned) return 0;
    if (options->size < (uint64_t)sysconf(_SC_PAGESIZE) || options->size > 1u << 31 || (options->size & (options->size - 1)) != 0)
        reported("--size: a ring has a power of two of bytes, from a page to 2147483648 (a page has 4096 on most machines)");
    else if (options->rings < 1 || options->rings > MOST_RINGS || options->ring >= options->rings) reported("--rings: 1 to 16, and --ring below that");
    else if (options->runs > MOST_RUNS) reported("--runs: 0 to 1000000");
    else if (digits % 2 || digits > 2 * MOST_CONTEXT || strspn(options->context, "0123456789abcdef") != digits) reported("--context: hex of at most 65535 bytes");
    else return 0;
    return 1;
}

// Reads the options, and returns whether the usage line permits them.
static int parse(int count, char **words, struct options *options) {
    static const struct option known[] = {{"pinned", 1, 0, 'p'}, {"take", 0, 0, 't'}, {"follow", 0, 0, 'f'}, {"size", 1, 0, 's'},
                                          {"rings", 1, 0, 'n'},  {"ring", 1, 0, 'r'}, {"runs", 1, 0, 'u'},   {"context", 1, 0, 'c'}, {0}};
    int is_number = 1;
    for (int option; (option = getopt_long(count, words, "", known, 0)) != -1;) {
        switch (option) {
        case 'p': options->pinned = optarg; break;
        case 't': options->takes = 1; break;
        case 'f': options->follows = 1; break;
        case 's': is_number &= number_of(optarg, &options->size); break;
        case 'n': is_number &= number_of(optarg, &options->rings); break;
        case 'r': is_number &= number_of(optarg, &options->ring); break;
        case 'u': is_number &= number_of(optarg, &options->runs); break;
        case 'c': options->context = optarg; break;
        default: return 0;
        }
    }
    return is_number && optind == count && are_together(options);
}

int main(int count, char **words) {
    static const char usage[] = "usage: tape --pinned PATH [--take | --follow] | tape --size N [--rings N] [--ring R] [--runs N] [--context HEX] < HEX\n";
    struct options options = {.context = "00000000000000000000000000000000", .rings = 1, .runs = 1};
    if (count == 2 && strcmp(words[1], "--help") == 0) return fputs(usage, stdout) < 0;
    if (!parse(count, words, &options)) return fputs(usage, stderr), 2;
    if (has_bad_value(&options)) return 2;
    uint64_t size = options.size;
    int map = options.pinned ? pinned_ring(options.pinned, &size) : ring_of_runs(&options);
    if (map < 0) return -map;
    struct ring_map ring;
    if (map_ring(&ring, map, size) != 0) return failed("mmap");
    uint64_t position = consumer_of(&ring);
    fprintf(stderr, "--size %llu --start %llu\n", (unsigned long long)size, (unsigned long long)position);
    int status = options.follows ? follow(&ring, position) : write_waiting(&ring, &position, options.takes);
    unmap_ring(&ring);
    return status;
}
