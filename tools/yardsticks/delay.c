// Measures how long a stream host takes from a context that is written to its standard input to the record on its standard output.
//
//     delay PERCENTILE RATE CONTEXTS COMMAND [WORD]..
//
// Starts the command, and writes it RATE contexts a second: of 128 bytes, which pass the filter of tools/yardsticks, with the time in the bytes that the
// filter copies to the record. Prints for each of three rounds of CONTEXTS contexts, after one that is not reported, the nanoseconds within which that
// percentage of the records arrived, and the number of contexts without a record.
#include "rounds.h"
#include "stream_programs.h"
#include <fcntl.h>
#include <pthread.h>
#include <stdlib.h>
#include <string.h>
#include <sys/wait.h>
#include <unistd.h>

enum { HEADER = 8, LOOK = 1000000, PATIENCE = 500000000 };

static uint64_t period, count, *delays;
static _Atomic uint64_t arrived;
static int to_host, from_host;

static int by_size(const void *a, const void *b) {
    uint64_t x = *(const uint64_t *)a, y = *(const uint64_t *)b;
    return (x > y) - (x < y);
}

// Notes when each record arrives, until the output ends.
static void *read_records(void *unused) {
    (void)unused;
    unsigned char bytes[HEADER + RECORD];
    for (;;) {
        for (size_t length = 0; length < sizeof bytes;) {
            ssize_t got = read(from_host, bytes + length, sizeof bytes - length);
            if (got <= 0) return 0;
            length += (size_t)got;
        }
        uint64_t written[2];
        memcpy(written, bytes + HEADER, sizeof written);
        if (written[1] < (ROUNDS + 1) * count) delays[written[1]] = now() - written[0];
        arrived++;
    }
}

static void sleep_until(uint64_t when) {
    struct timespec at = {(time_t)(when / 1000000000), (long)(when % 1000000000)};
    while (clock_nanosleep(CLOCK_MONOTONIC, TIMER_ABSTIME, &at, 0) != 0) {
    }
}

// Writes the contexts of a round, and waits for their records for half a second at most.
static void write_round(uint64_t first) {
    uint64_t begin = now(), wanted = arrived + count;
    for (uint64_t n = 0; n < count; n++) {
        unsigned char context[CONTEXT] = {1};
        sleep_until(begin + n * period);
        uint64_t words[2] = {now(), first + n};
        memcpy(context + 8, words, sizeof words);
        if (write(to_host, context, sizeof context) != sizeof context) exit(1);
    }
    for (uint64_t last = now(); arrived < wanted && now() - last < PATIENCE;) sleep_until(now() + LOOK);
}

// Prints the percentile of a round, and how many records did not arrive.
static void tell_round(uint64_t *round, uint64_t percentile) {
    qsort(round, count, sizeof *round, by_size);
    uint64_t missing = 0;
    while (missing < count && round[count - 1 - missing] == UINT64_MAX) missing++;
    tell(round[(count - 1) * percentile / 100], missing);
}

static pid_t start(char **command) {
    int in[2], out[2];
    if (pipe2(in, O_CLOEXEC) != 0 || pipe2(out, O_CLOEXEC) != 0) exit(1);
    pid_t child = fork();
    if (child == 0) {
        dup2(in[0], 0);
        dup2(out[1], 1);
        execvp(command[0], command);
        _exit(127);
    }
    close(in[0]);
    close(out[1]);
    to_host = in[1];
    from_host = out[0];
    return child;
}

int main(int words, char **word) {
    if (words < 5) return 2;
    uint64_t percentile = strtoull(word[1], 0, 10);
    period = 1000000000 / strtoull(word[2], 0, 10);
    count = strtoull(word[3], 0, 10);
    delays = malloc((ROUNDS + 1) * count * sizeof *delays);
    memset(delays, 0xff, (ROUNDS + 1) * count * sizeof *delays);
    pid_t child = start(word + 4);
    pthread_t reader;
    pthread_create(&reader, 0, read_records, 0);
    for (int round = 0; round <= ROUNDS; round++) write_round(round * count);
    close(to_host);
    pthread_join(reader, 0);
    for (int round = 1; round <= ROUNDS; round++) tell_round(delays + round * count, percentile);
    int status;
    return waitpid(child, &status, 0) == child && WIFEXITED(status) ? WEXITSTATUS(status) : 1;
}
