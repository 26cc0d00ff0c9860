// Runs a program in one engine again and again, with outputs of the caller's own and takes, and fails if the memory in
// use grows.
//
//     endure PROGRAM RUNS
//
// After a tenth of the runs and after all of them it compares the bytes that malloc has allocated, and the resident
// pages of the process, of which Linux counts up to 64 late.
#include "heskavo_host.h"
#include <inttypes.h>
#include <malloc.h>
#include <stdio.h>
#include <stdlib.h>
#include <unistd.h>

enum { LONG = 300, CONTEXT = 16, COUNTED_LATE = 64 };

static void want(int holds, const char *what) {
    if (holds) return;
    fprintf(stderr, "not so: %s\n", what);
    exit(1);
}

static size_t resident_pages(void) {
    size_t whole = 0, resident = 0;
    FILE *file = fopen("/proc/self/statm", "r");
    want(file && fscanf(file, "%zu %zu", &whole, &resident) == 2, "/proc/self/statm");
    fclose(file);
    return resident;
}

// Runs the program, puts a long record now and then, and takes what is there.
static void turn(struct heskavo_engine *engine, uint64_t number) {
    static uint8_t context[CONTEXT], buffer[LONG];
    struct heskavo_taken_record record;
    uint64_t value;
    want(heskavo_engine_run(engine, 0, context, CONTEXT, &value) == HESKAVO_DONE, "a run");
    uint32_t status = number % 7 ? HESKAVO_DONE : heskavo_engine_put(engine, 0, buffer, number % LONG, 0);
    want(status == HESKAVO_DONE, "a record is put");
    while (heskavo_engine_take(engine, 0, buffer, sizeof buffer, &record) == HESKAVO_DONE) {}
}

int main(int argc, char **argv) {
    static uint8_t program[40000];
    static const uint64_t size = 65536;
    struct heskavo_engine engine = {0};
    struct heskavo_verdict verdict;
    struct heskavo_ring_counts counts;
    uint32_t number;
    want(argc == 3, "two arguments");
    FILE *file = fopen(argv[1], "rb");
    want(file != NULL, "a program");
    size_t len = fread(program, 1, sizeof program, file);
    fclose(file);
    uint64_t runs = strtoull(argv[2], NULL, 10);
    want(heskavo_engine_open(&size, 1, CONTEXT, &engine) == HESKAVO_DONE, "an engine");
    want(heskavo_engine_load(&engine, program, len, &number, &verdict) == HESKAVO_DONE, "a program is loaded");
    for (uint64_t run = 0; run < runs / 10; run++) turn(&engine, run);
    size_t resident = resident_pages(), allocated = mallinfo2().uordblks;
    for (uint64_t run = runs / 10; run < runs; run++) turn(&engine, run);
    want(resident_pages() <= resident + COUNTED_LATE, "no more pages are resident");
    want(mallinfo2().uordblks == allocated, "the same bytes are allocated");
    want(heskavo_engine_counts(&engine, 0, &counts) == HESKAVO_DONE, "counts");
    want(counts.made == counts.consumed + counts.discarded, "the counts add up");
    printf("runs %" PRIu64 " records %" PRIu64 "\n", runs, counts.made);
    heskavo_engine_close(&engine);
    return 0;
}
