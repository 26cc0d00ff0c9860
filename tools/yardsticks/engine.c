// Runs a program in one engine of the library for C, and takes its record, again and again.
//
//     engine PROGRAM RUNS    prints a line for each of three rounds: its nanoseconds, and the number of runs without a record
#include "rounds.h"
#include "heskavo_host.h"
#include <stdlib.h>

enum { CONTEXT = 16, SIZE = 1 << 20 };

static struct heskavo_engine engine;

// Returns the number of runs after which there was no record.
static uint64_t run_and_take(uint64_t runs) {
    uint8_t buffer[CONTEXT];
    uint64_t context[CONTEXT / 8] = {0, 0}, value, none = 0;
    struct heskavo_taken_record record;
    for (uint64_t run = 0; run < runs; run++) {
        context[1] = run;
        if (heskavo_engine_run(&engine, 0, (const uint8_t *)context, CONTEXT, &value) != HESKAVO_DONE) exit(1);
        none += heskavo_engine_take(&engine, 0, buffer, sizeof buffer, &record) != HESKAVO_DONE;
    }
    return none;
}

int main(int count, char **words) {
    static uint8_t program[1 << 16];
    static const uint64_t size = SIZE;
    struct heskavo_verdict verdict;
    uint32_t number;
    FILE *file = count == 3 ? fopen(words[1], "rb") : NULL;
    if (!file) return 2;
    size_t len = fread(program, 1, sizeof program, file);
    fclose(file);
    if (heskavo_engine_open(&size, 1, CONTEXT, &engine) != HESKAVO_DONE) return 1;
    if (heskavo_engine_load(&engine, program, len, &number, &verdict) != HESKAVO_DONE) return 1;
    for (int round = 0; round <= ROUNDS; round++) {
        uint64_t began = now(), none = run_and_take(strtoull(words[2], NULL, 10));
        if (round > 0) tell(now() - began, none);
    }
    heskavo_engine_close(&engine);
    return 0;
}
