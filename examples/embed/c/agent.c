/*
 * Verifies a program, prints what it can cost at most and of how many jobs a ring of SIZE bytes has room for the records, and counts those of the tape that
 * it wrote by their length: agent PROGRAM SIZE < TAPE
 */
#include "heskavo_host.h"
#include <inttypes.h>
#include <stdio.h>
#include <stdlib.h>
#include <string.h>

static int is_accepted(const char *path, uint64_t size) {
    static uint8_t program[8 * 4096 + 8]; /* a unit more than a program may have */
    FILE *file = fopen(path, "rb");
    if (!file) return 0;
    size_t len = fread(program, 1, sizeof program, file);
    fclose(file);
    struct heskavo_cost cost;
    struct heskavo_ring_cost ring;
    struct heskavo_verdict verdict;
    uint32_t status = heskavo_cost(program, len, 16, &cost, &ring, 1, &verdict);
    if (status == HESKAVO_REFUSED)
        printf("refused layer %" PRIu32 " number %" PRIu32 " unit %" PRIu32 "\n", verdict.layer, verdict.number, verdict.unit);
    if (status != HESKAVO_DONE) return 0;
    printf("steps %" PRIu64 " calls %" PRIu64 "\n", cost.steps, cost.calls);
    printf("ring 0 records %" PRIu64 " bytes %" PRIu64 " held %" PRIu64 "\n", ring.records, ring.bytes, ring.held_bytes);
    if (size && ring.bytes) printf("jobs %" PRIu64 "\n", (size - 1) / ring.bytes); /* together they ask for fewer bytes than the ring has */
    return 1;
}

int main(int argc, char **argv) {
    uint64_t size = argc == 3 ? strtoull(argv[2], NULL, 10) : 0, position = 0, discarded = 0, counts[33] = {0};
    if (argc != 3 || !is_accepted(argv[1], size)) return 1;
    uint8_t *bytes = malloc(size); /* each record is shorter than the ring */
    size_t have = 0, got;
    struct heskavo_record record;
    uint32_t status = HESKAVO_MORE;
    while (bytes && status == HESKAVO_MORE && (got = fread(bytes + have, 1, size - have, stdin)) > 0) {
        size_t at = 0;
        for (have += got; (status = heskavo_tape_next(bytes + at, have - at, size, position, &record)) == HESKAVO_DONE; position += record.span) {
            int bits = 0;
            while (record.len >> bits) bits++;
            counts[bits]++;
            discarded += record.discarded;
            at += record.span;
        }
        memmove(bytes, bytes + at, have -= at);
    }
    for (int bits = 0; bits < 33; bits++)
        if (counts[bits]) printf("below %" PRIu64 " %" PRIu64 "\n", UINT64_C(1) << bits, counts[bits]);
    printf("discarded %" PRIu64 " bytes %" PRIu64 "\n", discarded, position);
    if (status == HESKAVO_FAULT) printf("fault %" PRIu32 "\n", record.fault);
    if (status == HESKAVO_MORE && have) printf("truncated\n");
    free(bytes);
    return status != HESKAVO_MORE || have;
}
