// Makes the calls of the library that need no engine on a program, and then runs it in one, and prints what `rbhost check`, `explain` and `cost` print.
//
//     calls PROGRAM    the status is 2 if a call answered something else than expected
#include "heskavo_host.h"
#include <inttypes.h>
#include <stdio.h>
#include <stdlib.h>
#include <string.h>

static void want(int holds, const char *what) {
    if (!holds) {
        fprintf(stderr, "not so: %s\n", what);
        exit(2);
    }
}

/* Prints the records of a tape, and puts each anew into a buffer of just its span. */
static void print_tape(const uint8_t *tape, uint64_t len) {
    struct heskavo_record record;
    uint64_t position = 0, written;
    while (position < len) {
        want(heskavo_tape_next(tape + position, len - position, 4096, position, &record) == HESKAVO_DONE, "a record");
        const uint8_t *payload = tape + position + record.offset;
        printf("ring 0 pos %" PRIu64 " len %" PRIu32, position, record.len);
        if (record.discarded) printf(" discarded");
        else if (!record.len) printf(" -");
        else printf(" ");
        for (uint32_t i = 0; i < record.len && !record.discarded; i++) printf("%02x", payload[i]);
        printf("\n");
        uint8_t *again = malloc(record.span);
        if (record.discarded) {
            want(heskavo_tape_put_discarded(record.len, 4096, position, again, record.span - 1, &written) == HESKAVO_ROOM, "no room");
            want(heskavo_tape_put_discarded(record.len, 4096, position, again, record.span, &written) == HESKAVO_DONE, "put");
        } else {
            payload = record.len ? payload : NULL;
            want(heskavo_tape_put(payload, record.len, 4096, position, NULL, 0, &written) == HESKAVO_ROOM, "no room");
            want(heskavo_tape_put(payload, record.len, 4096, position, again, record.span, &written) == HESKAVO_DONE, "put");
        }
        want(written == record.span && !memcmp(again, tape + position, record.span), "the same bytes");
        free(again);
        position += record.span;
    }
    want(heskavo_tape_next(NULL, 0, 4096, position, &record) == HESKAVO_MORE, "no more");
}

/* Prints the cost of an accepted program for 0 rings, for each number of rings that is a power of two, and for too many. */
static void tell_costs(const uint8_t *program, size_t len) {
    struct heskavo_ring_cost rings[17] = {{0, 0, 0, 0}};
    struct heskavo_verdict verdict = {0, 0, 0};
    struct heskavo_cost cost = {0, 0};
    want(heskavo_cost(program, len, 16, &cost, rings, 17, &verdict) == HESKAVO_ARGUMENT, "too many rings");
    want(heskavo_cost(program, len, 65537, &cost, rings, 1, &verdict) == HESKAVO_ARGUMENT, "a context that is too long");
    for (size_t count = 0; count <= 16; count = count ? 2 * count : 1) {
        struct heskavo_ring_cost *costs = count ? malloc(count * sizeof *costs) : NULL;
        uint32_t status = heskavo_cost(program, len, 16, &cost, costs, count, &verdict);
        want(status == HESKAVO_DONE || (status == HESKAVO_REFUSED && verdict.layer), "a cost, or a verdict");
        if (status == HESKAVO_DONE) printf("accepted\nsteps %" PRIu64 " calls %" PRIu64 "\n", cost.steps, cost.calls);
        for (size_t i = 0; status == HESKAVO_DONE && i < count; i++) {
            want(costs[i].held_records <= costs[i].records && costs[i].held_bytes <= costs[i].bytes, "no more is held than was asked for");
            printf("ring %zu records %" PRIu64 " bytes %" PRIu64 " held %" PRIu64 "\n", i, costs[i].records, costs[i].bytes, costs[i].held_bytes);
        }
        free(costs);
    }
}

/* Takes the next record of an engine's ring 0, into a buffer of just its length, and compares it with the record of a tape at this position. */
static uint64_t take_same(struct heskavo_engine *engine, const uint8_t *tape, uint64_t len, uint64_t position, uint64_t base) {
    struct heskavo_record record;
    struct heskavo_taken_record taken;
    want(heskavo_tape_next(tape + position, len - position, 4096, position, &record) == HESKAVO_DONE, "a record");
    size_t length = record.discarded ? 0 : record.len;
    uint8_t *buffer = length ? malloc(length) : NULL;
    if (length) want(heskavo_engine_take(engine, 0, buffer, length - 1, &taken) == HESKAVO_ROOM && taken.len == length, "no room");
    want(heskavo_engine_take(engine, 0, buffer, length, &taken) == HESKAVO_DONE, "a record is taken");
    want(taken.position == base + position && taken.len == record.len && taken.discarded == record.discarded, "the same record");
    want(!length || !memcmp(buffer, tape + position + record.offset, length), "the same bytes");
    free(buffer);
    return position + record.span;
}

/* Runs a program twice in an engine, which leaves after each run what heskavo_run left. */
static void run_in_engine(const uint8_t *program, size_t len, uint32_t wanted, const struct heskavo_verdict *verdict, uint64_t value, const uint8_t *tape, uint64_t tape_len) {
    const uint64_t size = 4096;
    struct heskavo_engine engine = {0};
    struct heskavo_verdict found = {0, 0, 0};
    struct heskavo_taken_record taken;
    struct heskavo_ring_counts counts;
    uint8_t *context = calloc(16, 1);
    uint32_t number = 9;
    uint64_t ended = 0, base = 0, answer = 1;
    want(heskavo_engine_open(&size, 1, 16, &engine) == HESKAVO_DONE, "an engine");
    want(heskavo_engine_load(&engine, program, len, &number, &found) == wanted, "the same verdict");
    want(wanted == HESKAVO_DONE ? number == 0 : number == 9 && !memcmp(&found, verdict, sizeof found), "the same reason");
    for (int run = 0; wanted == HESKAVO_DONE && run < 2; run++) {
        want(heskavo_engine_run(&engine, number, context, 16, &ended) == HESKAVO_DONE && ended == value, "the same result");
        for (uint64_t position = 0; position < tape_len;) position = take_same(&engine, tape, tape_len, position, base);
        want(heskavo_engine_take(&engine, 0, NULL, 0, &taken) == HESKAVO_EMPTY, "no more records");
        want(heskavo_engine_query(&engine, 0, 0, &answer) == HESKAVO_DONE && answer == 0, "no bytes wait");
        base += tape_len;
    }
    want(heskavo_engine_counts(&engine, 0, &counts) == HESKAVO_DONE && counts.made == counts.consumed + counts.discarded, "the counts add up");
    want(heskavo_engine_take(&engine, 1, NULL, 0, &taken) == HESKAVO_ARGUMENT, "no ring 1");
    heskavo_engine_close(&engine);
    want(heskavo_engine_run(&engine, 0, context, 16, &ended) == HESKAVO_ARGUMENT, "a closed engine");
    free(context);
}

int main(int argc, char **argv) {
    want(argc == 2, "a file");
    FILE *file = fopen(argv[1], "rb");
    uint8_t *program = malloc(40000), context[16] = {0};
    size_t len = fread(program, 1, 40000, file);
    fclose(file);
    program = realloc(program, len ? len : 1);
    uint64_t written = 0, value = 7, wanted = 0;
    struct heskavo_verdict verdict = {0, 0, 0};
    want(heskavo_verify(program, len, 65537, 1, &verdict) == HESKAVO_ARGUMENT, "a context that is too long");
    want(heskavo_run(program, len, context, 16, 4095, NULL, 0, &written, 1, &value, &verdict) == HESKAVO_ARGUMENT, "no ring's size");
    uint32_t status = heskavo_run(program, len, context, 16, 4096, NULL, 0, &written, 1, &value, &verdict);
    if (status == HESKAVO_ROOM) {
        uint8_t *tape = malloc(written);
        want(value == 7, "no value yet");
        want(heskavo_run(program, len, context, 16, 4096, tape, written - 1, &written, 1, &value, &verdict) == HESKAVO_ROOM, "no room");
        status = heskavo_run(program, len, context, 16, 4096, tape, written, &written, 1, &value, &verdict);
        want(status == HESKAVO_DONE, "a run");
        printf("accepted\nresult %" PRIu64 "\n", value);
        print_tape(tape, written);
        run_in_engine(program, len, status, &verdict, value, tape, written);
        free(tape);
    } else if (status == HESKAVO_DONE) {
        want(written == 0, "no record");
        run_in_engine(program, len, status, &verdict, value, NULL, 0);
        printf("accepted\nresult %" PRIu64 "\n", value);
    } else {
        want(status == HESKAVO_REFUSED && value == 7, "a refusal");
        run_in_engine(program, len, status, &verdict, value, NULL, 0);
        printf("refused layer %" PRIu32 " number %" PRIu32 " unit %" PRIu32 "\n", verdict.layer, verdict.number, verdict.unit);
    }
    want(heskavo_explain(program, len, 16, 1, NULL, 0, &wanted) == HESKAVO_ROOM, "no room");
    uint8_t *text = malloc(wanted);
    want(heskavo_explain(program, len, 16, 1, text, wanted - 1, &wanted) == HESKAVO_ROOM, "no room");
    want(heskavo_explain(program, len, 16, 1, text, wanted, &wanted) == (status == HESKAVO_DONE ? HESKAVO_DONE : HESKAVO_REFUSED), "an explanation");
    fwrite(text, 1, wanted, stdout);
    free(text);
    tell_costs(program, len);
    free(program);
    return 0;
}
