// Makes the calls of engines that its input names, one a line, each with buffers between guarded pages, and prints what
// each call answered.
//
//     engines end|front < CALLS      buffers end at a guarded page, or begin at one
//
// A line begins with the number of the engine, 0 to 15. The calls, with bytes in hex and `-` for none:
//
//     open CTX_LEN [SIZE ..] | load HEX | run PROGRAM HEX | put RING HEX FLAGS | take RING | query RING WHAT
//     counts RING | close
#include "guarded.h"
#include "heskavo_host.h"
#include <inttypes.h>

enum { ENGINES = 16, WORD = 200000 };

static struct heskavo_engine *engines[ENGINES];
static char word[WORD];

static const char *next_word(void) {
    want(scanf("%199999s", word) == 1, "a word");
    return word;
}

static uint64_t next_number(void) {
    return strtoull(next_word(), NULL, 10);
}

static int digit(char of) {
    return of <= '9' ? of - '0' : of - 'a' + 10;
}

static struct guarded next_bytes(void) {
    static uint8_t bytes[WORD / 2];
    size_t len = 0;
    next_word();
    for (const char *at = word; word[0] != '-' && *at; at += 2) bytes[len++] = (uint8_t)(digit(at[0]) << 4 | digit(at[1]));
    return guarded_copy(bytes, len);
}

static void open_engine(struct heskavo_engine *engine) {
    uint64_t sizes[16];
    size_t rings = 0;
    uint32_t ctx_len = (uint32_t)next_number();
    for (int after = getchar(); after == ' '; after = getchar()) sizes[rings++] = next_number();
    struct guarded given = guarded_copy(sizes, rings * sizeof *sizes);
    printf("open %" PRIu32 "\n", heskavo_engine_open((const uint64_t *)given.front, rings, ctx_len, engine));
    release(given);
}

static void load(struct heskavo_engine *engine) {
    struct guarded program = next_bytes(), place = guarded(4), verdict = guarded(sizeof(struct heskavo_verdict));
    struct heskavo_verdict *found = (struct heskavo_verdict *)verdict.front;
    uint32_t *number = (uint32_t *)place.front;
    uint32_t status = heskavo_engine_load(engine, program.front, program.len, number, found);
    printf("load %" PRIu32 " number %" PRIu32 " verdict", status, *number);
    printf(" %" PRIu32 " %" PRIu32 " %" PRIu32 "\n", found->layer, found->number, found->unit);
    release(program), release(place), release(verdict);
}

static void run(struct heskavo_engine *engine) {
    uint32_t program = (uint32_t)next_number();
    struct guarded context = next_bytes(), value = guarded(8);
    uint32_t status = heskavo_engine_run(engine, program, context.front, context.len, (uint64_t *)value.front);
    printf("run %" PRIu32 " %" PRIu64 "\n", status, *(uint64_t *)value.front);
    release(context), release(value);
}

static void put(struct heskavo_engine *engine) {
    uint32_t ring = (uint32_t)next_number();
    struct guarded bytes = next_bytes();
    printf("put %" PRIu32 "\n", heskavo_engine_put(engine, ring, bytes.front, bytes.len, next_number()));
    release(bytes);
}

// Takes with a buffer of no bytes, and if the record is longer, with one that is a byte too short, and then with one
// of its length.
static void take(struct heskavo_engine *engine) {
    uint32_t ring = (uint32_t)next_number();
    struct guarded found = guarded(sizeof(struct heskavo_taken_record)), buffer = guarded(0);
    struct heskavo_taken_record *record = (struct heskavo_taken_record *)found.front;
    uint32_t status = heskavo_engine_take(engine, ring, buffer.front, 0, record);
    if (status == HESKAVO_ROOM) {
        uint32_t len = record->len;
        struct guarded shorter = guarded(len - 1);
        status = heskavo_engine_take(engine, ring, shorter.front, len - 1, record);
        want(status == HESKAVO_ROOM && record->len == len, "no room");
        release(shorter);
        buffer = guarded(len);
        status = heskavo_engine_take(engine, ring, buffer.front, len, record);
    }
    printf("take %" PRIu32, ring);
    if (status == HESKAVO_EMPTY) printf(" empty");
    else if (status != HESKAVO_DONE) printf(" status %" PRIu32, status);
    else printf(" pos %" PRIu64 " len %" PRIu32 " ", record->position, record->len);
    if (status == HESKAVO_DONE && buffer.len == 0) printf(record->discarded ? "discarded" : "-");
    for (size_t i = 0; i < buffer.len; i++) printf("%02x", buffer.front[i]);
    printf("\n");
    release(found), release(buffer);
}

static void query(struct heskavo_engine *engine) {
    uint32_t ring = (uint32_t)next_number();
    struct guarded answer = guarded(8);
    uint32_t status = heskavo_engine_query(engine, ring, next_number(), (uint64_t *)answer.front);
    printf("query %" PRIu32 " %" PRIu64 "\n", status, *(uint64_t *)answer.front);
    release(answer);
}

static void counts(struct heskavo_engine *engine) {
    uint32_t ring = (uint32_t)next_number();
    struct guarded place = guarded(sizeof(struct heskavo_ring_counts));
    struct heskavo_ring_counts *told = (struct heskavo_ring_counts *)place.front;
    uint32_t status = heskavo_engine_counts(engine, ring, told);
    printf("counts %" PRIu32 " made %" PRIu64 " refused %" PRIu64, status, told->made, told->refused);
    printf(" consumed %" PRIu64 " discarded %" PRIu64, told->consumed, told->discarded);
    printf(" waiting %" PRIu64 " busy %" PRIu64 "\n", told->waiting, told->busy);
    release(place);
}

static void close_engine(struct heskavo_engine *engine) {
    heskavo_engine_close(engine);
    printf("close\n");
}

static const struct {
    const char *name;
    void (*call)(struct heskavo_engine *engine);
} CALLS[] = {{"open", open_engine}, {"load", load},   {"run", run},       {"put", put},
             {"take", take},        {"query", query}, {"counts", counts}, {"close", close_engine}};

int main(int argc, char **argv) {
    want(argc == 2, "one argument");
    at_front = !strcmp(argv[1], "front");
    struct guarded handles[ENGINES];
    for (size_t i = 0; i < ENGINES; i++) {
        handles[i] = guarded(sizeof(struct heskavo_engine));
        engines[i] = (struct heskavo_engine *)handles[i].front;
    }
    uint64_t number;
    while (scanf("%" SCNu64, &number) == 1) {
        want(number < ENGINES, "an engine");
        next_word();
        size_t i = 0;
        while (i < sizeof CALLS / sizeof *CALLS && strcmp(CALLS[i].name, word)) i++;
        want(i < sizeof CALLS / sizeof *CALLS, "a call");
        printf("%" PRIu64 " ", number);
        CALLS[i].call(engines[number]);
    }
    for (size_t i = 0; i < ENGINES; i++) {
        heskavo_engine_close(engines[i]);
        release(handles[i]);
    }
    return 0;
}
