/* Makes each call of heskavo_host.h, and has a program refused for each reason that it numbers. Arguments, and the fields of what is answered, differ from
 * place to place, so that one that is read or written at the place of another gives another answer. Prints a line for each answer that is not the expected
 * one, and ends with the status 1 if there is one. */
#include "heskavo_host.h"
#include "refused_programs.h"
#include <stdio.h>
#include <string.h>

/* Reserves 24 bytes of ring 1, discards them if they were granted, outputs the first 8 bytes of the context to ring 1, and returns 7. */
static const uint8_t PROGRAM[] = {
    0xbf, 0x16, 0, 0, 0, 0, 0, 0,                             /* r6 = r1 */
    0x18, 0x51, 0, 0, 1, 0, 0, 0, 0, 0, 0, 0, 0, 0, 0, 0,     /* r1 = map_by_idx(1) */
    0xb7, 0x02, 0, 0, 24, 0, 0, 0,                            /* r2 = 24 */
    0xb7, 0x03, 0, 0, 0, 0, 0, 0,                             /* r3 = 0 */
    0x85, 0, 0, 0, 131, 0, 0, 0,                              /* call bpf_ringbuf_reserve */
    0x15, 0, 3, 0, 0, 0, 0, 0,                                /* if r0 == 0 goto +3 */
    0xbf, 0x01, 0, 0, 0, 0, 0, 0,                             /* r1 = r0 */
    0xb7, 0x02, 0, 0, 0, 0, 0, 0,                             /* r2 = 0 */
    0x85, 0, 0, 0, 133, 0, 0, 0,                              /* call bpf_ringbuf_discard */
    0x18, 0x51, 0, 0, 1, 0, 0, 0, 0, 0, 0, 0, 0, 0, 0, 0,     /* r1 = map_by_idx(1) */
    0xbf, 0x62, 0, 0, 0, 0, 0, 0,                             /* r2 = r6 */
    0xb7, 0x03, 0, 0, 8, 0, 0, 0,                             /* r3 = 8 */
    0xb7, 0x04, 0, 0, 0, 0, 0, 0,                             /* r4 = 0 */
    0x85, 0, 0, 0, 130, 0, 0, 0,                              /* call bpf_ringbuf_output */
    0xb7, 0, 0, 0, 7, 0, 0, 0,                                /* r0 = 7 */
    0x95, 0, 0, 0, 0, 0, 0, 0,                                /* exit */
};

/* Returns 5, and leaves no record. */
static const uint8_t NO_RECORD[] = {
    0xb7, 0, 0, 0, 5, 0, 0, 0, /* r0 = 5 */
    0x95, 0, 0, 0, 0, 0, 0, 0, /* exit */
};

/* Refused at unit 2 by the first rule: its exit reads r0, which holds nothing. */
static const uint8_t REFUSED[] = {
    0xb7, 0x01, 0, 0, 0, 0, 0, 0, /* r1 = 0 */
    0xb7, 0x02, 0, 0, 0, 0, 0, 0, /* r2 = 0 */
    0x95, 0,    0, 0, 0, 0, 0, 0, /* exit */
};

/* What PROGRAM leaves in ring 1: a discarded record of 24 bytes, and one of the 8 bytes of CONTEXT. */
static const uint8_t CONTEXT[] = {1, 2, 3, 4, 5, 6, 7, 8};
static const uint8_t TAPE[48] = {[0] = 24, [3] = 0x40, [32] = 8, [40] = 1, 2, 3, 4, 5, 6, 7, 8};

static int wrong;

static void expect(int holds, const char *what) {
    if (holds) return;
    printf("calls.c: %s\n", what);
    wrong = 1;
}

static int is_verdict(const struct heskavo_verdict *verdict) {
    return verdict->layer == HESKAVO_RULES && verdict->number == HESKAVO_RULE_UNREADABLE && verdict->unit == 2;
}

static int is_explanation(const char *text, uint64_t length) {
    static const char first[] = "      #  r1 ", last[] = "ring 1 records 2 bytes 48 held 32\n";
    return length > sizeof first + sizeof last && !memcmp(text, first, sizeof first - 1) && !memcmp(text + length + 1 - sizeof last, last, sizeof last - 1);
}

static void verify_and_explain(void) {
    struct heskavo_verdict verdict = {0, 0, 0};
    static uint8_t text[65536];
    uint64_t wanted = 0;
    expect(heskavo_version() != 0, "heskavo_version is a number");
    expect(heskavo_verify(PROGRAM, sizeof PROGRAM, 21, 2, &verdict) == HESKAVO_DONE, "heskavo_verify accepts the program");
    expect(heskavo_verify(PROGRAM, sizeof PROGRAM, 21, 17, &verdict) == HESKAVO_ARGUMENT, "heskavo_verify takes no 17 rings");
    expect(heskavo_verify(REFUSED, sizeof REFUSED, 21, 2, &verdict) == HESKAVO_REFUSED && is_verdict(&verdict), "the verdict of heskavo_verify");
    expect(heskavo_explain(PROGRAM, sizeof PROGRAM, 21, 2, text, 0, &wanted) == HESKAVO_ROOM && wanted > 0, "heskavo_explain wants room");
    expect(heskavo_explain(PROGRAM, sizeof PROGRAM, 21, 2, text, sizeof text, &wanted) == HESKAVO_DONE && is_explanation((const char *)text, wanted),
           "heskavo_explain writes");
    expect(heskavo_explain(REFUSED, sizeof REFUSED, 21, 2, text, sizeof text, &wanted) == HESKAVO_REFUSED, "heskavo_explain of a refused program");
}

/* Returns how many bytes the digits spell. */
static size_t spelled(const char *hex, uint8_t *bytes) {
    size_t length = strlen(hex) / 2;
    for (size_t i = 0; i < length; i++) sscanf(hex + 2 * i, "%2hhx", &bytes[i]);
    return length;
}

static void refuse_each_program(void) {
    static uint8_t bytes[8 * 4097];
    struct heskavo_verdict verdict = {0, 0, 0};
    expect(heskavo_verify(bytes, sizeof bytes, 16, 1, &verdict) == HESKAVO_REFUSED && verdict.layer == HESKAVO_BYTES && verdict.number == HESKAVO_BYTES_TOO_LONG,
           "a program of 4,097 units");
    for (size_t row = 0; row < sizeof REFUSED_PROGRAMS / sizeof *REFUSED_PROGRAMS; row++) {
        const struct refused_program *program = &REFUSED_PROGRAMS[row];
        size_t length = spelled(program->hex, bytes);
        expect(heskavo_verify(bytes, length, 16, 1, &verdict) == HESKAVO_REFUSED && !memcmp(&verdict, &program->verdict, sizeof verdict), program->hex);
    }
}

static void find_each_fault(void) {
    for (size_t row = 0; row < sizeof FAULTY_RECORDS / sizeof *FAULTY_RECORDS; row++) {
        struct heskavo_record record = {0, 0, 0, 0, 0};
        uint32_t status = heskavo_tape_next((const uint8_t *)FAULTY_RECORDS[row].words, 16, 4096, 0, &record);
        expect(status == HESKAVO_FAULT && record.fault == FAULTY_RECORDS[row].fault, "a record with a fault");
    }
}

static void tell_cost(void) {
    struct heskavo_verdict verdict = {0, 0, 0};
    struct heskavo_cost cost = {0, 0};
    struct heskavo_ring_cost rings[2] = {{0, 0, 0, 0}, {0, 0, 0, 0}};
    const struct heskavo_ring_cost none = {0, 0, 0, 0}, all = {.records = 2, .bytes = 48, .held_records = 1, .held_bytes = 32};
    expect(heskavo_cost(PROGRAM, sizeof PROGRAM, 21, &cost, rings, 2, &verdict) == HESKAVO_DONE, "heskavo_cost accepts the program");
    expect(cost.steps == 16 && cost.calls == 3, "the cost of heskavo_cost");
    expect(!memcmp(&rings[0], &none, sizeof none) && !memcmp(&rings[1], &all, sizeof all), "the rings of heskavo_cost");
    expect(heskavo_cost(REFUSED, sizeof REFUSED, 21, &cost, rings, 2, &verdict) == HESKAVO_REFUSED && is_verdict(&verdict), "the verdict of heskavo_cost");
}

static void run_program(void) {
    struct heskavo_verdict verdict = {0, 0, 0};
    uint8_t tapes[64];
    uint64_t written[2] = {9, 9}, value = 9;
    expect(heskavo_run(PROGRAM, sizeof PROGRAM, CONTEXT, sizeof CONTEXT, 4096, tapes, 47, written, 2, &value, &verdict) == HESKAVO_ROOM, "heskavo_run wants room");
    expect(value == 9 && written[1] == 48, "what heskavo_run writes where it has no room");
    expect(heskavo_run(PROGRAM, sizeof PROGRAM, CONTEXT, sizeof CONTEXT, 4096, tapes, sizeof tapes, written, 2, &value, &verdict) == HESKAVO_DONE, "heskavo_run");
    expect(value == 7 && written[0] == 0 && written[1] == 48 && !memcmp(tapes, TAPE, sizeof TAPE), "the tapes of heskavo_run");
    expect(heskavo_run(NO_RECORD, sizeof NO_RECORD, CONTEXT, sizeof CONTEXT, 4096, NULL, 0, written, 2, &value, &verdict) == HESKAVO_DONE && value == 5
           && written[0] == 0 && written[1] == 0, "heskavo_run of a program that leaves no record");
    expect(heskavo_run(REFUSED, sizeof REFUSED, CONTEXT, sizeof CONTEXT, 4096, tapes, sizeof tapes, written, 2, &value, &verdict) == HESKAVO_REFUSED
           && is_verdict(&verdict), "the verdict of heskavo_run");
}

static int is_record(const struct heskavo_record *record, uint64_t span, uint32_t len, uint32_t discarded) {
    return record->offset == 8 && record->span == span && record->len == len && record->discarded == discarded && record->fault == 0;
}

static void read_and_write_tapes(void) {
    struct heskavo_record record = {0, 0, 0, 0, 0};
    uint8_t tape[48];
    uint64_t written = 0;
    expect(heskavo_tape_next(TAPE, sizeof TAPE, 4096, 0, &record) == HESKAVO_DONE && is_record(&record, 32, 24, 1), "the discarded record");
    expect(heskavo_tape_next(TAPE + 32, 16, 4096, 32, &record) == HESKAVO_DONE && is_record(&record, 16, 8, 0), "the submitted record");
    expect(heskavo_tape_next(TAPE + 32, 15, 4096, 32, &record) == HESKAVO_MORE, "a record that is cut");
    expect(heskavo_tape_put_discarded(24, 4096, 0, tape, sizeof tape, &written) == HESKAVO_DONE && written == 32, "heskavo_tape_put_discarded");
    expect(heskavo_tape_put(CONTEXT, sizeof CONTEXT, 4096, 32, tape + 32, 15, &written) == HESKAVO_ROOM && written == 16, "heskavo_tape_put wants room");
    expect(heskavo_tape_put(CONTEXT, sizeof CONTEXT, 4096, 32, tape + 32, 16, &written) == HESKAVO_DONE && written == 16, "heskavo_tape_put");
    expect(!memcmp(tape, TAPE, sizeof TAPE), "the tape that was put");
    tape[3] |= 0x80;
    expect(heskavo_tape_next(tape, sizeof tape, 4096, 0, &record) == HESKAVO_FAULT && record.fault == HESKAVO_TAPE_BUSY, "the fault of a busy record");
}

/* The header of a record in a ring of Linux with 8,192 bytes, at position 12,288: that is the page after the first one of the data. */
static void read_linux_headers(void) {
    const uint64_t at = 12288, page = (uint64_t)4 << 32, busy = 1u << 31, discard = 1u << 30;
    const uint64_t faulty[] = {page | busy | discard | 20, page + ((uint64_t)1 << 32) + 20, page | 8192};
    const uint32_t faults[] = {HESKAVO_LINUX_BOTH_BITS, HESKAVO_LINUX_OTHER_PAGE, HESKAVO_LINUX_NO_ROOM};
    struct heskavo_linux_record found = {0, 0, 0, 9};
    expect(heskavo_linux_record(page | discard | 20, 8192, at, 3, &found) == HESKAVO_DONE && found.next == at + 32 && found.len == 20 && found.discarded == 1
           && found.fault == 0, "heskavo_linux_record of a discarded record");
    expect(heskavo_linux_record(page | 20, 8192, at, 3, &found) == HESKAVO_DONE && found.discarded == 0, "heskavo_linux_record of a submitted record");
    expect(heskavo_linux_record(page | busy | 20, 8192, at, 3, &found) == HESKAVO_MORE, "heskavo_linux_record of a busy record");
    expect(heskavo_linux_record(page | 20, 8192, at + 4, 3, &found) == HESKAVO_ARGUMENT, "heskavo_linux_record at no position");
    for (int i = 0; i < 3; i++)
        expect(heskavo_linux_record(faulty[i], 8192, at, 3, &found) == HESKAVO_FAULT && found.fault == faults[i], "a fault of heskavo_linux_record");
    struct heskavo_linux_page on_page = {0, 0, 0};
    expect(heskavo_linux_page(8192, at + 24, 3, &on_page) == HESKAVO_DONE, "heskavo_linux_page");
    expect(on_page.first == page && on_page.end == at + 4096 && on_page.max_len == 8176, "the page of heskavo_linux_page");
    expect(heskavo_linux_page(8192, at + 4, 3, &on_page) == HESKAVO_ARGUMENT, "heskavo_linux_page at no position");
    expect(heskavo_linux_page(8192, at + 24, 1u << 31, &on_page) == HESKAVO_ARGUMENT, "heskavo_linux_page behind too many pages");
}

/* A ring of 4,096 bytes, and one of 8,192: PROGRAM leaves a discarded record of 24 bytes and one of 8 in the second, and the caller puts three bytes there. */
static void keep_an_engine(void) {
    const uint64_t sizes[] = {4096, 8192}, no_sizes[] = {4096, 4097};
    struct heskavo_engine engine = {0};
    struct heskavo_verdict verdict = {0, 0, 0};
    struct heskavo_taken_record record = {9, 9, 9};
    struct heskavo_ring_counts counts;
    const struct heskavo_ring_counts all = {.made = 3, .refused = 1, .consumed = 1, .discarded = 1, .waiting = 1, .busy = 0};
    uint8_t buffer[8];
    uint32_t number = 9;
    uint64_t value = 0;
    expect(heskavo_engine_run(&engine, 0, CONTEXT, sizeof CONTEXT, &value) == HESKAVO_ARGUMENT, "a closed engine runs nothing");
    expect(heskavo_engine_put(&engine, 0, CONTEXT, 1, 0) == HESKAVO_ARGUMENT, "a closed engine takes no record");
    expect(heskavo_engine_open(no_sizes, 2, 8, &engine) == HESKAVO_ARGUMENT && !engine.inside, "heskavo_engine_open of a size that no ring has");
    expect(heskavo_engine_open(sizes, 2, 8, &engine) == HESKAVO_DONE && engine.inside, "heskavo_engine_open");
    expect(heskavo_engine_open(sizes, 2, 8, &engine) == HESKAVO_ARGUMENT && engine.inside, "heskavo_engine_open of an open handle");
    expect(heskavo_engine_load(&engine, REFUSED, sizeof REFUSED, &number, &verdict) == HESKAVO_REFUSED && is_verdict(&verdict) && number == 9,
           "the verdict of heskavo_engine_load");
    expect(heskavo_engine_load(&engine, NO_RECORD, sizeof NO_RECORD, &number, &verdict) == HESKAVO_DONE && number == 0, "heskavo_engine_load");
    expect(heskavo_engine_load(&engine, PROGRAM, sizeof PROGRAM, &number, &verdict) == HESKAVO_DONE && number == 1, "heskavo_engine_load of the second program");
    expect(heskavo_engine_run(&engine, 0, CONTEXT, sizeof CONTEXT, &value) == HESKAVO_DONE && value == 5, "heskavo_engine_run");
    expect(heskavo_engine_run(&engine, 1, CONTEXT, sizeof CONTEXT, &value) == HESKAVO_DONE && value == 7, "heskavo_engine_run of the second program");
    expect(heskavo_engine_run(&engine, 1, CONTEXT, 7, &value) == HESKAVO_ARGUMENT, "heskavo_engine_run over a shorter context");
    expect(heskavo_engine_run(&engine, 2, CONTEXT, sizeof CONTEXT, &value) == HESKAVO_ARGUMENT, "heskavo_engine_run of no program");
    expect(heskavo_engine_put(&engine, 1, CONTEXT, 3, 0) == HESKAVO_DONE, "heskavo_engine_put");
    expect(heskavo_engine_put(&engine, 1, CONTEXT, 3, 4) == HESKAVO_ARGUMENT, "heskavo_engine_put with a flag that is not known");
    static const uint8_t long_record[8192];
    expect(heskavo_engine_put(&engine, 1, long_record, sizeof long_record, 0) == HESKAVO_FULL, "heskavo_engine_put without room");
    expect(heskavo_engine_take(&engine, 1, NULL, 0, &record) == HESKAVO_DONE && record.position == 0 && record.len == 24 && record.discarded == 1,
           "heskavo_engine_take of the discarded record");
    expect(heskavo_engine_take(&engine, 1, buffer, 7, &record) == HESKAVO_ROOM && record.len == 8, "heskavo_engine_take wants room");
    expect(heskavo_engine_take(&engine, 1, buffer, 8, &record) == HESKAVO_DONE && record.position == 32 && record.len == 8 && record.discarded == 0
           && !memcmp(buffer, CONTEXT, sizeof CONTEXT), "heskavo_engine_take");
    expect(heskavo_engine_take(&engine, 1, NULL, 0, &record) == HESKAVO_ROOM && record.len == 3, "heskavo_engine_take of the record that was put wants room");
    expect(heskavo_engine_take(&engine, 0, buffer, 8, &record) == HESKAVO_EMPTY, "heskavo_engine_take of an empty ring");
    expect(heskavo_engine_query(&engine, 1, 3, &value) == HESKAVO_DONE && value == 64, "heskavo_engine_query of the producer position");
    expect(heskavo_engine_query(&engine, 2, 3, &value) == HESKAVO_ARGUMENT, "heskavo_engine_query of no ring");
    expect(heskavo_engine_counts(&engine, 1, &counts) == HESKAVO_DONE && !memcmp(&counts, &all, sizeof all), "heskavo_engine_counts");
    heskavo_engine_close(&engine);
    expect(!engine.inside && heskavo_engine_counts(&engine, 1, &counts) == HESKAVO_ARGUMENT, "heskavo_engine_close");
    heskavo_engine_close(&engine);
}

int main(void) {
    verify_and_explain();
    refuse_each_program();
    tell_cost();
    run_program();
    read_and_write_tapes();
    find_each_fault();
    read_linux_headers();
    keep_an_engine();
    return wrong;
}
