/*
 * Heskavo for C, and for languages that call C: verification, explanation, costs and runs of eBPF programs that write
 * to BPF ring buffers, and the records of tapes (files of records).
 *
 * What each function returns and writes is proved, for callers that keep to the rules for buffers below; the contracts
 * are at the exports of crates/heskavo_c. That this header declares what the library has is tested. No state is kept
 * between calls except in the engines that a caller opens. No call takes a lock, starts a thread or aborts. Any number
 * of threads may make calls at once, with buffers and engines of their own.
 *
 * A buffer is a pointer and its length in items. Its pointer may be null if the length is 0; no other pointer may be
 * null. Every pointer is aligned for what it points to. What a call may write, be it a buffer, a single number or a
 * struct, must not overlap anything else that is passed to the same call. No length is above PTRDIFF_MAX.
 *
 * Memory is allocated by malloc and freed before the call returns, except that of an engine. So no function may be
 * called from a signal handler, or in the child of a fork of a process with threads; and malloc must align a block to
 * each power of two up to 16 that divides its size.
 *
 * A program is its bytes, eight per unit, in the format of RFC 9669. bpf-helpers(7) describes its calls, and Linux
 * Documentation/bpf/ringbuf.rst the rings.
 *
 * Link with libheskavo.a. tools/install copies it to lib, and this header to include, below one folder.
 *
 * An example, which prints the maximal cost of a program for a context of 16 bytes and one ring, or why the program is
 * refused. The function `is_accepted` of examples/embed/c/agent.c has these lines:
 *
 *     struct heskavo_cost cost;
 *     struct heskavo_ring_cost ring;
 *     struct heskavo_verdict verdict;
 *     uint32_t status = heskavo_cost(program, len, 16, &cost, &ring, 1, &verdict);
 *     if (status == HESKAVO_REFUSED)
 *         printf("refused layer %" PRIu32 " number %" PRIu32 " unit %" PRIu32 "\n",
 *                verdict.layer, verdict.number, verdict.unit);
 *     if (status != HESKAVO_DONE) return 0;
 *     printf("steps %" PRIu64 " calls %" PRIu64 "\n", cost.steps, cost.calls);
 */
#ifndef HESKAVO_HOST_H
#define HESKAVO_HOST_H

#include <stddef.h>
#include <stdint.h>

#ifdef __cplusplus
extern "C" {
#endif

/*
 * Returns the version of this library, which is that of rbhost: a byte for each of its three numbers, the first one the
 * highest (0x000200 is 0.2.0).
 */
uint32_t heskavo_version(void);

/* The results of calls. */
enum heskavo_status {
    HESKAVO_DONE = 0,     /* success */
    HESKAVO_REFUSED = 1,  /* refused program; only the verdict, or the explanation and its length, was written */
    HESKAVO_ARGUMENT = 2, /* a length, a size or a position is out of bounds; nothing was written */
    HESKAVO_MEMORY = 3,   /* memory could not be allocated, whatever the program is; nothing was written */
    HESKAVO_ROOM = 4,     /* the output does not fit; only its length was written */
    HESKAVO_MORE = 5,     /* no whole record yet, and no fault; or the next record is busy; nothing was written */
    HESKAVO_FAULT = 6,    /* the bytes have a fault */
    HESKAVO_BROKEN = 7,   /* never returned: a run always leaves a whole tape; the number stays reserved */
    HESKAVO_EMPTY = 8,    /* the ring has no record; nothing was written */
    HESKAVO_FULL = 9      /* the ring has no room for the record, and counts the refusal; nothing was written */
};

/* The layers of verification, of which a verdict names one. */
enum heskavo_layer {
    HESKAVO_BYTES = 1, /* the bytes are not a program */
    HESKAVO_SHAPE = 2, /* the program is not well-shaped */
    HESKAVO_RULES = 3  /* the program violates a rule of verification */
};

/* Faults in the layer HESKAVO_BYTES. */
enum heskavo_bytes_fault {
    HESKAVO_BYTES_LENGTH = 1,       /* there are no bytes, or their number is not a multiple of 8 */
    HESKAVO_BYTES_TOO_LONG = 2,     /* there are more than 4,096 units */
    HESKAVO_BYTES_LEFT_OUT = 3,     /* an instruction that this library does not support */
    HESKAVO_BYTES_BAD_OPCODE = 4,   /* an opcode that no instruction has */
    HESKAVO_BYTES_BAD_REGISTER = 5, /* a register above 10 */
    HESKAVO_BYTES_UNUSED_FIELD = 6, /* a field that the instruction does not use, or whose value it does not allow */
    HESKAVO_BYTES_HALF_WIDE = 7     /* a wide instruction without its second unit */
};

/* Faults in the layer HESKAVO_SHAPE. */
enum heskavo_shape_fault {
    HESKAVO_SHAPE_BACKWARD = 1,       /* a jump backward */
    HESKAVO_SHAPE_OUT_OF_PROGRAM = 2, /* a jump to a unit that the program does not have */
    HESKAVO_SHAPE_INTO_WIDE = 3,      /* a jump to the second unit of a wide instruction */
    HESKAVO_SHAPE_FALLS_OFF = 4,      /* execution may continue past the last instruction */
    HESKAVO_SHAPE_UNREACHABLE = 5     /* an instruction is unreachable */
};

/* Faults in the layer HESKAVO_RULES: the rules V1 to V15. */
enum heskavo_rule {
    HESKAVO_RULE_UNREADABLE = 1,            /* an unreadable register is read */
    HESKAVO_RULE_FRAME_POINTER_WRITTEN = 2, /* the frame pointer r10 is written */
    HESKAVO_RULE_POINTER_ARITHMETIC = 3,    /* arithmetic that is not allowed on pointers */
    HESKAVO_RULE_OUTSIDE_PART = 4,          /* an access outside every part of memory (context, stack, records) */
    HESKAVO_RULE_CONTEXT_WRITTEN = 5,       /* the context is written */
    HESKAVO_RULE_POINTER_STORED = 6,        /* a pointer is stored */
    HESKAVO_RULE_HELPER_ARGUMENT = 7,       /* an argument that the helper does not accept */
    HESKAVO_RULE_SIZE_NOT_KNOWN = 8,        /* a size that is not known, or too large */
    HESKAVO_RULE_TOO_MANY_REFERENCES = 9,   /* more than four references are held */
    HESKAVO_RULE_REFERENCE_LEFT = 10,       /* a reference is still held at the exit */
    HESKAVO_RULE_REFERENCES_DIFFER = 11,    /* different references arrive along two edges */
    HESKAVO_RULE_RESULT_NOT_NUMBER = 12,    /* the result is a pointer */
    HESKAVO_RULE_POINTER_COMPARED = 13,     /* a pointer is compared */
    HESKAVO_RULE_NULL_NOT_TESTED = 14,      /* a reservation is used before it was tested against null */
    HESKAVO_RULE_UNKNOWN_HELPER = 15        /* an unknown helper is called */
};

/* Why a program is refused: the first fault of the first layer that has one. */
struct heskavo_verdict {
    uint32_t layer;  /* enum heskavo_layer */
    uint32_t number; /* the fault in that layer */
    uint32_t unit;   /* the unit of eight bytes with the fault, counted from 0 */
};

/* The maximum cost of a program. Each number is reached by some path along the jumps, and exceeded by no run. */
struct heskavo_cost {
    uint64_t steps; /* the most instructions that a path executes */
    uint64_t calls; /* the most helper calls that a path makes */
};

/*
 * The most that a program can request from one ring, and hold of it. A record takes its length, rounded up to a
 * multiple of eight, plus eight bytes for its header.
 */
struct heskavo_ring_cost {
    uint64_t records;      /* the most records that a path requests, by bpf_ringbuf_reserve and bpf_ringbuf_output */
    uint64_t bytes;        /* the most bytes of the ring that the records of a path take */
    uint64_t held_records; /* the most reservations that are held before one instruction */
    uint64_t held_bytes;   /* the most bytes of the ring that reservations held before one instruction take */
};

/* Faults of a record on a tape. */
enum heskavo_tape_fault {
    HESKAVO_TAPE_BUSY = 1,           /* the header has the busy bit */
    HESKAVO_TAPE_PAGE = 2,           /* the header's page is not that of the position */
    HESKAVO_TAPE_PADDING = 3,        /* the padding to a multiple of eight bytes is not zeros */
    HESKAVO_TAPE_TOO_LONG = 4,       /* the record has no room in the ring, or ends past 2^62 */
    HESKAVO_TAPE_DISCARDED_BYTES = 5 /* a discarded record's bytes are not zeros */
};

/* The record at the front of a tape's bytes, or its fault. */
struct heskavo_record {
    uint64_t offset;    /* the start of the payload, in bytes from the front of the record */
    uint64_t span;      /* the record's number of bytes; the next one follows, at a position `span` higher */
    uint32_t len;       /* the length of the payload; for a discarded record, the length that it had */
    uint32_t discarded; /* 1 if the record was discarded, else 0 */
    uint32_t fault;     /* enum heskavo_tape_fault, or 0 */
};

/* Faults of a record's header in a ring of Linux. The first that applies is reported. */
enum heskavo_linux_fault {
    HESKAVO_LINUX_BOTH_BITS = 1,  /* the busy bit and the discard bit are both set */
    HESKAVO_LINUX_OTHER_PAGE = 2, /* the header's page is not that of its position */
    HESKAVO_LINUX_NO_ROOM = 3     /* the record has no room in the ring */
};

/* The contents of a record's header in a ring of Linux, or its fault. */
struct heskavo_linux_record {
    uint64_t next;      /* the position of the next record, in bytes */
    uint32_t len;       /* the length of the payload, in bytes */
    uint32_t discarded; /* 1 if the record was discarded, else 0 */
    uint32_t fault;     /* enum heskavo_linux_fault, or 0 */
};

/*
 * The headers of submitted records on a page of a ring of Linux, from a position on: the numbers from `first` to
 * `first + max_len`, and no others.
 */
struct heskavo_linux_page {
    uint64_t first;   /* the header of a record of no bytes; that of a record of n bytes is higher by n */
    uint64_t end;     /* the position at which the page ends */
    uint32_t max_len; /* the most bytes that a record can have there */
};

/*
 * Verifies a program for contexts of ctx_len bytes (at most 65,536) and `rings` rings (at most 16).
 *
 * Returns HESKAVO_DONE if the program is accepted, HESKAVO_REFUSED with the verdict, HESKAVO_ARGUMENT or
 * HESKAVO_MEMORY. `verdict` is written only for HESKAVO_REFUSED.
 */
uint32_t heskavo_verify(const uint8_t *program, size_t program_len, uint32_t ctx_len, uint32_t rings, struct heskavo_verdict *verdict);

/*
 * Writes the explanation of a program to `text`, and its length in bytes to `wanted`. No zero byte is appended. The
 * explanation of an accepted program ends with its maximum cost, as `rbhost cost` prints it.
 *
 * Returns HESKAVO_DONE for an accepted program, HESKAVO_REFUSED for a refused one, HESKAVO_ROOM if `text` is too short,
 * HESKAVO_ARGUMENT or HESKAVO_MEMORY.
 */
uint32_t heskavo_explain(const uint8_t *program, size_t program_len, uint32_t ctx_len, uint32_t rings, uint8_t *text, size_t text_len, uint64_t *wanted);

/*
 * Computes the maximum cost of a program, over all its paths, for contexts of ctx_len bytes and `rings` rings. Nothing
 * is run. A ring with more bytes than some runs request together, by these costs, has room for each record that one of
 * them requests, as long as the ring's other records, up to those that were taken, belong to these runs.
 *
 * Returns HESKAVO_DONE with the steps and calls in `cost`, and the cost for each ring in `ring_costs`, which has an
 * element for each ring; HESKAVO_REFUSED with the verdict; HESKAVO_ARGUMENT or HESKAVO_MEMORY.
 */
uint32_t heskavo_cost(const uint8_t *program, size_t program_len, uint32_t ctx_len, struct heskavo_cost *cost, struct heskavo_ring_cost *ring_costs, size_t rings,
                      struct heskavo_verdict *verdict);

/*
 * Verifies a program for this context and `rings` rings, runs it once over fresh rings of `size` bytes, and writes the
 * records that it left in each ring as a tape to `tapes`: the tape of ring 0 first, each from position 0.
 *
 * Returns HESKAVO_DONE with the program's result in `value`, and the length of each ring's tape in `written`, which has
 * an element for each ring; HESKAVO_REFUSED with the verdict; HESKAVO_ROOM with these lengths if all tapes together are
 * longer than `tapes`; HESKAVO_ARGUMENT or HESKAVO_MEMORY.
 *
 * If a record of more than 16 bytes that the program requests cannot be allocated, the program gets null or -EAGAIN, as
 * if the ring had no room. This does not return HESKAVO_MEMORY.
 */
uint32_t heskavo_run(const uint8_t *program, size_t program_len, const uint8_t *context, size_t context_len, uint64_t size, uint8_t *tapes, size_t tapes_len,
                     uint64_t *written, size_t rings, uint64_t *value, struct heskavo_verdict *verdict);

/*
 * Reads the record at the front of `bytes`, from the tape of a ring of `size` bytes (a power of two from 4,096 to
 * 67,108,864). The record's position is `position` (a multiple of 8, at most 2^61). To continue, advance both the bytes
 * and the position by `record->span`.
 *
 * Returns HESKAVO_DONE with the record, HESKAVO_MORE, HESKAVO_FAULT with `record->fault`, or HESKAVO_ARGUMENT. `record`
 * is written only for HESKAVO_DONE and HESKAVO_FAULT.
 */
uint32_t heskavo_tape_next(const uint8_t *bytes, size_t bytes_len, uint64_t size, uint64_t position, struct heskavo_record *record);

/*
 * Writes a submitted record with this payload to `tape`, as on the tape of a ring of `size` bytes at `position`, and
 * its length in bytes to `written`.
 *
 * Returns HESKAVO_DONE, HESKAVO_ROOM if `tape` is too short, or HESKAVO_ARGUMENT, also if the ring has no room for the
 * record.
 */
uint32_t heskavo_tape_put(const uint8_t *payload, size_t payload_len, uint64_t size, uint64_t position, uint8_t *tape, size_t tape_len, uint64_t *written);

/* Writes a discarded record of `len` bytes in the same way, with zeros for its bytes. */
uint32_t heskavo_tape_put_discarded(uint32_t len, uint64_t size, uint64_t position, uint8_t *tape, size_t tape_len, uint64_t *written);

/*
 * Reads the header of the record at `position` (a multiple of 8, at most 2^61) of a ring of Linux with `size` bytes of
 * data (a power of two from 4,096 to 2^36).
 *
 * `header` is the header's eight bytes as one number: the length word, loaded with acquire order, in its lower half,
 * and the page in its upper half. The kernel counts pages from the front of the ring's memory; `pages_before_data` is 3
 * in Linux 5.8 and later. The call reads no memory of the ring, which the kernel may change at any time.
 * heskavo_linux.h builds on it a reader with libbpf's interface.
 *
 * Returns HESKAVO_DONE with a committed record, HESKAVO_MORE if the record is busy, HESKAVO_FAULT with `found->fault`,
 * or HESKAVO_ARGUMENT. `found` is written only for HESKAVO_DONE and HESKAVO_FAULT.
 */
uint32_t heskavo_linux_record(uint64_t header, uint64_t size, uint64_t position, uint32_t pages_before_data, struct heskavo_linux_record *found);

/*
 * Reports the headers of submitted records from `position` on, up to the end of its page, of a ring of Linux with `size`
 * bytes of data: HESKAVO_DONE. At each position from there to before `page->end`, a number from `page->first` to
 * `page->first + page->max_len` is the header of a submitted record, as heskavo_linux_record would answer, and its length
 * is how much it is above `page->first`; no other number is. HESKAVO_ARGUMENT also if `pages_before_data` is above
 * 2^31 - 1. So a reader makes one call for each page, and one of heskavo_linux_record for each record that was discarded
 * or is busy, and for a fault.
 */
uint32_t heskavo_linux_page(uint64_t size, uint64_t position, uint32_t pages_before_data, struct heskavo_linux_page *page);

/*
 * A handle to an engine: rings and verified programs that persist between calls. It starts as zeros, which is a closed
 * handle:
 *
 *     struct heskavo_engine engine = {0};
 *
 * Move a handle, but do not copy it: of two copies of an open handle, only one may be used from then on. Do not write
 * `inside`. Threads may use an engine one after another, but only one at a time: use a lock, or an engine for each
 * thread. Every call except heskavo_engine_open returns HESKAVO_ARGUMENT for a closed handle; heskavo_engine_close then
 * does nothing.
 */
struct heskavo_engine {
    uint8_t *inside; /* null if the handle is closed */
};

/* A record that was taken from a ring of an engine. */
struct heskavo_taken_record {
    uint64_t position;  /* its position, in bytes since the ring was opened */
    uint32_t len;       /* its length in bytes; for a discarded record, the length that it had */
    uint32_t discarded; /* 1 if it was discarded, else 0 */
};

/* The counts of an engine's ring since it was opened; `made` is the sum of the last four. */
struct heskavo_ring_counts {
    uint64_t made;      /* records that were granted */
    uint64_t refused;   /* reservations and outputs that found no room; saturates at 2^64 - 1 */
    uint64_t consumed;  /* records that were submitted and taken */
    uint64_t discarded; /* records that were discarded */
    uint64_t waiting;   /* records that were submitted and not taken */
    uint64_t busy;      /* records that were neither submitted nor discarded: always 0 between two calls */
};

/*
 * Opens an engine with a ring of each of these sizes (powers of two from 4,096 to 67,108,864; at most 16), for programs
 * with contexts of ctx_len bytes (at most 65,536). The rings are allocated here, and freed when the engine is closed.
 * After that, only programs are allocated, and records of more than 16 bytes until they are taken.
 *
 * Returns HESKAVO_DONE, HESKAVO_ARGUMENT, also if the handle is not closed, or HESKAVO_MEMORY.
 */
uint32_t heskavo_engine_open(const uint64_t *sizes, size_t rings, uint32_t ctx_len, struct heskavo_engine *engine);

/*
 * Verifies a program for the engine's contexts and rings, and adds it to the engine.
 *
 * Returns HESKAVO_DONE with its number, counted from 0, HESKAVO_REFUSED with the verdict, HESKAVO_ARGUMENT or
 * HESKAVO_MEMORY. `number` is written only for HESKAVO_DONE, `verdict` only for HESKAVO_REFUSED.
 */
uint32_t heskavo_engine_load(struct heskavo_engine *engine, const uint8_t *program, size_t program_len, uint32_t *number, struct heskavo_verdict *verdict);

/*
 * Runs the program with this number to its end, over the rings as the previous calls left them.
 *
 * Returns HESKAVO_DONE with the program's result in `value`; HESKAVO_ARGUMENT if no program has this number, or the
 * context does not have the length of the engine's contexts; or HESKAVO_MEMORY, in which case nothing ran.
 */
uint32_t heskavo_engine_run(struct heskavo_engine *engine, uint32_t number, const uint8_t *context, size_t context_len, uint64_t *value);

/*
 * Outputs a copy of the bytes to a ring as one record, as bpf_ringbuf_output does, with its flags.
 *
 * Returns HESKAVO_DONE; HESKAVO_FULL if the ring has no room; HESKAVO_ARGUMENT if no ring has this number, or a flag is
 * unknown; or HESKAVO_MEMORY, in which case the engine is unchanged.
 */
uint32_t heskavo_engine_put(struct heskavo_engine *engine, uint32_t ring, const uint8_t *bytes, size_t bytes_len, uint64_t flags);

/*
 * Takes the next record of a ring, and copies its bytes to the front of `buffer`. A discarded record has no bytes.
 *
 * Returns HESKAVO_DONE with the record; HESKAVO_EMPTY if the ring has no record; HESKAVO_MORE if the next one is still
 * busy; HESKAVO_ROOM if it is longer than the buffer, with its length in `record->len`, and does not take it; or
 * HESKAVO_ARGUMENT if no ring has this number. `record` is written only for HESKAVO_DONE and HESKAVO_ROOM, `buffer`
 * only for HESKAVO_DONE.
 */
uint32_t heskavo_engine_take(struct heskavo_engine *engine, uint32_t ring, uint8_t *buffer, size_t buffer_len, struct heskavo_taken_record *record);

/*
 * Queries a ring, as bpf_ringbuf_query does. Returns HESKAVO_DONE with the answer, or HESKAVO_ARGUMENT if no ring has
 * this number.
 */
uint32_t heskavo_engine_query(struct heskavo_engine *engine, uint32_t ring, uint64_t what, uint64_t *answer);

/* Reads the counts of a ring. Returns HESKAVO_DONE, or HESKAVO_ARGUMENT if no ring has this number. */
uint32_t heskavo_engine_counts(struct heskavo_engine *engine, uint32_t ring, struct heskavo_ring_counts *counts);

/* Closes the engine and its handle, and frees its memory. The records in its rings are lost. */
void heskavo_engine_close(struct heskavo_engine *engine);

#ifdef __cplusplus
}
#endif

#endif
