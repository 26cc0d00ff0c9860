/* Refusals: three blocks are written, and the result says how many the ring refused, and how many bytes wait in it. */
#include "heskavo.h"

RING(events, 4096);

struct context {
    u64 batch;
};

struct block {
    u64 batch;
    u64 number;
    u8 payload[1484];
};

static inline __attribute__((always_inline)) u64 refuses(u64 batch, u64 number)
{
    struct block *block = bpf_ringbuf_reserve(&events, sizeof *block, 0);
    if (!block)
        return 1;
    block->batch = batch;
    block->number = number;
    bpf_ringbuf_submit(block, BPF_RB_NO_WAKEUP);
    return 0;
}

SEC("syscall")
u64 refused(const struct context *ctx)
{
    u64 refused = refuses(ctx->batch, 0);
    refused += refuses(ctx->batch, 1);
    refused += refuses(ctx->batch, 2);
    return refused << 32 | bpf_ringbuf_query(&events, BPF_RB_AVAIL_DATA);
}

char _license[] SEC("license") = "GPL";
