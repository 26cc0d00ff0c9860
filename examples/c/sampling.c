/* Sampling: latencies are kept, except for every eighth measurement, which is discarded. */
#include "heskavo.h"

RING(events, 4096);

struct context {
    u64 number;
    u64 begin;
    u64 end;
};

struct sample {
    u64 number;
    u64 latency;
};

SEC("syscall")
u64 sampling(const struct context *ctx)
{
    struct sample *sample = bpf_ringbuf_reserve(&events, sizeof *sample, 0);
    if (!sample)
        return 1;
    sample->number = ctx->number;
    sample->latency = ctx->end - ctx->begin;
    if (ctx->number % 8 == 7)
        bpf_ringbuf_discard(sample, 0);
    else
        bpf_ringbuf_submit(sample, 0);
    return 0;
}

char _license[] SEC("license") = "GPL";
