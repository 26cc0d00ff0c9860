/* Output from the stack: a metric is assembled there and written in one call, whose result is the program's. */
#include "heskavo.h"

RING(events, 4096);

struct context {
    u32 count;
    u32 errors;
    u64 bytes;
};

struct metric {
    u64 bytes;
    u64 bytes_each;
    u32 count;
    u32 per_mille;
};

SEC("syscall")
u64 stack_output(const struct context *ctx)
{
    struct metric metric = {
        .bytes = ctx->bytes,
        .count = ctx->count,
    };
    if (ctx->count) {
        metric.bytes_each = ctx->bytes / ctx->count;
        metric.per_mille = ctx->errors * 1000u / ctx->count;
    }
    return bpf_ringbuf_output(&events, &metric, sizeof metric, 0);
}

char _license[] SEC("license") = "GPL";
