/* Errors to a second ring: a failed call is reported on ring 1 and wakes the reader, a successful one on ring 0. */
#include "heskavo.h"

RING(outcomes, 4096);
RING(failures, 4096);

struct context {
    u64 call;
    s64 result;
};

struct outcome {
    u64 call;
    u64 bytes;
};

struct failure {
    u64 call;
    u32 error;
    u32 padding;
};

SEC("syscall")
u64 two_rings(const struct context *ctx)
{
    if (ctx->result < 0) {
        struct failure *failure = bpf_ringbuf_reserve(&failures, sizeof *failure, 0);
        if (!failure)
            return 1;
        failure->call = ctx->call;
        failure->error = -ctx->result;
        bpf_ringbuf_submit(failure, BPF_RB_FORCE_WAKEUP);
        KEEP_APART();
        return 0;
    }
    struct outcome *outcome = bpf_ringbuf_reserve(&outcomes, sizeof *outcome, 0);
    if (!outcome)
        return 1;
    outcome->call = ctx->call;
    outcome->bytes = ctx->result;
    bpf_ringbuf_submit(outcome, BPF_RB_NO_WAKEUP);
    return 0;
}

char _license[] SEC("license") = "GPL";
