/* A size class chosen by a branch: a request of up to 64 bytes gets a short record, a longer one a record with room for more. */
#include "heskavo.h"

RING(events, 4096);

struct context {
    u64 request;
    u64 length;
};

struct short_record {
    u64 request;
    u64 length;
};

struct long_record {
    u64 request;
    u64 length;
    u64 pages;
    u64 reserved[5];
};

SEC("syscall")
u64 size_class(const struct context *ctx)
{
    if (ctx->length <= 64) {
        struct short_record *record = bpf_ringbuf_reserve(&events, sizeof *record, 0);
        if (!record)
            return 1;
        record->request = ctx->request;
        record->length = ctx->length;
        bpf_ringbuf_submit(record, 0);
        KEEP_APART();
        return 0;
    }
    struct long_record *record = bpf_ringbuf_reserve(&events, sizeof *record, 0);
    if (!record)
        return 1;
    record->request = ctx->request;
    record->length = ctx->length;
    record->pages = (ctx->length + 4095) / 4096;
    bpf_ringbuf_submit(record, BPF_RB_FORCE_WAKEUP);
    return 0;
}

char _license[] SEC("license") = "GPL";
