/* An event with a struct and a text: who opened which descriptor, and when. */
#include "heskavo.h"

RING(events, 4096);

struct context {
    u64 time;
    u32 process;
    u32 descriptor;
};

struct event {
    u64 time;
    u32 process;
    u32 descriptor;
    char call[8];
};

SEC("syscall")
u64 event(const struct context *ctx)
{
    struct event *event = bpf_ringbuf_reserve(&events, sizeof *event, 0);
    if (!event)
        return 1;
    event->time = ctx->time;
    event->process = ctx->process;
    event->descriptor = ctx->descriptor;
    __builtin_memcpy(event->call, "openat\0", sizeof event->call);
    bpf_ringbuf_submit(event, 0);
    return 0;
}

char _license[] SEC("license") = "GPL";
