// A reader of one ring, compiled once over libbpf and once over heskavo_linux.h: the two differ by the header that is included, and by NAME, which puts a
// prefix before its calls so that both fit into one program.
#ifdef OVER_LIBBPF
#include <bpf/libbpf.h>
#define NAME(it) libbpf_##it
#else
#include "heskavo_linux.h"
#define NAME(it) heskavo_##it
#endif
#include "readers.h"
#include <stdlib.h>

static int sample(void *sum, void *data, size_t size) {
    return add_sample((struct sum *)sum, (const unsigned char *)data, size);
}

void *NAME(open)(int map, struct sum *sum) {
    return ring_buffer__new(map, sample, sum, NULL);
}

int NAME(add)(void *reader, int map, struct sum *sum) {
    return ring_buffer__add((struct ring_buffer *)reader, map, sample, sum);
}

int NAME(consume)(void *reader) {
    return ring_buffer__consume((struct ring_buffer *)reader);
}

int NAME(poll)(void *reader, int timeout) {
    return ring_buffer__poll((struct ring_buffer *)reader, timeout);
}

int NAME(epoll_fd)(void *reader) {
    return ring_buffer__epoll_fd((struct ring_buffer *)reader);
}

void NAME(close)(void *reader) {
    ring_buffer__free((struct ring_buffer *)reader);
}
