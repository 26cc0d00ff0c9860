// What the two readers of a ring have in common.
#include <stddef.h>
#include <stdint.h>

// What a reader saw: the number of samples, and a hash of their lengths and bytes in order (FNV-1a). A sample is refused after `left` more.
struct sum {
    uint64_t samples, hash;
    uint32_t left;
    int is_cheap;
};

static inline int add_sample(struct sum *sum, const unsigned char *data, size_t size) {
    sum->samples++;
    if (sum->is_cheap) {
        sum->hash += data[0];
        return 0;
    }
    sum->hash = (sum->hash ^ size) * 0x100000001b3u;
    for (size_t i = 0; i < size; i++) sum->hash = (sum->hash ^ data[i]) * 0x100000001b3u;
    return sum->left && --sum->left == 0 ? -7 : 0;
}

#define DECLARED(name)                            \
    void *name##_open(int map, struct sum *sum);   \
    int name##_add(void *reader, int map, struct sum *sum); \
    int name##_consume(void *reader);             \
    int name##_poll(void *reader, int timeout);   \
    int name##_epoll_fd(void *reader);            \
    void name##_close(void *reader);
DECLARED(libbpf)
DECLARED(heskavo)
