/* What a program needs to write into rings, by the names in <linux/bpf.h> and <bpf/bpf_helpers.h>, which it replaces: helpers, sections and maps.
 * If WITH_LIBBPF is defined these two are included instead, from Debian's libbpf-dev. */
#ifndef HESKAVO_H
#define HESKAVO_H

#ifdef WITH_LIBBPF
#include <linux/bpf.h>
#include <bpf/bpf_helpers.h>
#else

/* Puts a program, a map (".maps") or the license ("license") into a section. */
#define SEC(name) __attribute__((section(name), used))

/* A number in a map's definition. The maps of a file are its rings, numbered in their order. */
#define __uint(name, val) int(*name)[val]

/* The five helpers by their numbers, as bpf-helpers(7) declares them. */
static long (*const bpf_ringbuf_output)(void *ringbuf, void *data, unsigned long long size, unsigned long long flags) = (void *)130;
static void *(*const bpf_ringbuf_reserve)(void *ringbuf, unsigned long long size, unsigned long long flags) = (void *)131;
static void (*const bpf_ringbuf_submit)(void *data, unsigned long long flags) = (void *)132;
static void (*const bpf_ringbuf_discard)(void *data, unsigned long long flags) = (void *)133;
static unsigned long long (*const bpf_ringbuf_query)(void *ringbuf, unsigned long long flags) = (void *)134;

enum {
    /* the type of a map that is a ring */
    BPF_MAP_TYPE_RINGBUF = 27,
    /* flags of output, submit and discard */
    BPF_RB_NO_WAKEUP = 1,
    BPF_RB_FORCE_WAKEUP = 2,
    /* what a query asks for */
    BPF_RB_AVAIL_DATA = 0,
    BPF_RB_RING_SIZE = 1,
    BPF_RB_CONS_POS = 2,
    BPF_RB_PROD_POS = 3,
};

#endif

typedef unsigned char u8;
typedef unsigned short u16;
typedef unsigned int u32;
typedef unsigned long long u64;
typedef signed int s32;
typedef signed long long s64;

/* A ring of this size. It has an initializer, so that the rings of a file keep their order: without it clang puts them in the order of their first use. */
#define RING(name, bytes)                                                                                              \
    struct {                                                                                                           \
        __uint(type, BPF_MAP_TYPE_RINGBUF);                                                                            \
        __uint(max_entries, bytes);                                                                                    \
    } name SEC(".maps") = {}

/* Put this after the call that commits a branch's record, if another branch commits its own: without it clang merges the two calls into
 * one, at which different references arrive along two edges, and the program is refused (V11). It emits no instruction. */
#define KEEP_APART() asm volatile("" : : "i"(__LINE__))

#endif
