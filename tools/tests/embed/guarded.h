// Buffers with a page before and a page after them that no access survives: an overrun of one byte ends the process.
#ifndef GUARDED_H
#define GUARDED_H

#include <stdint.h>
#include <stdio.h>
#include <stdlib.h>
#include <string.h>
#include <sys/mman.h>

enum { PAGE = 4096 };

// Whether buffers begin at the page before them, and not end at the page after them.
static int at_front;

struct guarded {
    uint8_t *front; // null if the buffer has no bytes
    uint8_t *pages;
    size_t len, whole;
};

static void want(int holds, const char *what) {
    if (holds) return;
    fprintf(stderr, "not so: %s\n", what);
    exit(2);
}

// Returns a buffer of `len` bytes. Its front is aligned for 8 if its length is a multiple of 8.
static struct guarded guarded(size_t len) {
    struct guarded it = {NULL, NULL, len, 0};
    if (len == 0) return it;
    size_t inside = (len + PAGE - 1) / PAGE * PAGE;
    it.whole = inside + 2 * PAGE;
    it.pages = mmap(NULL, it.whole, PROT_NONE, MAP_PRIVATE | MAP_ANONYMOUS, -1, 0);
    want(it.pages != MAP_FAILED && mprotect(it.pages + PAGE, inside, PROT_READ | PROT_WRITE) == 0, "memory");
    it.front = it.pages + PAGE + (at_front ? 0 : inside - len);
    return it;
}

// Returns a buffer with these bytes that can only be read.
static struct guarded guarded_copy(const void *bytes, size_t len) {
    struct guarded it = guarded(len);
    if (len == 0) return it;
    memcpy(it.front, bytes, len);
    want(mprotect(it.pages + PAGE, it.whole - 2 * PAGE, PROT_READ) == 0, "memory");
    return it;
}

static void release(struct guarded it) {
    if (it.len) munmap(it.pages, it.whole);
}

#endif
