// Bytes as hex.
#include <stdio.h>

static inline int digit(int c) {
    return c >= '0' && c <= '9' ? c - '0' : c >= 'a' && c <= 'f' ? c - 'a' + 10 : -1;
}

// Decodes the hex digits at the start of a text; returns the number of bytes, or -1 if they do not fit.
static inline long bytes_of(const char *hex, unsigned char *bytes, long room) {
    long length = 0;
    while (digit(hex[0]) >= 0 && digit(hex[1]) >= 0) {
        if (length == room) return -1;
        bytes[length++] = (unsigned char)(digit(hex[0]) << 4 | digit(hex[1]));
        hex += 2;
    }
    return length;
}

// Prints bytes in hex, or `-` if there are none.
static inline void print_hex(FILE *out, const unsigned char *bytes, size_t length) {
    static const char digits[] = "0123456789abcdef";
    if (length == 0) putc('-', out);
    for (size_t i = 0; i < length; i++) {
        putc(digits[bytes[i] >> 4], out);
        putc(digits[bytes[i] & 15], out);
    }
}
