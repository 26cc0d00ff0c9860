// A program as text in hex.
#include "hex.h"

// Decodes hex digits, which white space may separate; returns the number of bytes, or -1 if they do not fit or are not hex.
static inline long read_hex(FILE *text, unsigned char *bytes, long room) {
    long length = 0;
    int high = -1;
    for (int c; (c = getc(text)) != EOF;) {
        if (c == ' ' || (c >= '\t' && c <= '\r')) continue;
        if (digit(c) < 0 || length == room) return -1;
        if (high >= 0) bytes[length++] = (unsigned char)(high << 4 | digit(c));
        high = high >= 0 ? -1 : digit(c);
    }
    return high >= 0 ? -1 : length;
}
