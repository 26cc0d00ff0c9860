// Converts a capture of tcpdump to frames: each packet's length as a little-endian u32, then its bytes.
//
//     pcap_frames [--snap N] [--end] < CAPTURE
//
// The input is a capture file or a pipe (pcap-savefile(5)), in either byte order, in microseconds or nanoseconds. Packets longer than N bytes are truncated. What
// was read is written, in whole frames, before the program waits for more. With --end, the length 0xffffffff follows the last packet and ends the stream. The
// status is 0 at the end of the capture, 1 if the input is not such a capture or ends inside a packet, or if a read or write fails, and 2 for wrong usage.
#include <errno.h>
#include <getopt.h>
#include <stdint.h>
#include <stdio.h>
#include <stdlib.h>
#include <string.h>
#include <unistd.h>

#define FILE_HEADER 24
#define PACKET_HEADER 16
#define LONGEST_PACKET 262144u // MAXIMUM_SNAPLEN of libpcap
#define MAGIC_MICROSECONDS 0xa1b2c3d4u
#define MAGIC_NANOSECONDS 0xa1b23c4du
#define MAGIC_PCAPNG 0x0a0d0d0au
#define END_OF_STREAM 0xffffffffu
#define ROOM (1u << 20)

struct bytes {
    unsigned char at[ROOM];
    size_t start, end;
};

static struct bytes in, out;

static _Noreturn void fail(const char *what) {
    fprintf(stderr, "pcap-frames: %s\n", what);
    exit(1);
}

static _Noreturn void fail_errno(const char *what) {
    fprintf(stderr, "pcap-frames: %s: %s\n", what, strerror(errno));
    exit(1);
}

static uint32_t little_endian(const unsigned char *b) {
    return b[0] | (uint32_t)b[1] << 8 | (uint32_t)b[2] << 16 | (uint32_t)b[3] << 24;
}

static uint32_t big_endian(const unsigned char *b) {
    return b[3] | (uint32_t)b[2] << 8 | (uint32_t)b[1] << 16 | (uint32_t)b[0] << 24;
}

// Writes all buffered frames.
static void flush_frames(void) {
    while (out.start < out.end) {
        ssize_t n = write(STDOUT_FILENO, out.at + out.start, out.end - out.start);
        if (n > 0)
            out.start += (size_t)n;
        else if (n < 0 && errno != EINTR)
            fail_errno("write");
    }
    out.start = out.end = 0;
}

static void append_length(uint32_t length) {
    unsigned char bytes[4] = {(unsigned char)length, (unsigned char)(length >> 8), (unsigned char)(length >> 16), (unsigned char)(length >> 24)};
    memcpy(out.at + out.end, bytes, sizeof bytes);
    out.end += sizeof bytes;
}

static void append_frame(const unsigned char *packet, uint32_t length) {
    if (ROOM - out.end < 4 + (size_t)length) flush_frames();
    append_length(length);
    memcpy(out.at + out.end, packet, length);
    out.end += length;
}

// Reads until `count` bytes are available. Returns 0 if the input ends before that. Frames are flushed before each read.
static int want(size_t count) {
    while (in.end - in.start < count) {
        flush_frames();
        if (in.start > 0) {
            memmove(in.at, in.at + in.start, in.end - in.start);
            in.end -= in.start;
            in.start = 0;
        }
        ssize_t n = read(STDIN_FILENO, in.at + in.end, ROOM - in.end);
        if (n == 0) return 0;
        if (n > 0)
            in.end += (size_t)n;
        else if (errno != EINTR)
            fail_errno("read");
    }
    return 1;
}

// Reads the file's header, and returns how its numbers are read.
static uint32_t (*read_header(void))(const unsigned char *) {
    if (!want(4)) fail("the input is no capture: it ends inside the file's header");
    uint32_t (*readers[])(const unsigned char *) = {little_endian, big_endian};
    for (int i = 0; i < 2; i++) {
        uint32_t magic = readers[i](in.at);
        if (magic == MAGIC_MICROSECONDS || magic == MAGIC_NANOSECONDS) {
            if (!want(FILE_HEADER)) fail("the input is no capture: it ends inside the file's header");
            in.start += FILE_HEADER;
            return readers[i];
        }
    }
    if (little_endian(in.at) == MAGIC_PCAPNG) fail("the input is pcapng; `tcpdump -r FILE -w -` makes a pcap of it");
    fail("the input is no capture: its first four bytes are none of pcap's");
}

static _Noreturn void fail_inside(uint64_t packet) {
    flush_frames();
    fprintf(stderr, "pcap-frames: the input ends inside packet %llu\n", (unsigned long long)packet);
    exit(1);
}

static void write_packets(uint32_t (*number)(const unsigned char *), uint32_t snap) {
    for (uint64_t packet = 0;; packet++) {
        if (!want(PACKET_HEADER)) {
            if (in.start < in.end) fail_inside(packet);
            return;
        }
        uint32_t length = number(in.at + in.start + 8);
        if (length > LONGEST_PACKET) {
            flush_frames();
            fprintf(stderr, "pcap-frames: packet %llu has %u bytes, and at most %u are allowed\n", (unsigned long long)packet, length, LONGEST_PACKET);
            exit(1);
        }
        if (!want(PACKET_HEADER + (size_t)length)) fail_inside(packet);
        append_frame(in.at + in.start + PACKET_HEADER, length < snap ? length : snap);
        in.start += PACKET_HEADER + length;
    }
}

static const char usage_line[] = "usage: pcap-frames [--snap N] [--end] < CAPTURE\n";

static _Noreturn void usage(void) {
    fputs(usage_line, stderr);
    exit(2);
}

static _Noreturn void help(void) {
    fputs(usage_line, stdout);
    fputs("Converts a capture of tcpdump to frames: each packet's length as a little-endian u32, then its bytes.\n\n"
          "  --snap N  truncate packets to N bytes\n"
          "  --end     append the length 0xffffffff, which ends the stream\n", stdout);
    exit(0);
}

static uint32_t snap_of(const char *word) {
    char *end;
    errno = 0;
    unsigned long snap = strtoul(word, &end, 10);
    if (word[0] < '0' || word[0] > '9' || *end != 0 || errno != 0 || snap > LONGEST_PACKET) usage();
    return (uint32_t)snap;
}

int main(int count, char **words) {
    static const struct option options[] = {{"snap", required_argument, 0, 's'}, {"end", no_argument, 0, 'e'}, {"help", no_argument, 0, 'h'}, {0, 0, 0, 0}};
    uint32_t snap = LONGEST_PACKET;
    int ends = 0, option;
    while ((option = getopt_long(count, words, "h", options, 0)) != -1) {
        if (option == 's')
            snap = snap_of(optarg);
        else if (option == 'e')
            ends = 1;
        else if (option == 'h')
            help();
        else
            usage();
    }
    if (optind != count) usage();
    write_packets(read_header(), snap);
    flush_frames();
    if (ends) {
        append_length(END_OF_STREAM);
        flush_frames();
    }
    return 0;
}
