/* The work of `raw` lines as plain C, to measure the program against: each line `raw TYPE TID HEX` becomes one data
   group, cut into packets of 24 bytes at address 1. Built for good input alone; any other line is a bare refusal. */
#include <stdio.h>
#include <stdlib.h>
#include <unistd.h>

#include "dab.h"

enum { LONGEST_LINE = 530000, LONGEST_BODY = 8189, LENGTH = SHORTEST, ROOM = LENGTH - PACKET_MORE };

static int digit(char c) {
    if (c >= '0' && c <= '9') return c - '0';
    if (c >= 'a' && c <= 'f') return c - 'a' + 10;
    if (c >= 'A' && c <= 'F') return c - 'A' + 10;
    return -1;
}

static size_t decode(const char *text, size_t digits, uint8_t *to) {
    if (digits % 2 || digits / 2 > LONGEST_BODY) return 0;
    for (size_t at = 0; at < digits; at += 2) {
        int high = digit(text[at]), low = digit(text[at + 1]);
        if (high < 0 || low < 0) return 0;
        to[at / 2] = (uint8_t)(high << 4 | low);
    }
    return digits / 2;
}

static void write_all(const char *bytes, size_t count) {
    while (count > 0) {
        ssize_t wrote = write(1, bytes, count);
        if (wrote <= 0) exit(1);
        bytes += wrote;
        count -= (size_t)wrote;
    }
}

static void answer(const char *line, size_t length) {
    static uint8_t group[LONGEST_BODY + GROUP_MORE];
    static char text[64 * (LONGEST_BODY + GROUP_MORE) / ROOM + 64];
    unsigned type, tid;
    int hex = 0;
    size_t count = 0;
    if (sscanf(line, "raw %u %u %n", &type, &tid, &hex) == 2 && hex > 0)
        count = decode(line + hex, length - (size_t)hex, group + HEAD);
    if (count == 0) {
        write_all("refused\n", 8);
        return;
    }
    size_t size = close_group(group, type, 0, tid, 0, 1, count), out = 0;
    unsigned index = 0;
    for (size_t at = 0, useful; at < size; at += useful) {
        uint8_t packet[LONGEST];
        make_packet(packet, LENGTH, index++, at == 0, group + at, size - at, &useful);
        out += write_line(text + out, packet, LENGTH);
        text[out++] = '\n';
    }
    write_all(text, out);
}

int main(void) {
    static char line[LONGEST_LINE + 1];
    static char chunk[4096];
    size_t held = 0;
    ssize_t count;
    make_tables();
    while ((count = read(0, chunk, sizeof chunk)) > 0) {
        for (const char *rest = chunk, *after = chunk + count; rest < after;) {
            const char *end = memchr(rest, '\n', (size_t)(after - rest));
            size_t part = (size_t)((end ? end : after) - rest);
            if (part > LONGEST_LINE - held) part = LONGEST_LINE - held;
            memcpy(line + held, rest, part);
            held += part;
            if (!end) break;
            line[held] = 0;
            answer(line, held);
            held = 0;
            rest = end + 1;
        }
    }
    return 0;
}
