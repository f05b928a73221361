// Plays a carousel of one object, as `motcar memory` answers a `put` and then lines `next 100000`, in plain C.
//
//     turn PACKET BODY LINES    PACKET: bytes of a packet; BODY: a file; LINES: how often 100,000 packets are asked for
//
// Its groups are built once: with a body of one segment, or of a multiple of 16 segments, each group has the same
// continuity index in every turn.
#include <stdio.h>
#include <stdlib.h>

#include "dab.h"

enum { LINE = 100000, OUT = 65536 };

struct group {
    uint8_t *bytes;
    size_t len;
};

static struct group make_group(unsigned kind, unsigned index, unsigned tid, unsigned number, int is_last,
                               const uint8_t *segment, size_t len) {
    struct group group = {malloc(len + GROUP_MORE), 0};
    if (!group.bytes)
        abort();
    memcpy(group.bytes + HEAD, segment, len);
    group.len = close_group(group.bytes, kind, index, tid, number, is_last, len);
    return group;
}

static char out[OUT];
static size_t filled;

static void put_packet(const uint8_t *packet, size_t len, int ends) {
    if (filled + 2 * len + 16 > OUT) {
        fwrite(out, 1, filled, stdout);
        filled = 0;
    }
    filled += write_line(out + filled, packet, len);
    if (ends) {
        memcpy(out + filled, " end", 4);
        filled += 4;
    }
    out[filled++] = '\n';
}

int main(int argc, char **argv) {
    if (argc != 4)
        return 2;
    const size_t full = (size_t)atoi(argv[1]);
    const long packets = atol(argv[3]) * LINE;
    FILE *file = fopen(argv[2], "rb");
    if (!file)
        return 1;
    static uint8_t body[262144], directory[64];
    const size_t size = fread(body, 1, sizeof body, file), segments = (size + SEGMENT - 1) / SEGMENT;
    fclose(file);
    make_tables();
    struct group *groups = malloc((segments + 1) * sizeof *groups);
    if (!groups)
        return 1;
    groups[0] = make_group(6, 0, 3, 0, 1, directory, make_directory(directory, size));
    for (size_t k = 0; k < segments; k++) {
        size_t len = k + 1 < segments ? SEGMENT : size - k * SEGMENT;
        groups[k + 1] = make_group(4, k % 16, 2, (unsigned)k, k + 1 == segments, body + k * SEGMENT, len);
    }
    fputs("done object 2 directory 3\n", stdout);
    size_t now = 0, at = 0;
    for (long n = 0; n < packets; n++) {
        const struct group *group = &groups[now];
        size_t useful;
        uint8_t packet[LONGEST];
        const size_t left = group->len - at;
        const size_t len = make_packet(packet, full, (unsigned)n, at == 0, group->bytes + at, left, &useful);
        const int is_last = useful == left;
        at = is_last ? 0 : at + useful;
        now = is_last ? (now + 1) % (segments + 1) : now;
        put_packet(packet, len, is_last && now == 0);
    }
    fwrite(out, 1, filled, stdout);
    return 0;
}
