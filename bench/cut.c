// Plays the body of a file as `motcar play` plays a carousel of that one object, in plain C: each segment is read as
// its group begins, and each packet is put together as it is due, and goes to standard output in one write.
//
//     cut PACKET BODY TURNS    PACKET: bytes of a packet; BODY: a file, of a multiple of 16 segments; TURNS: how many
#include <fcntl.h>
#include <stdlib.h>
#include <unistd.h>

#define EIGHT_AT_ONCE
#include "dab.h"

static unsigned index_of_packets;

static int write_packets(const uint8_t *group, size_t len, size_t full) {
    for (size_t at = 0, useful; at < len; at += useful) {
        uint8_t packet[LONGEST];
        const unsigned index = index_of_packets++;
        const size_t length = make_packet(packet, full, index, at == 0, group + at, len - at, &useful);
        if (write(1, packet, length) != (ssize_t)length)
            return 0;
    }
    return 1;
}

int main(int argc, char **argv) {
    if (argc != 4)
        return 2;
    const size_t full = (size_t)atoi(argv[1]);
    const long turns = atol(argv[3]);
    const int file = open(argv[2], O_RDONLY);
    const size_t size = (size_t)lseek(file, 0, SEEK_END), segments = (size + SEGMENT - 1) / SEGMENT;
    make_tables();
    static uint8_t group[SEGMENT + GROUP_MORE];
    unsigned index = 0;
    for (long turn = 0; turn < turns; turn++)
        for (size_t k = 0; k <= segments; k++) {
            size_t len;
            if (k == 0) {
                len = close_group(group, 6, 0, 3, 0, 1, make_directory(group + HEAD, size));
            } else {
                const size_t from = (k - 1) * SEGMENT;
                len = size - from < SEGMENT ? size - from : SEGMENT;
                if (pread(file, group + HEAD, len, (off_t)from) != (ssize_t)len)
                    return 1;
                len = close_group(group, 4, index, 2, (unsigned)k - 1, k == segments, len);
                index = (index + 1) % 16;
            }
            if (!write_packets(group, len, full))
                return 1;
        }
    return 0;
}
