// What the C programs that make packets share: the checksum word, data groups, the directory of one object, and
// packets (docs/FORMATS.md, sections 1 to 6). A program that defines EIGHT_AT_ONCE takes eight bytes at once into the
// checksum, as motcar does; any other takes one.
#ifndef DAB_H
#define DAB_H
#include <stddef.h>
#include <stdint.h>
#include <string.h>

enum { SEGMENT = 1024, ADDRESS = 1, HEAD = 9, GROUP_MORE = HEAD + 2, PACKET_MORE = 5, SHORTEST = 24, LONGEST = 96 };

static uint16_t tables[8][256];

static inline void make_tables(void) {
    for (int steps = 8; steps <= 64; steps += 8)
        for (int byte = 0; byte < 256; byte++) {
            uint16_t word = (uint16_t)(byte << 8);
            for (int step = 0; step < steps; step++)
                word = (uint16_t)(word & 0x8000 ? word << 1 ^ 0x1021 : word << 1);
            tables[steps / 8 - 1][byte] = word;
        }
}

static inline uint16_t crc16(const uint8_t *bytes, size_t len) {
    uint16_t word = 0xFFFF;
#ifdef EIGHT_AT_ONCE
    for (; len >= 8; bytes += 8, len -= 8)
        word = tables[7][bytes[0] ^ word >> 8] ^ tables[6][bytes[1] ^ (word & 0xFF)] ^ tables[5][bytes[2]] ^
               tables[4][bytes[3]] ^ tables[3][bytes[4]] ^ tables[2][bytes[5]] ^ tables[1][bytes[6]] ^
               tables[0][bytes[7]];
#endif
    for (size_t i = 0; i < len; i++)
        word = (uint16_t)(word << 8 ^ tables[0][(uint8_t)(word >> 8) ^ bytes[i]]);
    return (uint16_t)~word;
}

static inline void put_word(uint8_t *to, unsigned word) {
    to[0] = (uint8_t)(word >> 8);
    to[1] = (uint8_t)word;
}

// A data group around the segment that stands behind its head already. Its length.
static inline size_t close_group(uint8_t *group, unsigned kind, unsigned index, unsigned tid, unsigned number,
                                 int is_last, size_t len) {
    group[0] = (uint8_t)(0x70 | kind);
    group[1] = (uint8_t)(index << 4);
    put_word(group + 2, (unsigned)is_last << 15 | number);
    group[4] = 0x12;
    put_word(group + 5, tid);
    put_word(group + 7, (unsigned)len);
    put_word(group + HEAD + len, crc16(group, HEAD + len));
    return len + GROUP_MORE;
}

// The directory of a carousel with one object `a`, of id 2, type 2 and subtype 3 and without a MIME type. Its length.
static inline size_t make_directory(uint8_t *out, size_t body) {
    const size_t header = 7 + 4 + 2, size = 13 + 2 + header;
    const uint8_t bytes[] = {
        0, 0, 0, (uint8_t)size, 0, 1, 0, 0, 0, SEGMENT >> 8, SEGMENT & 0xFF, 0, 0, 0, 2,
        (uint8_t)(body >> 20), (uint8_t)(body >> 12), (uint8_t)(body >> 4), (uint8_t)((body & 15) << 4 | header >> 9),
        (uint8_t)(header >> 1), (uint8_t)((header & 1) << 7 | 2 << 1 | 3 >> 8), 3, 0xCC, 2, 0xF0, 'a', 0x46, 0};
    memcpy(out, bytes, size);
    return size;
}

// The next packet of a group, of which so many bytes are left: `full` bytes, or for the last the shortest that holds
// them. Its length; `useful` is how many bytes of the group it has. There is room for LONGEST bytes.
static inline size_t make_packet(uint8_t *packet, size_t full, unsigned index, int is_first, const uint8_t *rest,
                                 size_t left, size_t *useful) {
    const size_t room = full - PACKET_MORE;
    const int is_last = left <= room;
    size_t len = full;
    if (is_last)
        for (len = SHORTEST; len - PACKET_MORE < left; len += SHORTEST)
            ;
    *useful = is_last ? left : room;
    memset(packet, 0, LONGEST);
    packet[0] = (uint8_t)((len / SHORTEST - 1) << 6 | (index & 3) << 4 | (unsigned)is_first << 3 |
                          (unsigned)is_last << 2 | ADDRESS >> 8);
    packet[1] = ADDRESS & 0xFF;
    packet[2] = (uint8_t)*useful;
    memcpy(packet + 3, rest, *useful);
    put_word(packet + len - 2, crc16(packet, len - 2));
    return len;
}

// The line of a packet without its end. Its length.
static inline size_t write_line(char *to, const uint8_t *packet, size_t len) {
    static const char digits[] = "0123456789abcdef";
    char *at = to;
    memcpy(at, "packet ", 7);
    at += 7;
    for (size_t i = 0; i < len; i++) {
        *at++ = digits[packet[i] >> 4];
        *at++ = digits[packet[i] & 15];
    }
    return (size_t)(at - to);
}

#endif
