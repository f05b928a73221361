// Answers lines `replace NAME 2 3 image/png HEX` of 1,024 bytes on the file of a disk of motcar in layout 2, in plain
// C, by the same reads, writes and syncs as `motcar serve`: of an opening, a sync, the head, the selected half; of a
// command the body, a slot's bytes behind its gate, a sync, the gate, a sync; and where a half is full its slots into
// the other one, a sync, the selector, a sync. Every body on the disk has to have 1,024 bytes, and one place of so
// many has to be free: then it leaves the same bytes.
//
//     commands DISK < LINES > REPLIES
#include <fcntl.h>
#include <stdint.h>
#include <stdio.h>
#include <stdlib.h>
#include <string.h>
#include <unistd.h>

enum { BODY = 1024, SLOT = 512, HEAD = 64, OBJECTS = 250, SET = 18, OPEN = 0xA5 };

static const char before_hex[] = " 2 3 image/png ";

static int disk;
// Of each object its slot, in the order of the carousel.
static uint8_t objects[OBJECTS][SLOT];
// How many objects there are, the slots of a half and the open ones; and where a body goes.
static unsigned count, slots, used, half, directory, gap;

static void get(void *bytes, size_t len, off_t at) {
    if (pread(disk, bytes, len, at) != (ssize_t)len) abort();
}

static void put(const void *bytes, size_t len, off_t at) {
    if (pwrite(disk, bytes, len, at) != (ssize_t)len) abort();
}

static void make_firm(void) {
    if (fdatasync(disk)) abort();
}

static unsigned number(const uint8_t *bytes, int len) {
    unsigned value = 0;
    for (int i = 0; i < len; i++) value = value << 8 | bytes[i];
    return value;
}

static void set_number(uint8_t *bytes, int len, unsigned value) {
    for (int i = len; i-- > 0; value >>= 8) bytes[i] = (uint8_t)value;
}

static int digit(char c) { return c <= '9' ? c - '0' : (c | 32) - 'a' + 10; }

static off_t half_start(void) { return HEAD + (off_t)half * slots * SLOT; }

static unsigned place_of(const void *name, size_t len) {
    unsigned place = 0;
    while (place < count && (objects[place][23] != len || memcmp(objects[place] + 24, name, len))) place++;
    return place;
}

// Reads the disk.
static void load(void) {
    static uint8_t head[HEAD], bytes[(OBJECTS + 2) * SLOT];
    static char is_taken[OBJECTS + 1];
    make_firm();
    get(head, HEAD, 0);
    half = head[8] == 1;
    slots = number(head + 16, 2) + 2;
    get(bytes, slots * SLOT, half_start());
    for (; used < slots && bytes[used * SLOT] == OPEN; used++) {
        uint8_t *slot = bytes + used * SLOT;
        directory = number(slot + 5, 2);
        if (slot[1] != SET) continue;
        unsigned place = place_of(slot + 24, slot[23]);
        if (place == count) count++;
        memcpy(objects[place], slot, SLOT);
    }
    for (unsigned i = 0; i < count; i++) is_taken[number(objects[i] + 15, 4) / BODY] = 1;
    while (is_taken[gap]) gap++;
    gap *= BODY;
}

static void set_ids(uint8_t *slot) {
    set_number(slot + 5, 2, directory);
    set_number(slot + 7, 2, directory);
}

// Writes the carousel into the other half, and selects it.
static void make_room(void) {
    static uint8_t zeros[SLOT];
    half ^= 1;
    for (used = 0; used < count; used++) {
        set_ids(objects[used]);
        put(objects[used], SLOT, half_start() + used * SLOT);
    }
    for (unsigned i = used; i < slots; i++) put(zeros, SLOT, half_start() + i * SLOT);
    make_firm();
    uint8_t selector = (uint8_t)half;
    put(&selector, 1, 8);
    make_firm();
}

static void replace(uint8_t *slot, const uint8_t *body) {
    unsigned start = gap;
    gap = number(slot + 15, 4);
    if (used == slots) make_room();
    directory += 2;
    set_ids(slot);
    set_number(slot + 9, 2, directory - 1);
    slot[11]++;
    set_number(slot + 15, 4, start);
    off_t at = half_start() + used++ * SLOT;
    put(body, BODY, HEAD + (off_t)2 * slots * SLOT + start);
    put(slot + 1, SLOT - 1, at + 1);
    make_firm();
    put(slot, 1, at);
    make_firm();
}

int main(int argc, char **argv) {
    static uint8_t body[BODY];
    char *line = NULL, reply[64];
    size_t room = 0;
    if (argc != 2 || (disk = open(argv[1], O_RDWR)) < 0) return 1;
    load();
    for (ssize_t len; (len = getline(&line, &room, stdin)) > 0;) {
        char *name = line + 8, *end = memcmp(line, "replace ", 8) ? NULL : strchr(name, ' ');
        if (!end || memcmp(end, before_hex, sizeof before_hex - 1)) return 2;
        char *hex = end + sizeof before_hex - 1;
        unsigned place = place_of(name, (size_t)(end - name));
        if (hex + 2 * BODY + 1 != line + len || place == count || directory > 65000) return 2;
        for (int i = 0; i < BODY; i++) body[i] = (uint8_t)(digit(hex[2 * i]) << 4 | digit(hex[2 * i + 1]));
        replace(objects[place], body);
        int size = snprintf(reply, sizeof reply, "done object %u directory %u\n", directory - 1, directory);
        if (write(1, reply, (size_t)size) != size) return 3;
    }
    return 0;
}
