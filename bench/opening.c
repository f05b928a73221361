// Reads what `motcar check` reads of the file of a disk, in plain C: the head, the selected half, and the half once
// more in pieces of 4,096 bytes, for its gates. Before that it makes the syncs that an opening makes of the file and
// its folder, and drops the system's pages; with a second word, it only reads. Prints how many gates are open.
//
//     opening DISK [reads]
#define _GNU_SOURCE
#include <fcntl.h>
#include <libgen.h>
#include <stdint.h>
#include <stdio.h>
#include <stdlib.h>
#include <string.h>
#include <unistd.h>

enum { SLOT = 512, HEAD = 64, OBJECTS = 250, PIECE = 4096, OPEN = 0xA5 };

static int disk;

static void get(void *bytes, size_t len, off_t at) {
    if (pread(disk, bytes, len, at) != (ssize_t)len) abort();
}

// The syncs of the file and its folder.
static void make_firm(char *path) {
    int folder = open(dirname(path), O_RDONLY);
    if (folder < 0 || fsync(disk) || fsync(folder) || fsync(disk)) abort();
    if (posix_fadvise(disk, 0, 0, POSIX_FADV_DONTNEED) || fsync(folder) || fdatasync(disk)) abort();
    close(folder);
}

int main(int argc, char **argv) {
    static uint8_t head[HEAD], bytes[(OBJECTS + 2) * SLOT], piece[PIECE];
    unsigned open_gates = 0, open_again = 0;
    if (argc < 2 || (disk = open(argv[1], O_RDWR)) < 0) return 1;
    if (argc == 2) make_firm(argv[1]);
    get(head, HEAD, 0);
    unsigned size = ((unsigned)head[16] << 8 | head[17]) * SLOT + 2 * SLOT;
    off_t start = HEAD + (head[8] == 1 ? (off_t)size : 0);
    get(bytes, size, start);
    for (unsigned at = 0; at < size; at += SLOT) open_gates += bytes[at] == OPEN;
    for (unsigned from = 0; from < size; from += PIECE) {
        unsigned len = size - from < PIECE ? size - from : PIECE;
        get(piece, len, start + from);
        for (unsigned at = 0; at < len; at += SLOT) open_again += piece[at] == OPEN;
    }
    printf("%u %u\n", open_gates, open_again);
    return 0;
}
