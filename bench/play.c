// Writes the packets of a file to standard output, round and round, each in one write, in plain C.
//
//     play FILE ROUNDS    FILE: packets, one behind the other; ROUNDS: how often all of them are written
#include <stdio.h>
#include <stdlib.h>
#include <unistd.h>

int main(int argc, char **argv) {
    if (argc != 3)
        return 2;
    FILE *file = fopen(argv[1], "rb");
    if (!file || fseek(file, 0, SEEK_END))
        return 1;
    const long size = ftell(file), rounds = atol(argv[2]);
    unsigned char *packets = malloc((size_t)size);
    rewind(file);
    if (!packets || fread(packets, 1, (size_t)size, file) != (size_t)size)
        return 1;
    fclose(file);
    for (long round = 0; round < rounds; round++)
        for (long at = 0; at < size;) {
            const size_t length = 24 * ((size_t)(packets[at] >> 6) + 1);
            if (write(1, packets + at, length) != (ssize_t)length)
                return 1;
            at += (long)length;
        }
    return 0;
}
