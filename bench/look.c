// Reads the files of a folder and as many bytes of a disk's file, which is what a look at a folder has to read, in
// plain C.
//
//     look FOLDER DISK
#include <dirent.h>
#include <fcntl.h>
#include <stdio.h>
#include <unistd.h>

static unsigned char buffer[4096];

static long read_all(int file, long most) {
    long all = 0;
    for (ssize_t count = 1; count > 0 && all < most; all += count)
        count = read(file, buffer, sizeof buffer);
    close(file);
    return all;
}

int main(int argc, char **argv) {
    if (argc != 3)
        return 2;
    DIR *folder = opendir(argv[1]);
    long all = 0;
    if (!folder || chdir(argv[1]))
        return 1;
    for (struct dirent *entry; (entry = readdir(folder));)
        if (entry->d_name[0] != '.')
            all += read_all(open(entry->d_name, O_RDONLY), 1L << 40);
    read_all(open(argv[2], O_RDONLY), all);
    return 0;
}
