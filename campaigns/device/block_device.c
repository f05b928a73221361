/* A block device that keeps a log of what it is told and fails when it is asked to, as a FUSE file system of two files:
 * `disk`, the device's bytes (a loop device with direct I/O over it is the block device), and `switches`.
 *
 *     block_device FOLDER STORE BYTES LOG
 *
 * Each write and flush of `disk` goes into LOG in order: a head of 16 bytes (its kind, 3 zeros, the length in 4 bytes, the
 * offset in 8), and a write's bytes. Kinds: W a write, F a flush that was done, w and f those that were answered EIO. There is
 * one thread, so a write before a flush in the log was complete before it.
 *
 * A line written to `switches`:
 *     fail write K        the Kth write from now is answered EIO and stores nothing
 *     fail flush K        the Kth flush from now is answered EIO; the device keeps what was written
 *     fail flush K lose   the same, and the device loses what was written since the last flush that was done
 *     well                no more faults
 * A read of it gives `records R failed X`: how many records the log has, how many of them are of faults.
 */
#define FUSE_USE_VERSION 31
#define _GNU_SOURCE
#include <errno.h>
#include <fcntl.h>
#include <fuse3/fuse.h>
#include <stdint.h>
#include <stdio.h>
#include <stdlib.h>
#include <string.h>
#include <sys/stat.h>
#include <unistd.h>

static int store = -1, log_file = -1;
static uint64_t size, records, failed;
static long write_due, flush_due; /* how many calls to the fault, itself included; 0 is none */
static int loses;

/* What stood where a write since the last flush has written, newest first. */
struct undo {
    uint64_t offset, length;
    struct undo *next;
    char old[];
};
static struct undo *undos;

static void record(char kind, uint64_t offset, const void *bytes, uint32_t length) {
    char head[16] = {kind};
    memcpy(head + 4, &length, 4);
    memcpy(head + 8, &offset, 8);
    if (write(log_file, head, sizeof head) != sizeof head) abort();
    if (length && write(log_file, bytes, length) != (ssize_t)length) abort();
    records++;
    failed += kind == 'w' || kind == 'f';
}

/* Ends what is kept of the writes since the last flush; puts the old bytes back where they are lost. */
static void settle(int lost) {
    while (undos) {
        struct undo *last = undos;
        if (lost && pwrite(store, last->old, last->length, last->offset) != (ssize_t)last->length) abort();
        undos = last->next;
        free(last);
    }
}

static int is_disk(const char *path) { return strcmp(path, "/disk") == 0; }
static int is_switches(const char *path) { return strcmp(path, "/switches") == 0; }

static int get_attributes(const char *path, struct stat *to, struct fuse_file_info *info) {
    (void)info;
    memset(to, 0, sizeof *to);
    to->st_mode = S_IFREG | 0600;
    to->st_nlink = 1;
    to->st_blksize = 4096;
    if (strcmp(path, "/") == 0) {
        to->st_mode = S_IFDIR | 0700;
        to->st_nlink = 2;
    } else if (is_disk(path)) {
        to->st_size = size;
        to->st_blocks = size / 512;
    } else if (is_switches(path)) {
        to->st_size = 4096;
    } else {
        return -ENOENT;
    }
    return 0;
}

static int read_folder(const char *path, void *to, fuse_fill_dir_t fill, off_t offset, struct fuse_file_info *info,
                       enum fuse_readdir_flags flags) {
    (void)path, (void)offset, (void)info, (void)flags;
    fill(to, "disk", NULL, 0, 0);
    fill(to, "switches", NULL, 0, 0);
    return 0;
}

static int open_file(const char *path, struct fuse_file_info *info) {
    info->direct_io = 1;
    return is_disk(path) || is_switches(path) ? 0 : -ENOENT;
}

static int set_length(const char *path, off_t length, struct fuse_file_info *info) {
    (void)length, (void)info;
    return is_switches(path) ? 0 : -EPERM;
}

static int read_file(const char *path, char *to, size_t length, off_t offset, struct fuse_file_info *info) {
    (void)info;
    if (is_disk(path)) {
        ssize_t count = pread(store, to, length, offset);
        return count < 0 ? -errno : count;
    }
    char text[80];
    int all = snprintf(text, sizeof text, "records %lu failed %lu\n", records, failed);
    size_t rest = offset < all ? all - offset : 0;
    if (length > rest) length = rest;
    memcpy(to, text + offset, length);
    return length;
}

static void set_switches(const char *bytes, size_t length) {
    char line[80] = "", what[16] = "", how[16] = "";
    long due;
    memcpy(line, bytes, length < sizeof line ? length : sizeof line - 1);
    if (strncmp(line, "well", 4) == 0) write_due = flush_due = 0;
    if (sscanf(line, "fail %15s %ld %15s", what, &due, how) < 2) return;
    if (strcmp(what, "write") == 0) write_due = due;
    if (strcmp(what, "flush") == 0) {
        flush_due = due;
        loses = strcmp(how, "lose") == 0;
    }
}

static int is_due(long *due) { return *due > 0 && --*due == 0; }

static int write_file(const char *path, const char *bytes, size_t length, off_t offset, struct fuse_file_info *info) {
    (void)info;
    if (is_switches(path)) {
        set_switches(bytes, length);
        return length;
    }
    if ((uint64_t)offset + length > size) return -ENOSPC;
    if (is_due(&write_due)) {
        record('w', offset, bytes, length);
        return -EIO;
    }
    struct undo *last = malloc(sizeof *last + length);
    if (!last || pread(store, last->old, length, offset) != (ssize_t)length) abort();
    last->offset = offset;
    last->length = length;
    last->next = undos;
    undos = last;
    if (pwrite(store, bytes, length, offset) != (ssize_t)length) abort();
    record('W', offset, bytes, length);
    return length;
}

static int flush_file(const char *path, int only_data, struct fuse_file_info *info) {
    (void)only_data, (void)info;
    if (is_switches(path)) return 0;
    if (is_due(&flush_due)) {
        /* its offset says whether the writes were lost */
        record('f', loses, NULL, 0);
        if (loses) settle(1);
        return -EIO;
    }
    settle(0);
    record('F', 0, NULL, 0);
    return 0;
}

static void *begin(struct fuse_conn_info *connection, struct fuse_config *settings) {
    connection->max_write = 1 << 20;
    settings->direct_io = 1;
    settings->attr_timeout = settings->entry_timeout = 1000;
    return NULL;
}

static const struct fuse_operations operations = {
    .init = begin, .getattr = get_attributes, .readdir = read_folder, .open = open_file,
    .read = read_file, .write = write_file, .fsync = flush_file, .truncate = set_length,
};

int main(int count, char **words) {
    if (count != 5) {
        fprintf(stderr, "usage: block_device FOLDER STORE BYTES LOG\n");
        return 2;
    }
    size = strtoull(words[3], NULL, 10);
    store = open(words[2], O_RDWR | O_CREAT, 0600);
    log_file = open(words[4], O_RDWR | O_CREAT | O_TRUNC | O_APPEND, 0600);
    if (store < 0 || log_file < 0 || ftruncate(store, size) != 0) {
        perror("block_device");
        return 1;
    }
    char *given[] = {words[0], "-s", "-f", words[1], NULL};
    return fuse_main(4, given, &operations, NULL);
}
