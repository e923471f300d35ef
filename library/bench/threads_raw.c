/* What groups of commits write and sync, without a store and by one thread: threads_raw FOLDER MEMBERS SECONDS. A group
 * writes an extent for each commit, and a slot's body and its gate, with three syncs. One line: commits a second. */
#define _GNU_SOURCE
#include <fcntl.h>
#include <stdint.h>
#include <stdio.h>
#include <stdlib.h>
#include <string.h>
#include <time.h>
#include <unistd.h>

enum { EXTENT = 8192, SLOT = 512, SLOTS = 65536, COMMITS_MOST = 50000 };

static int heap, status;

static int make(const char *folder, const char *name) {
    char path[4200];
    snprintf(path, sizeof path, "%s/%s", folder, name);
    return open(path, O_RDWR | O_CREAT, 0666);
}

/* The status area, as formatting leaves it. */
static int fill_status(void) {
    static uint8_t zeros[SLOT];
    int is_so = 1;
    for (uint64_t slot = 0; slot <= SLOTS; slot++) is_so &= pwrite(status, zeros, SLOT, (off_t)(SLOT * slot)) == SLOT;
    return is_so && fdatasync(status) == 0;
}

static int is_done(ssize_t count, size_t len) { return count == (ssize_t)len; }

static int write_group(uint64_t group, uint64_t members) {
    static uint8_t bytes[EXTENT];
    int is_so = 1;
    memset(bytes, (int)(group % 251), sizeof bytes);
    for (uint64_t i = 0; i < members; i++) is_so &= is_done(pwrite(heap, bytes, EXTENT, (off_t)(EXTENT * (group * members + i))), EXTENT);
    is_so &= fdatasync(heap) == 0;
    off_t slot = (off_t)(SLOT * (group + 1));
    is_so &= is_done(pwrite(status, bytes, SLOT - 1, slot + 1), SLOT - 1) && fdatasync(status) == 0;
    return is_so && is_done(pwrite(status, bytes, 1, slot), 1) && fdatasync(status) == 0;
}

static double seconds(void) {
    struct timespec now;
    clock_gettime(CLOCK_MONOTONIC, &now);
    return (double)now.tv_sec + 1e-9 * (double)now.tv_nsec;
}

int main(int argc, char **argv) {
    if (argc != 4) return 2;
    uint64_t members = strtoull(argv[2], NULL, 10), group = 0;
    heap = make(argv[1], "heap");
    status = make(argv[1], "status");
    if (heap < 0 || status < 0 || !fill_status()) return 1;
    double start = seconds(), end = start + atof(argv[3]);
    for (; seconds() < end && group * members < COMMITS_MOST; group++)
        if (!write_group(group, members)) return 1;
    printf("%.0f\n", (double)(group * members) / (seconds() - start));
    return 0;
}
