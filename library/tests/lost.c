/* A device that loses what a refused sync was to keep, while the system goes on to have it in memory: lost FOLDER, one
 * that is there; each trial has a folder of its own in it. What was answered as done survives a stop, also what was
 * done after the store was opened again. */
#define _GNU_SOURCE
#include "check.h"
#include "faults.h"
#include <errno.h>
#include <fcntl.h>
#include <sys/mman.h>
#include <sys/stat.h>
#include <unistd.h>

/* The slots of seven commits lie in the first page of the status file, those of later ones do not. */
enum { COMMITS = 7, CALLS_OF_COMMIT = 6, PAGE = 4096 };

static char folder[4096];

/* Whether files can be mapped: some file systems have no mapping at all, some none that is shared. */
static enum { ALL_MAPS, PRIVATE_MAPS, NO_MAPS } maps;

void *__real_mmap(void *at, size_t len, int protection, int flags, int fd, off_t offset);
void *__wrap_mmap(void *at, size_t len, int protection, int flags, int fd, off_t offset) {
    bool is_refused = fd >= 0 && (maps == NO_MAPS || (maps == PRIVATE_MAPS && (flags & MAP_SHARED)));
    if (!is_refused) return __real_mmap(at, len, protection, flags, fd, offset);
    errno = ENODEV;
    return MAP_FAILED;
}

static void fresh(const char *top, const char *kind, uint64_t number) {
    snprintf(folder, sizeof folder, "%s/%s%" PRIu64, top, kind, number);
    HOLDS(mkdir(folder, 0777) == 0);
    CHECK(TS_OK, ts_file_format(folder, 64));
}

static ts_file *opened(ts_info *info) {
    ts_file *file;
    CHECK(TS_OK, ts_file_open(folder, &file, info));
    return file;
}

/* Commits a record of its own at each time, 100, 200 and so on, until a call is refused; how many were done. */
static uint64_t commit_some(ts_file *file, uint64_t first, uint64_t last) {
    ts *h = ts_file_store(file);
    ts_info info;
    for (uint64_t n = first; n <= last; n++) {
        uint64_t ticket = submit_text(h, n, "kept", 9, 100 * n);
        int32_t code = ts_file_flush(file);
        if (code != TS_OK) {
            CHECK(TS_FAILED, code);
            CHECK(TS_IN_DOUBT, ts_redeem(h, ticket, &info));
            return n - 1;
        }
        CHECK(TS_OK, ts_redeem(h, ticket, &info));
        HOLDS(info.a == 100 * n);
    }
    return last;
}

/* After a stop the store has the commits up to this one. */
static void survives(uint64_t last) {
    ts_info info;
    faults_stop(folder);
    ts_file *file = opened(&info);
    HOLDS(info.a == 100 * last);
    for (uint64_t n = 1; n <= last; n++) HOLDS(now_has(ts_file_store(file), n, 100 * last, "kept"));
    ts_file_close(file);
}

/* Commits, of which the call of this number is refused; then the store is opened again, and commits more. */
static void trial(const char *top, uint64_t call) {
    ts_info info;
    fresh(top, "call", call);
    ts_file *file = opened(&info);
    faults_lose();
    faults_refuse(call, EIO);
    uint64_t done = commit_some(file, 1, COMMITS);
    bool is_sync = (call - 1) % 2; /* an extent, the heap's sync, the body, its sync, the gate, its sync */
    HOLDS(done == (call - 1) / CALLS_OF_COMMIT);
    HOLDS(was_caused(file, is_sync ? "fdatasync" : "pwrite", (call - 1) % CALLS_OF_COMMIT < 2 ? "heap" : "status", EIO));
    ts_file_close(file);
    faults_refuse(0, 0);
    file = opened(&info);
    uint64_t found = info.a / 100;
    HOLDS(found == done || found == done + 1);
    HOLDS(commit_some(file, found + 1, found + 2) == found + 2);
    ts_file_close(file);
    survives(found + 2);
}

/* A host that ended with its gate not synced; the sync of the next opening is refused, and of the one after it not. */
static void a_refused_opening(const char *top) {
    ts_info info;
    ts_file *file;
    fresh(top, "opening", 0);
    faults_lose();
    file = opened(&info);
    commit_some(file, 1, COMMITS - 1);
    submit_text(ts_file_store(file), COMMITS, "kept", 9, 100 * COMMITS);
    do CHECK(TS_OK, ts_file_pump(file, &info));
    while (info.a != TS_GATE_WRITTEN);
    ts_file_close(file);
    faults_refuse(1, EIO);
    CHECK(TS_SYSTEM, ts_file_open(folder, &file, &info));
    HOLDS(errno == EIO && was_caused(NULL, "fdatasync", "status", EIO));
    faults_refuse(0, 0);
    file = opened(&info);
    HOLDS(info.a == 100 * (COMMITS - 1));
    commit_some(file, COMMITS, COMMITS + 1);
    ts_file_close(file);
    survives(COMMITS + 1);
}

/* What the system keeps is compared with the disk where that can be read, and else it is not believed. */
static void what_is_kept(const char *top) {
    ts_info info;
    ts_file *file;
    fresh(top, "kept", 0);
    file = opened(&info);
    commit_some(file, 1, 2);
    ts_file_close(file);
    faults_keep(true);
    ts_file_close(opened(&info));
    faults_keep(false);
    CHECK(TS_CACHED, ts_file_open(folder, &file, &info));
    HOLDS(was_caused(NULL, "posix_fadvise", "status", EBUSY));
    faults_stop(folder);
    faults_lose();
    file = opened(&info);
    faults_refuse(CALLS_OF_COMMIT, EIO);
    HOLDS(commit_some(file, 3, 3) == 2);
    ts_file_close(file);
    faults_refuse(0, 0);
    faults_keep(true);
    CHECK(TS_CACHED, ts_file_open(folder, &file, &info));
    survives(2);
}

/* A page that another program has mapped stays in memory, and is what the disk has. */
static void what_is_mapped(const char *top) {
    ts_info info;
    fresh(top, "mapped", 0);
    char path[4200];
    snprintf(path, sizeof path, "%s/status", folder);
    int fd = open(path, O_RDONLY);
    const uint8_t *map = mmap(NULL, PAGE, PROT_READ, MAP_SHARED, fd, 0);
    HOLDS(fd >= 0 && map != MAP_FAILED && *map != 0);
    ts_file *file = opened(&info);
    commit_some(file, 1, 1);
    ts_file_close(file);
    ts_file_close(opened(&info));
    HOLDS(info.a == 100 && munmap((void *)(uintptr_t)map, PAGE) == 0);
    close(fd);
}

/* Where nobody knows what the system has in memory all is compared with the disk. */
static void what_cannot_be_mapped(const char *top) {
    ts_info info;
    ts_file *file;
    fresh(top, "unmapped", 0);
    maps = PRIVATE_MAPS;
    file = opened(&info);
    commit_some(file, 1, 2);
    ts_file_close(file);
    maps = NO_MAPS;
    faults_keep(true);
    file = opened(&info);
    HOLDS(info.a == 200);
    faults_lose();
    faults_refuse(CALLS_OF_COMMIT, EIO);
    HOLDS(commit_some(file, 3, 3) == 2);
    ts_file_close(file);
    faults_refuse(0, 0);
    CHECK(TS_CACHED, ts_file_open(folder, &file, &info)); /* the gate that the disk lacks */
    HOLDS(was_caused(NULL, "posix_fadvise", "status", EBUSY));
    faults_keep(false);
    CHECK(TS_CACHED, ts_file_open(folder, &file, &info)); /* nor can it be compared */
    maps = ALL_MAPS;
    survives(2);
}

int main(int argc, char **argv) {
    if (argc != 2) return 2;
    for (uint64_t call = 1; call <= COMMITS * CALLS_OF_COMMIT; call++) trial(argv[1], call);
    a_refused_opening(argv[1]);
    what_is_kept(argv[1]);
    what_is_mapped(argv[1]);
    what_cannot_be_mapped(argv[1]);
    printf("lost what %d calls were to keep\n", COMMITS * CALLS_OF_COMMIT);
    return 0;
}
