/* Calls a second: bench FOLDER COMMITS GROUPS QUERIES, a folder that is there and empty. */
#define _GNU_SOURCE
#include "../tests/check.h"
#include <fcntl.h>
#include <time.h>
#include <unistd.h>

static double seconds(void) {
    struct timespec now;
    clock_gettime(CLOCK_MONOTONIC, &now);
    return (double)now.tv_sec + 1e-9 * (double)now.tv_nsec;
}

static void row(const char *what, double number, const char *unit) {
    printf("%-58s %12.0f %s\n", what, number, unit);
    fflush(stdout);
}

/* What a commit writes and syncs, without a store: an extent, a slot's body and its gate. */
static void raw_syncs(const char *folder, uint64_t count) {
    static const char *const names[] = {"raw-heap", "raw-status"};
    static uint8_t bytes[8192];
    char path[4096];
    int fd[2];
    for (int i = 0; i < 2; i++) {
        snprintf(path, sizeof path, "%s/%s", folder, names[i]);
        fd[i] = open(path, O_RDWR | O_CREAT, 0666);
        HOLDS(fd[i] >= 0);
    }
    double start = seconds();
    for (uint64_t n = 0; n < count; n++) {
        memset(bytes, (int)(n % 251), sizeof bytes);
        HOLDS(pwrite(fd[0], bytes, 8192, (off_t)(8192 * n)) == 8192 && fdatasync(fd[0]) == 0);
        HOLDS(pwrite(fd[1], bytes, 511, (off_t)(512 * n + 1)) == 511 && fdatasync(fd[1]) == 0);
        HOLDS(pwrite(fd[1], bytes, 1, (off_t)(512 * n)) == 1 && fdatasync(fd[1]) == 0);
    }
    row("three raw writes and syncs, as many times", (double)count / (seconds() - start), "/s");
    close(fd[0]);
    close(fd[1]);
}

/* What the process holds, in KiB. */
static double resident(void) {
    long pages = 0;
    FILE *state = fopen("/proc/self/statm", "r");
    HOLDS(state && fscanf(state, "%*d %ld", &pages) == 1);
    fclose(state);
    return (double)pages * (double)sysconf(_SC_PAGESIZE) / 1024;
}

static void commits(ts_file *file, uint64_t count) {
    ts *h = ts_file_store(file);
    ts_info info;
    double start = seconds();
    for (uint64_t n = 0; n < count; n++) {
        CHECK(TS_OK, ts_begin(h, &info));
        uint64_t txn = info.a;
        put_text(h, txn, n, "abcdefgh");
        CHECK(TS_OK, ts_file_commit(file, txn, n, 0, &info));
    }
    row("commits a second, one at a time", (double)count / (seconds() - start), "/s");
}

static void groups(ts_file *file, uint64_t count) {
    ts *h = ts_file_store(file);
    ts_info info;
    double start = seconds();
    for (uint64_t g = 0; g < count; g++) {
        uint64_t tickets[16];
        for (uint64_t n = 0; n < 16; n++) tickets[n] = submit_text(h, 16 * g + n, "ab", g, 0);
        CHECK(TS_OK, ts_file_flush(file));
        for (uint64_t n = 0; n < 16; n++) CHECK(TS_OK, ts_redeem(h, tickets[n], &info));
    }
    row("commits a second, 16 under one gate", 16 * (double)count / (seconds() - start), "/s");
}

/* The device calls are told and confirmed, and not made: what the library alone costs. */
static void unmade(ts *h, uint64_t count) {
    static uint8_t bytes[TS_WRITE_MOST];
    ts_info info, told;
    ts_device call;
    double start = seconds();
    for (uint64_t n = 0; n < count; n++) {
        submit_text(h, n, "abcdefgh", 0, 0);
        do {
            CHECK(TS_OK, ts_pump(h, &info));
            if (ts_call(h, &call, bytes, sizeof bytes) == TS_OK) CHECK(TS_OK, ts_called(h, true, &told));
        } while (info.a != TS_IDLE);
    }
    row("a commit with its device calls not made", 1e9 * (seconds() - start) / (double)count, "ns");
}

static void queries(ts *h, uint64_t count, uint64_t records) {
    ts_info info, view;
    uint8_t out[TS_VALUE_MOST];
    CHECK(TS_OK, ts_last(h, &info));
    uint64_t last = info.a;
    double start = seconds();
    for (uint64_t n = 0; n < count; n++) {
        CHECK(TS_OK, ts_view(h, &view));
        CHECK(TS_OK, ts_at(h, view.a, 1, n % records, last, (const uint8_t *)"", 0, out, sizeof out, &info));
        CHECK(TS_OK, ts_end(h, view.a));
    }
    row("point queries a second, a view each", (double)count / (seconds() - start), "/s");
    CHECK(TS_OK, ts_view(h, &view));
    start = seconds();
    for (uint64_t n = 0; n < count; n++) CHECK(TS_OK, ts_at(h, view.a, 1, n % records, last, (const uint8_t *)"", 0, out, sizeof out, &info));
    row("point queries a second, on one view", (double)count / (seconds() - start), "/s");
    CHECK(TS_OK, ts_end(h, view.a));
    start = seconds();
    for (uint64_t n = 0; n < count; n++) CHECK(TS_OK, ts_last(h, &info));
    row("an empty call (ts_last)", 1e9 * (seconds() - start) / (double)count, "ns");
    start = seconds();
    for (uint64_t n = 0; n < count; n++) {
        CHECK(TS_OK, ts_begin(h, &info));
        CHECK(TS_OK, ts_abort(h, info.a));
    }
    row("begin and abort", 1e9 * (seconds() - start) / (double)count, "ns");
}

int main(int argc, char **argv) {
    ts_file *file;
    ts_info info;
    if (argc != 5) return 2;
    uint64_t commit_count = strtoull(argv[2], NULL, 10), group_count = strtoull(argv[3], NULL, 10);
    uint64_t query_count = strtoull(argv[4], NULL, 10);
    CHECK(TS_OK, ts_file_format(argv[1], 65536));
    CHECK(TS_OK, ts_file_open(argv[1], &file, &info));
    raw_syncs(argv[1], commit_count);
    commits(file, commit_count);
    groups(file, group_count);
    ts_file_close(file);
    double before = resident(), start = seconds();
    CHECK(TS_OK, ts_file_open(argv[1], &file, &info));
    row("opening that store", 1e6 * (seconds() - start), "us");
    row("what the open store holds of memory more", resident() - before, "KiB");
    queries(ts_file_store(file), query_count, commit_count < 200 ? commit_count : 200);
    unmade(ts_file_store(file), commit_count);
    ts_file_close(file);
    return 0;
}
