/* Why a store failed: causes FOLDER SMALL, folders that are there; the second one has little space, or is missing. */
#define _GNU_SOURCE
#include "check.h"
#include "faults.h"
#include <errno.h>
#include <signal.h>
#include <sys/resource.h>
#include <sys/stat.h>

static ts_file *file;
static ts_info info;

static void open_new(const char *folder) {
    ts_cause cause;
    CHECK(TS_OK, ts_file_format(folder, 16));
    CHECK(TS_OK, ts_file_open(folder, &file, &info));
    CHECK(TS_NONE, ts_file_error(file, &cause));
}

/* Commits until the device fails, at most so often; how many were done before the one that is in doubt. */
static int commit_until_it_fails(int most) {
    for (int n = 0; n < most; n++) {
        ts *h = ts_file_store(file);
        uint64_t ticket = submit_text(h, 7, "a", 9, 0);
        int32_t code = ts_file_flush(file);
        if (code == TS_OK) CHECK(TS_OK, ts_redeem(h, ticket, &info));
        else {
            CHECK(TS_FAILED, code);
            CHECK(TS_IN_DOUBT, ts_redeem(h, ticket, &info));
            return n;
        }
    }
    return -1;
}

/* The cause stays that of the first call, whatever is refused after it. */
static void is_of(const char *call, const char *name, int number) {
    HOLDS(was_caused(file, call, name, number));
    CHECK(TS_FAILED, ts_begin(ts_file_store(file), &info));
    CHECK(TS_FAILED, ts_file_flush(file));
    HOLDS(was_caused(file, call, name, number));
    ts_file_close(file);
}

static const char *folder_of(const char *top, const char *name) {
    static char path[4200];
    snprintf(path, sizeof path, "%s/%s", top, name);
    HOLDS(mkdir(path, 0777) == 0);
    return path;
}

static void a_sync_that_is_refused(const char *top) {
    open_new(folder_of(top, "sync"));
    faults_refuse(2, EIO);
    HOLDS(commit_until_it_fails(1) == 0);
    is_of("fdatasync", "heap", EIO);
    open_new(folder_of(top, "write"));
    faults_refuse(5, EDQUOT);
    HOLDS(commit_until_it_fails(1) == 0);
    is_of("pwrite", "status", EDQUOT);
    faults_refuse(0, 0);
}

/* The heap grows by 8,192 bytes with each commit. */
static void a_file_that_may_not_grow(const char *top) {
    struct rlimit old, most = {3 * 8192 + 100, RLIM_INFINITY};
    signal(SIGXFSZ, SIG_IGN);
    open_new(folder_of(top, "limit"));
    HOLDS(getrlimit(RLIMIT_FSIZE, &old) == 0);
    most.rlim_max = old.rlim_max;
    HOLDS(setrlimit(RLIMIT_FSIZE, &most) == 0);
    int done = commit_until_it_fails(5);
    HOLDS(setrlimit(RLIMIT_FSIZE, &old) == 0 && done == 3);
    is_of("pwrite", "heap", EFBIG);
}

static void a_full_disk(const char *small) {
    open_new(small);
    HOLDS(commit_until_it_fails(10) > 0);
    is_of("pwrite", "heap", ENOSPC);
}

static void what_is_not_opened(const char *top) {
    char path[4200];
    snprintf(path, sizeof path, "%s/nowhere", top);
    CHECK(TS_SYSTEM, ts_file_open(path, &file, &info));
    HOLDS(errno == ENOENT && was_caused(NULL, "open", "", ENOENT));
    CHECK(TS_SYSTEM, ts_file_format(path, 16));
    HOLDS(was_caused(NULL, "open", "", ENOENT));
}

int main(int argc, char **argv) {
    if (argc != 2 && argc != 3) return 2;
    ts_cause cause;
    CHECK(TS_NONE, ts_file_error(NULL, &cause));
    what_is_not_opened(argv[1]);
    a_sync_that_is_refused(argv[1]);
    a_file_that_may_not_grow(argv[1]);
    if (argc == 3) a_full_disk(argv[2]);
    return 0;
}
