/* Files that cannot be read: reads FOLDER, one that is there. A query is refused, and its process lives. */
#define _GNU_SOURCE
#include "check.h"
#include "faults.h"
#include <errno.h>
#include <sys/stat.h>
#include <unistd.h>

enum { RECORDS = 400, LAST = 1000 };

static const char *folder;
static ts_file *file;
static ts_info info;

static void cut(const char *name, off_t len) {
    char path[4200];
    snprintf(path, sizeof path, "%s/%s", folder, name);
    HOLDS(truncate(path, len) == 0);
}

static void open_again(void) {
    if (file) ts_file_close(file);
    CHECK(TS_OK, ts_file_open(folder, &file, &info));
    HOLDS(info.a == LAST);
}

/* Two values of each record, the first of which is in the archive alone. */
static void make(void) {
    CHECK(TS_OK, ts_file_format(folder, 64));
    CHECK(TS_OK, ts_file_open(folder, &file, &info));
    ts *h = ts_file_store(file);
    for (uint64_t time = LAST / 2; time <= LAST; time += LAST / 2) {
        CHECK(TS_OK, ts_begin(h, &info));
        uint64_t txn = info.a;
        for (uint64_t record = 0; record < RECORDS; record++) put_text(h, txn, record, time == LAST ? "second" : "first");
        CHECK(TS_OK, ts_file_commit(file, txn, 9, time, &info));
    }
    CHECK(TS_OK, ts_archive(h, LAST, &info));
    CHECK(TS_OK, ts_file_job(file));
    CHECK(TS_OK, ts_reclaim(h, &info));
    CHECK(TS_OK, ts_file_job(file));
}

/* Asks a record for its first value, over the archive as the host gives it. */
static int32_t asks_first(uint64_t record) {
    uint8_t value[TS_VALUE_MOST], wanted[258];
    const uint8_t *archive;
    size_t len, wanted_len = value_of("first", wanted);
    ts_info view;
    int32_t code = ts_file_archive(file, &archive, &len);
    if (code != TS_OK) return code;
    CHECK(TS_OK, ts_view(ts_file_store(file), &view));
    code = ts_at(ts_file_store(file), view.a, 1, record, LAST / 2, archive, len, value, sizeof value, &info);
    CHECK(TS_OK, ts_end(ts_file_store(file), view.a));
    HOLDS(code != TS_OK || (info.a == wanted_len && memcmp(value, wanted, wanted_len) == 0));
    return code;
}

static int32_t asks_without_archive(void) {
    uint8_t value[TS_VALUE_MOST];
    ts_info view;
    CHECK(TS_OK, ts_view(ts_file_store(file), &view));
    int32_t code = ts_at(ts_file_store(file), view.a, 1, 7, LAST / 2, NONE, value, sizeof value, &info);
    CHECK(TS_OK, ts_end(ts_file_store(file), view.a));
    return code;
}

static void a_read_that_is_refused(void) {
    open_again();
    faults_refuse_reads(EIO);
    CHECK(TS_SYSTEM, asks_first(7));
    HOLDS(errno == EIO && was_caused(NULL, "pread", "archive", EIO));
    CHECK(TS_NEEDS_ARCHIVE, asks_without_archive());
    HOLDS(now_has(ts_file_store(file), 7, LAST, "second"));
    faults_refuse_reads(0);
    CHECK(TS_OK, asks_first(7)); /* the device reads again, and nothing has failed */
    ts_file_close(file);
    faults_refuse_reads(EIO);
    CHECK(TS_SYSTEM, ts_file_open(folder, &file, &info));
    HOLDS(errno == EIO && was_caused(NULL, "pread", "status", EIO));
    file = NULL;
    faults_refuse_reads(0);
}

/* What was read stays; what was not is missed. All other areas are in memory from opening on. */
static void a_file_that_is_cut(void) {
    open_again();
    CHECK(TS_OK, asks_first(7));
    cut("archive", 100);
    CHECK(TS_OK, asks_first(RECORDS - 1));
    cut("heap", 0);
    cut("status", 0);
    HOLDS(now_has(ts_file_store(file), 7, LAST, "second"));
    CHECK(TS_OK, asks_first(8));
}

static void a_file_that_was_cut_before(void) {
    open_again();
    cut("archive", 100);
    CHECK(TS_SYSTEM, asks_first(7));
    HOLDS(was_caused(NULL, "pread", "archive", ENODATA));
    cut("archive", 0);
    CHECK(TS_SYSTEM, asks_first(7));
    HOLDS(now_has(ts_file_store(file), 7, LAST, "second"));
}

int main(int argc, char **argv) {
    if (argc != 2) return 2;
    folder = argv[1];
    make();
    CHECK(TS_OK, asks_first(7));
    a_read_that_is_refused();
    a_file_that_was_cut_before();
    ts_file_close(file);
    file = NULL;
    /* The same of a store anew, since the last one lost its archive. */
    char second[4200];
    snprintf(second, sizeof second, "%s/second", folder);
    HOLDS(mkdir(second, 0777) == 0);
    folder = second;
    make();
    a_file_that_is_cut();
    ts_file_close(file);
    return 0;
}
