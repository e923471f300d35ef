/* What the calls answer, on a store in files: rows FOLDER, an empty one. */
#define _GNU_SOURCE
#include "check.h"
#include "faults.h"
#include <errno.h>
#include <fcntl.h>
#include <sys/stat.h>
#include <unistd.h>

static uint64_t begun(ts *h) {
    ts_info info;
    CHECK(TS_OK, ts_begin(h, &info));
    return info.a;
}

/* A handle with no store answers that alone. */
static void test_closed(void) {
    ts h = TS_EMPTY;
    ts_info info;
    ts_device call;
    uint8_t none[1] = {0};
    CHECK(TS_CLOSED, ts_begin(&h, &info));
    CHECK(TS_CLOSED, ts_call(&h, &call, none, 0));
    CHECK(TS_CLOSED, ts_called(&h, true, &info));
    CHECK(TS_CLOSED, ts_close(&h));
    CHECK(TS_NOT_A_STORE, ts_open(&h, none, 0, none, 0, none, 0, 1, &info));
    CHECK(TS_CLOSED, ts_last(&h, &info));
    CHECK(TS_CLOSED, ts_floor(&h, 1, &info));
    CHECK(TS_CLOSED, ts_floor_of(&h, 1, 1, &info));
    CHECK(TS_CLOSED, ts_grow(&h, &info));
    CHECK(TS_BAD_SLOTS, ts_format(15, none, 0, &info));
    CHECK(TS_BAD_SLOTS, ts_format(65537, none, 0, &info));
    CHECK(TS_SMALL, ts_format(16, none, 0, &info));
    HOLDS(info.a == 512 + 512 * 16 && info.b == 0);
}

/* The header of a new store whose log lies in the heap: the profile, the extents, and the first one, where its log begins. */
static void endless_header(uint32_t extents, uint8_t header[512]) {
    memset(header, 0, 512);
    memcpy(header, "NOOVER01", 8);
    header[8] = 4;
    for (int n = 0; n < 4; n++) header[12 + n] = (uint8_t)(extents >> 8 * n);
    header[20] = 1;
}

/* What a host is told of such a store. */
static void test_endless_told(void) {
    static const uint32_t bad[] = {0, 16, 48, 63, 65, 72, 1048575, 1048592, 0x80000040, 0xFFFFFFF0, 0xFFFFFFFF};
    static const uint32_t good[] = {64, 80, 262144, 1048576};
    uint8_t out[600], header[512];
    ts_info info;
    for (size_t n = 0; n < sizeof bad / sizeof *bad; n++) CHECK(TS_BAD_SLOTS, ts_format_endless(bad[n], out, sizeof out, &info));
    for (size_t n = 0; n < sizeof good / sizeof *good; n++) {
        memset(out, 7, sizeof out);
        CHECK(TS_SMALL, ts_format_endless(good[n], out, 511, &info));
        HOLDS(info.a == 512 && info.b == 8192 && out[0] == 7);
        info = (ts_info){0, 0};
        CHECK(TS_OK, ts_format_endless(good[n], out, sizeof out, &info));
        endless_header(good[n], header);
        HOLDS(info.a == 512 && info.b == 8192 && memcmp(out, header, 512) == 0 && out[512] == 7);
    }
}

/* The tour: a commit, its time, and what stood when. */
static void test_tour(ts_file *file) {
    ts *h = ts_file_store(file);
    ts_info info, view;
    uint64_t ticket = submit_text(h, 7, "a", 9, 100);
    CHECK(TS_WAITING, ts_redeem(h, ticket, &info));
    CHECK(TS_UNKNOWN, ts_redeem(h, ticket, &view));
    ticket = info.a;
    CHECK(TS_OK, ts_file_flush(file));
    CHECK(TS_OK, ts_redeem(h, ticket, &info));
    HOLDS(info.a == 100);
    HOLDS(now_has(h, 7, 99, NULL) && now_has(h, 7, 100, "a"));
    CHECK(TS_OK, ts_view(h, &view));
    uint8_t out[16];
    CHECK(TS_NOT_YET, ts_at(h, view.a, 1, 7, 101, NONE, out, sizeof out, &info));
    HOLDS(info.a == 100);
    CHECK(TS_SMALL, ts_at(h, view.a, 1, 7, 100, NONE, out, 2, &info));
    HOLDS(info.a == 3);
    CHECK(TS_EMPTY_INTERVAL, ts_between(h, view.a, 1, 7, 50, 50, NONE, &(ts_row){0}, 1, out, sizeof out, &info));
    CHECK(TS_OK, ts_end(h, view.a));
    CHECK(TS_UNKNOWN, ts_end(h, view.a));
    CHECK(TS_OK, ts_last(h, &info));
    HOLDS(info.a == 100 && info.b == 0);
}

/* While a device call stands out nothing else is answered but by views and open transactions. */
static void test_pending(ts_file *file) {
    ts *h = ts_file_store(file);
    ts_info info, view;
    ts_device call;
    uint8_t bytes[TS_WRITE_MOST];
    CHECK(TS_OK, ts_view(h, &view));
    uint64_t open = begun(h);
    put_text(h, open, 7, "later");
    uint64_t ticket = submit_text(h, 8, "b", 10, 200);
    CHECK(TS_NONE, ts_call(h, &call, bytes, sizeof bytes));
    CHECK(TS_NONE, ts_called(h, true, &info));
    CHECK(TS_OK, ts_pump(h, &info));
    HOLDS(info.a == TS_CALL_DUE && info.b == 0);
    CHECK(TS_PENDING, ts_pump(h, &info));
    CHECK(TS_PENDING, ts_begin(h, &info));
    CHECK(TS_PENDING, ts_redeem(h, ticket, &info));
    CHECK(TS_PENDING, ts_view(h, &info));
    CHECK(TS_PENDING, ts_last(h, &info));
    CHECK(TS_PENDING, ts_submit(h, open, 9, 0, &info));
    CHECK(TS_PENDING, ts_archive(h, 50, &info));
    CHECK(TS_PENDING, ts_floor(h, 50, &info));
    CHECK(TS_PENDING, ts_floor_of(h, 1, 50, &info));
    CHECK(TS_PENDING, ts_grow(h, &info));
    HOLDS(has_text(h, view.a, 7, 100, "a"));
    uint8_t value[16];
    CHECK(TS_OK, ts_get(h, open, 1, 7, value, sizeof value, &info));
    HOLDS(value[1] == 5);
    CHECK(TS_SMALL, ts_call(h, &call, bytes, 8));
    HOLDS(call.kind == TS_WRITE && call.area == TS_HEAP && call.at == 8192 && call.len == 8192);
    CHECK(TS_OK, ts_end(h, view.a));
    CHECK(TS_OK, ts_abort(h, open));
    CHECK(TS_UNKNOWN, ts_abort(h, open));
    CHECK(TS_OK, ts_call(h, &call, bytes, sizeof bytes));
    /* The host's pump makes the call that is due, and only then goes on. */
    CHECK(TS_PENDING, ts_file_pump(file, &info));
    HOLDS(info.a == TS_WROTE);
    CHECK(TS_OK, ts_file_flush(file));
    CHECK(TS_OK, ts_redeem(h, ticket, &info));
    HOLDS(info.a == 200);
}

/* Two transactions that wrote one record: the first one wins. */
static void test_conflict(ts_file *file) {
    ts *h = ts_file_store(file);
    ts_info info;
    uint64_t first = begun(h), second = begun(h);
    put_text(h, first, 9, "x");
    put_text(h, second, 9, "y");
    CHECK(TS_OK, ts_file_commit(file, first, 11, 300, &info));
    CHECK(TS_CONFLICT, ts_submit(h, second, 12, 300, &info));
    HOLDS(info.a == 1 && info.b == 9);
    CHECK(TS_UNKNOWN, ts_submit(h, second, 12, 300, &info));
    HOLDS(now_has(h, 9, 300, "x"));
}

/* What a transaction may not write. */
static void test_refusals(ts_file *file) {
    ts *h = ts_file_store(file);
    ts_info info;
    uint64_t txn = begun(h);
    const uint8_t none[] = {0}, cut[] = {1, 2, 'a'}, more[] = {1, 1, 'a', 'b'}, many[1 + 17] = {17};
    CHECK(TS_BAD_VALUE, ts_put(h, txn, 1, 1, none, 0));
    CHECK(TS_BAD_VALUE, ts_put(h, txn, 1, 1, none, 1));
    CHECK(TS_BAD_VALUE, ts_put(h, txn, 1, 1, cut, sizeof cut));
    CHECK(TS_BAD_VALUE, ts_put(h, txn, 1, 1, more, sizeof more));
    CHECK(TS_BAD_VALUE, ts_put(h, txn, 1, 1, many, sizeof many));
    CHECK(TS_MISSING, ts_delete(h, txn, 1, 1));
    CHECK(TS_UNKNOWN, ts_delete(h, txn + 1, 1, 1));
    for (uint64_t record = 0; record < 1024; record++) put_text(h, txn, 1000 + record, "n");
    uint8_t value[16];
    CHECK(TS_TOO_MANY_KEYS, ts_put(h, txn, 1, 1, value, value_of("m", value)));
    CHECK(TS_OK, ts_abort(h, txn));
    txn = begun(h);
    CHECK(TS_READ_ONLY, ts_submit(h, txn, 1, 1, &info));
    HOLDS(info.a == 300);
    CHECK(TS_NONE, ts_get(h, txn = begun(h), 1, 1000, value, sizeof value, &info));
    CHECK(TS_OK, ts_abort(h, txn));
}

/* A delete, the rows of a record, the records of a relation, in a transaction and at a time. */
static void test_rows(ts_file *file) {
    ts *h = ts_file_store(file);
    ts_info info, view;
    ts_row rows[8];
    uint8_t out[64];
    uint64_t txn = begun(h);
    CHECK(TS_OK, ts_delete(h, txn, 1, 8));
    put_text(h, txn, 7, "c");
    CHECK(TS_OK, ts_scan(h, txn, 1, rows, 8, out, sizeof out, &info));
    HOLDS(info.a == 2 && rows[0].record == 7 && rows[1].record == 9 && out[rows[0].at + 2] == 'c');
    CHECK(TS_OK, ts_file_commit(file, txn, 9, 400, &info));
    CHECK(TS_OK, ts_view(h, &view));
    CHECK(TS_OK, ts_between(h, view.a, 1, 7, 0, 401, NONE, rows, 8, out, sizeof out, &info));
    HOLDS(info.a == 2 && info.b == 6);
    HOLDS(rows[0].from == 100 && rows[0].upto == 400 && out[rows[0].at + 2] == 'a');
    HOLDS(rows[1].from == 400 && rows[1].upto == 401 && out[rows[1].at + 2] == 'c');
    CHECK(TS_SMALL, ts_between(h, view.a, 1, 7, 0, 401, NONE, rows, 1, out, sizeof out, &info));
    HOLDS(info.a == 2 && info.b == 6);
    CHECK(TS_SMALL, ts_between(h, view.a, 1, 7, 0, 401, NONE, rows, 8, out, 5, &info));
    CHECK(TS_OK, ts_scan_at(h, view.a, 1, 300, NONE, rows, 8, out, sizeof out, &info));
    HOLDS(info.a == 3 && rows[1].record == 8 && out[rows[1].at + 2] == 'b');
    CHECK(TS_OK, ts_scan_at(h, view.a, 1, 400, NONE, rows, 8, out, sizeof out, &info));
    HOLDS(info.a == 2 && rows[1].record == 9);
    CHECK(TS_OK, ts_scan_between(h, view.a, 1, 150, 401, NONE, rows, 8, out, sizeof out, &info));
    HOLDS(info.a == 4 && rows[2].record == 8 && rows[2].from == 200 && rows[2].upto == 400);
    uint64_t times[4];
    CHECK(TS_OK, ts_times_of(h, 9, NONE, times, 4, &info));
    HOLDS(info.a == 2 && times[0] == 100 && times[1] == 400);
    CHECK(TS_SMALL, ts_times_of(h, 9, NONE, times, 1, &info));
    HOLDS(info.a == 2);
    uint64_t later = commit_text(file, 7, "d", 9, 0);
    HOLDS(later == 401);
    HOLDS(has_text(h, view.a, 7, 400, "c"));
    CHECK(TS_NOT_YET, ts_at(h, view.a, 1, 7, 401, NONE, out, sizeof out, &info));
    CHECK(TS_OK, ts_end(h, view.a));
}

/* An archive, refused and made. */
static void test_archive(ts_file *file) {
    ts *h = ts_file_store(file);
    ts_info info;
    CHECK(TS_NOT_YET, ts_archive(h, 500, &info));
    HOLDS(info.a == 401);
    CHECK(TS_OK, ts_archive(h, 400, &info));
    CHECK(TS_JOB_BUSY, ts_archive(h, 401, &info));
    CHECK(TS_OK, ts_file_job(file));
    CHECK(TS_NOTHING_TO_DO, ts_archive(h, 400, &info));
    HOLDS(now_has(h, 7, 150, "a"));
}

/* A reclaim of what is archived: memory no longer has it, and the archive that is lent does. */
static void test_reclaim(ts_file *file) {
    ts *h = ts_file_store(file);
    ts_info info, old, view;
    ts_row rows[8];
    uint8_t out[64];
    const uint8_t *archive;
    size_t len;
    CHECK(TS_OK, ts_view(h, &old));
    uint64_t open = begun(h);
    CHECK(TS_OK, ts_reclaim(h, &info));
    CHECK(TS_JOB_BUSY, ts_reclaim(h, &info));
    CHECK(TS_OK, ts_abort(h, open));
    CHECK(TS_OK, ts_file_job(file));
    CHECK(TS_NOTHING_TO_DO, ts_reclaim(h, &info));
    HOLDS(has_text(h, old.a, 7, 150, "a"));
    CHECK(TS_OK, ts_view(h, &view));
    CHECK(TS_OK, ts_recent(h, view.a, 1, 7, 400, out, sizeof out, &info));
    HOLDS(info.a == 3 && out[2] == 'c');
    CHECK(TS_NEEDS_ARCHIVE, ts_recent(h, view.a, 1, 7, 399, out, sizeof out, &info));
    CHECK(TS_NEEDS_ARCHIVE, ts_at(h, view.a, 1, 7, 150, NONE, out, sizeof out, &info));
    CHECK(TS_NEEDS_ARCHIVE, ts_between(h, view.a, 1, 7, 0, 401, NONE, rows, 8, out, sizeof out, &info));
    CHECK(TS_OK, ts_file_archive(file, &archive, &len));
    CHECK(TS_OK, ts_at(h, view.a, 1, 7, 150, archive, len, out, sizeof out, &info));
    HOLDS(info.a == 3 && out[2] == 'a');
    CHECK(TS_NONE, ts_at(h, view.a, 1, 7, 99, archive, len, out, sizeof out, &info));
    CHECK(TS_OK, ts_between(h, view.a, 1, 7, 0, 401, archive, len, rows, 8, out, sizeof out, &info));
    HOLDS(info.a == 2 && rows[0].from == 100 && rows[0].upto == 400 && rows[1].from == 400);
    CHECK(TS_OK, ts_scan_at(h, view.a, 1, 300, archive, len, rows, 8, out, sizeof out, &info));
    HOLDS(info.a == 3 && rows[1].record == 8 && out[rows[1].at + 2] == 'b');
    CHECK(TS_OK, ts_scan_between(h, view.a, 1, 150, 401, archive, len, rows, 8, out, sizeof out, &info));
    HOLDS(info.a == 4 && rows[2].record == 8 && rows[2].from == 200 && rows[2].upto == 400);
    CHECK(TS_DAMAGED, ts_at(h, view.a, 1, 7, 150, archive, 8, out, sizeof out, &info));
    HOLDS(info.a == 0 && info.b == TS_ARCHIVE);
    CHECK(TS_OK, ts_end(h, view.a));
    CHECK(TS_OK, ts_end(h, old.a));
}

/* The floor of a relation, refused and raised: a view from before it answers as it did, and one from after it not
   below it, but of another relation. */
static void test_floor(ts_file *file) {
    ts *h = ts_file_store(file);
    ts_info info, old, view;
    ts_row rows[8];
    uint8_t out[64];
    const uint8_t *archive;
    size_t len;
    CHECK(TS_WRONG_PROFILE, ts_floor(h, 300, &info));
    CHECK(TS_NOTHING_TO_DO, ts_floor_of(h, 1, 0, &info));
    CHECK(TS_NOT_YET, ts_floor_of(h, 1, 402, &info));
    HOLDS(info.a == 401);
    uint64_t open = begun(h);
    HOLDS(commit_text(file, 10, "e", 9, 500) == 500);
    CHECK(TS_IN_USE, ts_floor_of(h, 1, 402, &info));
    HOLDS(info.a == 401);
    CHECK(TS_OK, ts_abort(h, open));
    CHECK(TS_OK, ts_view(h, &old));
    CHECK(TS_OK, ts_floor_of(h, 1, 300, &info));
    CHECK(TS_JOB_BUSY, ts_floor_of(h, 2, 301, &info));
    CHECK(TS_JOB_BUSY, ts_archive(h, 500, &info));
    HOLDS(floor_now(h) == 0);
    CHECK(TS_OK, ts_file_job(file));
    HOLDS(floor_now(h) == 300);
    CHECK(TS_OK, ts_last(h, &info));
    HOLDS(info.a == 500 && info.b == 0);
    CHECK(TS_NOTHING_TO_DO, ts_floor_of(h, 1, 300, &info));
    CHECK(TS_OK, ts_view(h, &view));
    CHECK(TS_OK, ts_file_archive(file, &archive, &len));
    CHECK(TS_BEFORE_KEPT, ts_recent(h, view.a, 1, 7, 299, out, sizeof out, &info));
    HOLDS(info.a == 300);
    CHECK(TS_BEFORE_KEPT, ts_at(h, view.a, 1, 7, 299, archive, len, out, sizeof out, &info));
    HOLDS(info.a == 300);
    CHECK(TS_BEFORE_KEPT, ts_between(h, view.a, 1, 7, 299, 401, archive, len, rows, 8, out, sizeof out, &info));
    CHECK(TS_NONE, ts_at(h, view.a, 2, 7, 299, archive, len, out, sizeof out, &info));
    CHECK(TS_OK, ts_at(h, view.a, 1, 7, 300, archive, len, out, sizeof out, &info));
    HOLDS(info.a == 3 && out[2] == 'a');
    CHECK(TS_OK, ts_at(h, old.a, 1, 7, 299, archive, len, out, sizeof out, &info));
    HOLDS(info.a == 3 && out[2] == 'a');
    CHECK(TS_OK, ts_end(h, view.a));
    CHECK(TS_OK, ts_end(h, old.a));
}

/* A growth, step by step, up to the most slots that there are. */
static void test_growth(ts_file *file) {
    ts *h = ts_file_store(file);
    ts_info info;
    CHECK(TS_OK, ts_grow(h, &info));
    CHECK(TS_JOB_BUSY, ts_grow(h, &info));
    for (int part = 0; part < 16; part++) {
        CHECK(TS_OK, ts_file_job_pump(file, &info));
        HOLDS(info.a == TS_ZEROS_WRITTEN);
    }
    CHECK(TS_OK, ts_file_job_pump(file, &info));
    HOLDS(info.a == TS_ZEROS_SYNCED);
    CHECK(TS_OK, ts_file_job(file));
    for (int slots = 1280; slots <= 65280; slots += 256) {
        CHECK(TS_OK, ts_grow(h, &info));
        CHECK(TS_OK, ts_file_job(file));
    }
    CHECK(TS_NOT_GROWABLE, ts_grow(h, &info));
}

/* After a reclaim, a floor and growths the store opens, and answers over the archive. */
static void test_reopened(ts_file *file) {
    ts *h = ts_file_store(file);
    ts_info info, view;
    uint8_t out[64];
    const uint8_t *archive;
    size_t len;
    CHECK(TS_OK, ts_view(h, &view));
    CHECK(TS_OK, ts_file_archive(file, &archive, &len));
    CHECK(TS_OK, ts_at(h, view.a, 1, 7, 300, archive, len, out, sizeof out, &info));
    HOLDS(out[2] == 'a');
    CHECK(TS_BEFORE_KEPT, ts_at(h, view.a, 1, 7, 299, archive, len, out, sizeof out, &info));
    CHECK(TS_OK, ts_end(h, view.a));
}

/* What a step did is told once its device call was made, and not before. */
static void test_told(ts_file *file) {
    static const uint64_t steps[] = {TS_WROTE, TS_SYNCED, TS_BODY_WRITTEN, TS_BODY_SYNCED, TS_GATE_WRITTEN, TS_PUBLISHED};
    ts *h = ts_file_store(file);
    ts_info info;
    ts_device call;
    uint8_t bytes[TS_WRITE_MOST];
    uint64_t ticket = submit_text(h, 9, "told", 11, 0);
    for (size_t n = 0; n < sizeof steps / sizeof *steps; n++) {
        CHECK(TS_OK, ts_pump(h, &info));
        HOLDS(info.a == TS_CALL_DUE && info.b == 0);
        CHECK(TS_PENDING, ts_redeem(h, ticket, &info));
        CHECK(TS_OK, ts_call(h, &call, bytes, sizeof bytes));
        HOLDS(call.kind == (n % 2 ? TS_SYNC : TS_WRITE) && call.area == (n < 2 ? TS_HEAP : TS_STATUS));
        HOLDS(n % 2 == 0 || (call.at == 0 && call.len == 0));
        CHECK(TS_PENDING, ts_file_pump(file, &info));
        HOLDS(info.a == steps[n] && info.b == (steps[n] == TS_PUBLISHED));
        CHECK(TS_NONE, ts_call(h, &call, bytes, sizeof bytes));
    }
    CHECK(TS_OK, ts_pump(h, &info));
    HOLDS(info.a == TS_IDLE && info.b == 0);
    CHECK(TS_OK, ts_redeem(h, ticket, &info));
}

/* Each number of one store names nothing in another. */
static void test_two_stores(ts_file *file, const char *folder) {
    ts *h = ts_file_store(file);
    ts_file *other;
    ts_info info, view;
    uint8_t out[64];
    char path[4096];
    snprintf(path, sizeof path, "%s/other", folder);
    HOLDS(mkdir(path, 0777) == 0);
    CHECK(TS_OK, ts_file_format(path, 16));
    CHECK(TS_OK, ts_file_open(path, &other, &info));
    test_told(other);
    ts *h2 = ts_file_store(other);
    uint64_t txn = begun(h), second = begun(h2);
    HOLDS(txn != second);
    CHECK(TS_UNKNOWN, ts_put(h2, txn, 1, 7, out, 0));
    CHECK(TS_UNKNOWN, ts_delete(h2, txn, 1, 7));
    CHECK(TS_UNKNOWN, ts_get(h2, txn, 1, 7, out, sizeof out, &info));
    CHECK(TS_UNKNOWN, ts_submit(h2, txn, 9, 0, &info));
    CHECK(TS_UNKNOWN, ts_abort(h2, txn));
    CHECK(TS_OK, ts_abort(h, txn));
    CHECK(TS_OK, ts_abort(h2, second));
    CHECK(TS_OK, ts_view(h, &view));
    CHECK(TS_UNKNOWN, ts_recent(h2, view.a, 1, 7, 0, out, sizeof out, &info));
    CHECK(TS_UNKNOWN, ts_end(h2, view.a));
    CHECK(TS_OK, ts_end(h, view.a));
    uint64_t ticket = submit_text(h2, 7, "other", 9, 0);
    CHECK(TS_UNKNOWN, ts_redeem(h, ticket, &info));
    CHECK(TS_UNKNOWN, ts_give_up(h, ticket));
    CHECK(TS_OK, ts_give_up(h2, ticket));
    /* The view of what was published before a refused call is of its own store too. */
    faults_refuse(1, EIO);
    CHECK(TS_FAILED, ts_file_flush(other));
    CHECK(TS_OK, ts_view(h2, &view));
    CHECK(TS_NOT_YET, ts_recent(h2, view.a, 1, 7, 2, out, sizeof out, &info));
    CHECK(TS_UNKNOWN, ts_recent(h, view.a, 1, 7, 2, out, sizeof out, &info));
    ts_file_close(other);
}

/* A place that is used again has another number. */
static void test_numbers(ts *h) {
    uint64_t before[8];
    for (int n = 0; n < 8; n++) {
        before[n] = begun(h);
        CHECK(TS_OK, ts_abort(h, before[n]));
        for (int m = 0; m < n; m++) HOLDS(before[m] != before[n]);
        for (int m = 0; m <= n; m++) CHECK(TS_UNKNOWN, ts_abort(h, before[m]));
    }
}

/* Places that became free are used again: so many may be out at a time, again and again. */
static void test_places(ts *h) {
    enum { MOST = 65536 };
    static uint64_t views[MOST];
    ts_info info;
    for (int round = 0; round < 2; round++) {
        for (int n = 0; n < MOST; n++) {
            CHECK(TS_OK, ts_view(h, &info));
            views[n] = info.a;
        }
        CHECK(TS_NO_MEMORY, ts_view(h, &info));
        CHECK(TS_NO_MEMORY, ts_begin(h, &info));
        CHECK(TS_OK, ts_end(h, views[round]));
        CHECK(TS_OK, ts_view(h, &info));
        views[round] = info.a;
        for (int n = 0; n < MOST; n++) CHECK(TS_OK, ts_end(h, views[n]));
    }
}

/* A new store of an earlier profile, the number in byte 8 of its header, with a commit; it has one floor for all. */
static ts_file *earlier(const char *folder, uint8_t profile) {
    ts_file *file;
    ts_info info;
    char path[4096];
    snprintf(path, sizeof path, "%s/profile-%d", folder, profile);
    HOLDS(mkdir(path, 0777) == 0);
    CHECK(TS_OK, ts_file_format(path, 16));
    strcat(path, "/status");
    int fd = open(path, O_WRONLY);
    HOLDS(fd >= 0 && pwrite(fd, &profile, 1, 8) == 1);
    close(fd);
    *strrchr(path, '/') = 0;
    CHECK(TS_OK, ts_file_open(path, &file, &info));
    HOLDS(commit_text(file, 7, "a", 9, 100) == 100);
    ts *h = ts_file_store(file);
    CHECK(TS_WRONG_PROFILE, ts_floor_of(h, 1, 100, &info));
    CHECK(TS_NOT_YET, ts_floor(h, 101, &info));
    CHECK(TS_OK, ts_floor(h, 100, &info));
    CHECK(TS_OK, ts_file_job(file));
    CHECK(TS_OK, ts_last(h, &info));
    HOLDS(info.a == 100 && info.b == 100 && floor_now(h) == 100);
    return file;
}

/* Stores that an earlier timestore made; the first of them did not grow. */
static void test_earlier(const char *folder) {
    ts_info info;
    ts_file *file = earlier(folder, 1);
    CHECK(TS_NOT_GROWABLE, ts_grow(ts_file_store(file), &info));
    ts_file_close(file);
    file = earlier(folder, 2);
    CHECK(TS_OK, ts_grow(ts_file_store(file), &info));
    CHECK(TS_OK, ts_file_job(file));
    ts_file_close(file);
}

/* Cuts a file of the folder; what the store then opens as. */
static int32_t cut(const char *folder, const char *name, off_t len, ts_info *info) {
    ts_file *file;
    char path[4096];
    snprintf(path, sizeof path, "%s/%s", folder, name);
    HOLDS(truncate(path, len) == 0);
    return ts_file_open(folder, &file, info);
}

/* Commits one record where the log lies in the heap; what was answered. */
static int32_t try_commit(ts_file *file, const char *text, uint64_t now) {
    ts *h = ts_file_store(file);
    ts_info info;
    uint64_t txn = begun(h);
    put_text(h, txn, 7, text);
    return ts_file_commit(file, txn, 9, now, &info);
}

/* The steps of a job, behind whose first a commit is made. */
static void test_endless_steps(ts_file *file, const uint64_t *steps, size_t count, const char *text, uint64_t now) {
    ts_info info;
    for (size_t n = 0; n < count; n++) {
        CHECK(TS_OK, ts_file_job_pump(file, &info));
        HOLDS(info.a == steps[n]);
        if (n == 0) CHECK(TS_OK, try_commit(file, text, now));
    }
}

/* Whether record 7 had this text at a time, none for NULL: the archive is lent. */
static int had(ts_file *file, uint64_t time, const char *text) {
    uint8_t value[TS_VALUE_MOST], wanted[258];
    const uint8_t *archive;
    size_t len;
    ts_info view, info;
    ts *h = ts_file_store(file);
    CHECK(TS_OK, ts_view(h, &view));
    CHECK(TS_OK, ts_file_archive(file, &archive, &len));
    int32_t code = ts_at(h, view.a, 1, 7, time, archive, len, value, sizeof value, &info);
    CHECK(TS_OK, ts_end(h, view.a));
    if (!text) return code == TS_NONE;
    size_t count = value_of(text, wanted);
    return code == TS_OK && info.a == count && memcmp(value, wanted, count) == 0;
}

/* All commits have label 9. They come at 100, 200, 300, 400 and 500, and from then on just behind one another. */
static void has_times(ts_file *file) {
    enum { MOST = 128 };
    uint64_t times[MOST];
    const uint8_t *archive;
    size_t len;
    ts_info last, info;
    ts *h = ts_file_store(file);
    CHECK(TS_OK, ts_last(h, &last));
    CHECK(TS_OK, ts_file_archive(file, &archive, &len));
    CHECK(TS_OK, ts_times_of(h, 9, archive, len, times, MOST, &info));
    for (uint64_t n = 0; n < info.a; n++) HOLDS(times[n] == (n < 5 ? 100 * (n + 1) : 496 + n));
    HOLDS(info.a > 0 && times[info.a - 1] == last.a);
    CHECK(TS_OK, ts_times_of(h, 8, archive, len, times, MOST, &info));
    HOLDS(info.a == 0);
}

/* What stood when, and the times of the label, whatever is archived and reclaimed. */
static void has_all(ts_file *file) {
    HOLDS(had(file, 99, NULL) && had(file, 199, "a") && had(file, 200, "b") && had(file, 300, "c"));
    HOLDS(had(file, 400, "d"));
    has_times(file);
}

/* The names of two commits lie in a roll of the archive, behind a run of 37 bytes. */
static void test_endless_roll(ts_file *file, const uint8_t *archive, size_t len) {
    uint8_t broken[37 + 32];
    uint64_t times[8];
    ts_info info;
    ts *h = ts_file_store(file);
    HOLDS(len == sizeof broken);
    CHECK(TS_NEEDS_ARCHIVE, ts_times_of(h, 9, NONE, times, 8, &info));
    CHECK(TS_SMALL, ts_times_of(h, 9, archive, len, times, 4, &info));
    HOLDS(info.a == 5);
    CHECK(TS_DAMAGED, ts_times_of(h, 9, archive, len - 1, times, 8, &info));
    HOLDS(info.a == 37 && info.b == TS_ARCHIVE);
    memcpy(broken, archive, len);
    memset(broken + 37 + 8, 0, 8); /* the first one's time */
    CHECK(TS_DAMAGED, ts_times_of(h, 9, broken, len, times, 8, &info));
    HOLDS(info.a == 37 && info.b == TS_ARCHIVE);
}

/* Archives until the heap has no extent for another one; that of all that is published takes the last. A reclaim makes
   room again. */
static void test_endless_room(ts_file *file) {
    ts *h = ts_file_store(file);
    ts_info info;
    int32_t code = TS_OK;
    while (code == TS_OK) code = try_commit(file, "e", 0);
    CHECK(TS_HEAP_FULL, code);
    CHECK(TS_OK, ts_last(h, &info));
    uint64_t last = info.a, upto = 400;
    while ((code = ts_archive(h, ++upto, &info)) == TS_OK) CHECK(TS_OK, ts_file_job(file));
    CHECK(TS_HEAP_FULL, code);
    HOLDS(upto < last);
    CHECK(TS_OK, ts_archive(h, last, &info));
    CHECK(TS_OK, ts_file_job(file));
    CHECK(TS_NOTHING_TO_DO, ts_archive(h, last, &info));
    CHECK(TS_HEAP_FULL, try_commit(file, "f", 0));
    CHECK(TS_OK, ts_reclaim(h, &info));
    CHECK(TS_OK, ts_file_job(file));
    CHECK(TS_OK, try_commit(file, "f", 0));
    has_all(file);
}

/* Whether a file of a folder has these bytes and no more. */
static int file_is(const char *folder, const char *name, const uint8_t *bytes, size_t len) {
    static uint8_t found[8193];
    char path[4300];
    snprintf(path, sizeof path, "%s/%s", folder, name);
    int fd = open(path, O_RDONLY);
    ssize_t count = read(fd, found, sizeof found);
    return close(fd) == 0 && count == (ssize_t)len && memcmp(found, bytes, len) == 0;
}

/* Such a store is made where nothing stands, and over the zeros of one that was not made to its end. */
static void test_endless_format(const char *top) {
    static const uint8_t zeros[8193];
    uint8_t header[512], extent[8192] = {[8191] = 1};
    ts_file *file;
    ts_info info;
    char folder[4096];
    CHECK(TS_OCCUPIED, ts_file_format_endless(top, 64));
    snprintf(folder, sizeof folder, "%s/endless-format", top);
    CHECK(TS_BAD_SLOTS, ts_file_format_endless(folder, 63));
    CHECK(TS_SYSTEM, ts_file_format_endless(folder, 64));
    HOLDS(was_caused(NULL, "open", "", ENOENT) && mkdir(folder, 0777) == 0);
    CHECK(TS_BAD_SLOTS, ts_file_format_endless(folder, 72));
    CHECK(TS_NOT_A_STORE, ts_file_open(folder, &file, &info));
    write_file(folder, "heap", extent, sizeof extent);
    CHECK(TS_OCCUPIED, ts_file_format_endless(folder, 64));
    write_file(folder, "heap", zeros, sizeof zeros);
    CHECK(TS_OCCUPIED, ts_file_format_endless(folder, 64));
    write_file(folder, "heap", zeros, 8192);
    write_file(folder, "archive", zeros, 1);
    CHECK(TS_OCCUPIED, ts_file_format_endless(folder, 64));
    write_file(folder, "archive", zeros, 0);
    write_file(folder, "status", extent, sizeof extent);
    CHECK(TS_OCCUPIED, ts_file_format(folder, 16));
    write_file(folder, "heap", zeros, 100);
    write_file(folder, "status", zeros, 512);
    CHECK(TS_OK, ts_file_format_endless(folder, 262144));
    endless_header(262144, header);
    HOLDS(file_is(folder, "status", header, 512) && file_is(folder, "heap", zeros, 8192) && file_is(folder, "archive", zeros, 0));
    CHECK(TS_OCCUPIED, ts_file_format_endless(folder, 64));
    CHECK(TS_OCCUPIED, ts_file_format(folder, 16));
    CHECK(TS_OK, ts_file_open(folder, &file, &info));
    HOLDS(info.a == 0 && info.b == 0 && commit_text(file, 7, "a", 9, 100) == 100);
    CHECK(TS_ALREADY_OPEN, ts_file_format_endless(folder, 64));
    ts_file_close(file);
    CHECK(TS_OCCUPIED, ts_file_format_endless(folder, 64));
}

/* An archive and a reclaim of a store whose log lies in the heap, refused and made: what stood when, also where it is
   opened again. */
static void test_endless(const char *folder) {
    static const uint64_t archive_steps[] = {TS_WROTE, TS_SYNCED, TS_ENTRY_WRITTEN, TS_GATE_CLOSED, TS_KEPT_SYNCED, TS_GATE_WRITTEN, TS_PUBLISHED, TS_IDLE};
    /* what stands at its mark, and its base */
    static const uint64_t reclaim_steps[] = {TS_KEPT_WRITTEN, TS_KEPT_WRITTEN, TS_KEPT_SYNCED, TS_ROLL_WRITTEN, TS_ROLL_SYNCED, TS_ROOT_WRITTEN, TS_ROOT_SYNCED, TS_TURN_WRITTEN, TS_PUBLISHED, TS_IDLE};
    ts_file *file;
    ts_info info;
    const uint8_t *archive;
    size_t len;
    char path[4096];
    snprintf(path, sizeof path, "%s/endless", folder);
    endless_format(path);
    CHECK(TS_OK, ts_file_open(path, &file, &info));
    ts *h = ts_file_store(file);
    HOLDS(commit_text(file, 7, "a", 9, 100) == 100 && commit_text(file, 7, "b", 9, 200) == 200);
    HOLDS(commit_text(file, 7, "c", 9, 300) == 300);
    CHECK(TS_NOTHING_TO_DO, ts_archive(h, 0, &info));
    CHECK(TS_NOTHING_TO_DO, ts_reclaim(h, &info));
    CHECK(TS_NOT_YET, ts_archive(h, 301, &info));
    HOLDS(info.a == 300);
    CHECK(TS_OK, ts_archive(h, 200, &info));
    CHECK(TS_JOB_BUSY, ts_archive(h, 300, &info));
    CHECK(TS_JOB_BUSY, ts_floor_of(h, 1, 100, &info));
    CHECK(TS_JOB_BUSY, ts_reclaim(h, &info));
    CHECK(TS_NOT_GROWABLE, ts_grow(h, &info));
    test_endless_steps(file, archive_steps, sizeof archive_steps / sizeof *archive_steps, "d", 400);
    CHECK(TS_NOTHING_TO_DO, ts_archive(h, 200, &info));
    has_all(file);
    CHECK(TS_OK, ts_reclaim(h, &info));
    CHECK(TS_JOB_BUSY, ts_reclaim(h, &info));
    test_endless_steps(file, reclaim_steps, sizeof reclaim_steps / sizeof *reclaim_steps, "e", 500);
    CHECK(TS_NOTHING_TO_DO, ts_reclaim(h, &info));
    has_all(file);
    ts_file_close(file);
    CHECK(TS_OK, ts_file_open(path, &file, &info));
    HOLDS(info.a == 500 && info.b == 0);
    h = ts_file_store(file);
    CHECK(TS_NOTHING_TO_DO, ts_archive(h, 200, &info));
    CHECK(TS_NOTHING_TO_DO, ts_reclaim(h, &info));
    CHECK(TS_OK, ts_file_archive(file, &archive, &len));
    test_endless_roll(file, archive, len);
    has_all(file);
    test_endless_room(file);
    ts_file_close(file);
    CHECK(TS_OK, ts_file_open(path, &file, &info));
    has_all(file);
    ts_file_close(file);
    CHECK(TS_DAMAGED, cut(path, "archive", 36, &info));
    HOLDS(info.a == 0 && info.b == TS_ARCHIVE);
}

/* A store that is damaged says where, by the first check that fails. */
static void test_damaged(const char *folder) {
    ts_info info;
    CHECK(TS_DAMAGED, cut(folder, "archive", 8, &info));
    HOLDS(info.a == 0 && info.b == TS_ARCHIVE);
    CHECK(TS_DAMAGED, cut(folder, "heap", 0, &info));
    HOLDS(info.a > 0 && info.b == TS_HEAP);
    CHECK(TS_NOT_A_STORE, cut(folder, "status", 511, &info));
}

/* What stands now, in one call each. */
static void test_now(ts_file *file) {
    enum { RELATION = 900, LABEL = 77 };
    const uint8_t first[] = {1, 1, 'a'}, second[] = {2, 1, 'b', 0}, wrong[] = {0};
    uint8_t out[TS_VALUE_MOST];
    ts_row rows[2];
    ts_info info;
    uint64_t before = ts_now();
    CHECK(TS_NONE, ts_file_get(file, RELATION, 1, out, sizeof out, &info));
    CHECK(TS_OK, ts_file_put(file, RELATION, 1, first, sizeof first, LABEL, ts_now(), &info));
    uint64_t time = info.a;
    HOLDS(time >= before && time - before < 60000000 && before > 1600000000000000);
    CHECK(TS_OK, ts_file_put(file, RELATION, 2, second, sizeof second, LABEL, 0, &info));
    HOLDS(info.a == time + 1);
    CHECK(TS_OK, ts_file_get(file, RELATION, 2, out, sizeof out, &info));
    HOLDS(info.a == sizeof second && memcmp(out, second, sizeof second) == 0);
    CHECK(TS_SMALL, ts_file_get(file, RELATION, 2, out, 3, &info));
    HOLDS(info.a == sizeof second);
    CHECK(TS_OK, ts_file_scan(file, RELATION, rows, 2, out, sizeof out, &info));
    HOLDS(info.a == 2 && rows[0].record == 1 && rows[1].record == 2);
    HOLDS(memcmp(out + rows[0].at, first, sizeof first) == 0 && memcmp(out + rows[1].at, second, sizeof second) == 0);
    CHECK(TS_SMALL, ts_file_scan(file, RELATION, rows, 1, out, sizeof out, &info));
    HOLDS(info.a == 2 && info.b == sizeof first + sizeof second);
    CHECK(TS_OK, ts_file_delete(file, RELATION, 1, LABEL, 0, &info));
    HOLDS(info.a == time + 2);
    CHECK(TS_NONE, ts_file_get(file, RELATION, 1, out, sizeof out, &info));
    CHECK(TS_MISSING, ts_file_delete(file, RELATION, 1, LABEL, 0, &info));
    CHECK(TS_BAD_VALUE, ts_file_put(file, RELATION, 1, wrong, sizeof wrong, LABEL, 0, &info));
    CHECK(TS_OK, ts_last(ts_file_store(file), &info));
    HOLDS(info.a == time + 2); /* what was refused has committed nothing */
}

/* What was given up by a refusal bars no reclaim, which an open transaction would. */
static void test_nothing_left_open(ts_file *file) {
    ts_info info;
    uint64_t last = commit_text(file, 7, "later", 9, 0);
    CHECK(TS_OK, ts_archive(ts_file_store(file), last, &info));
    CHECK(TS_OK, ts_file_job(file));
    CHECK(TS_OK, ts_reclaim(ts_file_store(file), &info));
    CHECK(TS_OK, ts_file_job(file));
}

int main(int argc, char **argv) {
    ts_file *file, *second;
    ts_info info;
    if (argc != 2) return 2;
    test_closed();
    test_endless_told();
    CHECK(TS_BAD_SLOTS, ts_file_format(argv[1], 15));
    CHECK(TS_OK, ts_file_format(argv[1], 1024));
    CHECK(TS_OCCUPIED, ts_file_format(argv[1], 1024));
    CHECK(TS_OK, ts_file_open(argv[1], &file, &info));
    CHECK(TS_ALREADY_OPEN, ts_file_open(argv[1], &second, &info));
    test_tour(file);
    test_pending(file);
    test_two_stores(file, argv[1]);
    test_numbers(ts_file_store(file));
    test_places(ts_file_store(file));
    test_conflict(file);
    test_refusals(file);
    test_rows(file);
    test_archive(file);
    test_reclaim(file);
    test_floor(file);
    test_growth(file);
    ts_file_close(file);
    CHECK(TS_OK, ts_file_open(argv[1], &file, &info));
    HOLDS(info.a == 500 && info.b == 0);
    HOLDS(floor_now(ts_file_store(file)) == 300 && now_has(ts_file_store(file), 7, 401, "d"));
    test_reopened(file);
    test_now(file);
    test_nothing_left_open(file);
    ts_file_close(file);
    test_earlier(argv[1]);
    test_endless_format(argv[1]);
    test_endless(argv[1]);
    test_damaged(argv[1]);
    return 0;
}
