/* The worked examples of the store, through the C calls: worked FOLDER, one that is there; each example has a
 * folder of its own in it. Records are of relation 1, and record 7 where none is named. PLACE says where the areas
 * of `folder` lie, and what opens them. */
#define _GNU_SOURCE
#include "check.h"
#include "faults.h"
#include <errno.h>
#include <fcntl.h>
#include <sys/stat.h>
#include <unistd.h>

enum { EXTENT = 8192, FRONT = 512, SLOT = 512, OPEN_GATE = 0xC7 };

#ifndef PLACE
#define PLACE "place_files.h"
#endif

/* ---- the store in hand */

static const char *top;
static char folder[4096];
#include PLACE
static ts_file *file;
static ts *h;
static ts_info info;

static void open_again(void) {
    CHECK(TS_OK, ts_file_open(folder, &file, &info));
    h = ts_file_store(file);
}

/* A new store, with nothing in it. */
static void fresh(uint32_t slots) {
    static int count;
    if (file) ts_file_close(file);
    snprintf(folder, sizeof folder, "%s/%d", top, ++count);
    make_place();
    CHECK(TS_OK, ts_file_format(folder, slots));
    open_again();
}

static void reopen(void) {
    ts_file_close(file);
    open_again();
}

/* What a store that is closed opens as. */
static int32_t opens_as(void) {
    ts_file *other;
    int32_t code = ts_file_open(folder, &other, &info);
    if (code == TS_OK) ts_file_close(other);
    return code;
}

/* ---- its calls */

static uint64_t begun(void) {
    CHECK(TS_OK, ts_begin(h, &info));
    return info.a;
}

/* Submits one write, of nothing for a deletion. */
static int32_t submits(uint64_t record, const char *text, uint64_t label, uint64_t now) {
    uint64_t txn = begun();
    if (text) put_text(h, txn, record, text);
    else CHECK(TS_OK, ts_delete(h, txn, 1, record));
    return ts_submit(h, txn, label, now, &info);
}

static uint64_t queued(uint64_t record, const char *text, uint64_t label, uint64_t now) {
    CHECK(TS_OK, submits(record, text, label, now));
    return info.a;
}

/* Commits one write; its time. */
static uint64_t commits(uint64_t record, const char *text, uint64_t label, uint64_t now) {
    uint64_t ticket = queued(record, text, label, now);
    CHECK(TS_OK, ts_file_flush(file));
    CHECK(TS_OK, ts_redeem(h, ticket, &info));
    return info.a;
}

typedef int32_t step(ts_file *file, ts_info *info);

static void steps(step *next, const uint64_t *wanted, size_t count) {
    for (size_t n = 0; n < count; n++) {
        CHECK(TS_OK, next(file, &info));
        HOLDS(info.a == wanted[n]);
    }
}
#define STEPS(next, ...) steps(next, (const uint64_t[]){__VA_ARGS__}, sizeof(uint64_t[]){__VA_ARGS__} / sizeof(uint64_t))
#define PUMPS(...) STEPS(ts_file_pump, __VA_ARGS__)
#define JOBS(...) STEPS(ts_file_job_pump, __VA_ARGS__)
#define REST_OF_GROUP TS_SYNCED, TS_BODY_WRITTEN, TS_BODY_SYNCED, TS_GATE_WRITTEN, TS_PUBLISHED
#define REST_OF_JOB TS_BODY_WRITTEN, TS_BODY_SYNCED, TS_GATE_WRITTEN, TS_PUBLISHED, TS_IDLE

/* ---- its queries, over the archive and a view that is taken for them */

typedef struct lent {
    const uint8_t *at;
    size_t len;
} lent;

static lent archive(void) {
    lent area;
    CHECK(TS_OK, ts_file_archive(file, &area.at, &area.len));
    return area;
}

/* Whether a view answers so at a time: a text, none for NULL. */
static bool view_has(uint64_t view, uint64_t record, uint64_t time, const char *text) {
    uint8_t value[TS_VALUE_MOST], wanted[258];
    lent area = archive();
    int32_t code = ts_at(h, view, 1, record, time, area.at, area.len, value, sizeof value, &info);
    if (!text) return code == TS_NONE;
    size_t len = value_of(text, wanted);
    return code == TS_OK && info.a == len && memcmp(value, wanted, len) == 0;
}

static uint64_t viewed(void) {
    CHECK(TS_OK, ts_view(h, &info));
    return info.a;
}

static bool has(uint64_t time, const char *text) {
    uint64_t view = viewed();
    bool so = view_has(view, 7, time, text);
    CHECK(TS_OK, ts_end(h, view));
    return so;
}

/* The code of `at`, with what it tells. */
static int32_t at(uint64_t time) {
    uint8_t value[TS_VALUE_MOST];
    lent area = archive();
    uint64_t view = viewed();
    int32_t code = ts_at(h, view, 1, 7, time, area.at, area.len, value, sizeof value, &info);
    CHECK(TS_OK, ts_end(h, view));
    return code;
}

static ts_row rows[8];
static uint8_t out[256];

static int32_t between(uint64_t from, uint64_t upto) {
    lent area = archive();
    uint64_t view = viewed();
    int32_t code = ts_between(h, view, 1, 7, from, upto, area.at, area.len, rows, 8, out, sizeof out, &info);
    CHECK(TS_OK, ts_end(h, view));
    return code;
}

static int32_t scan_at(uint16_t relation, uint64_t time) {
    lent area = archive();
    uint64_t view = viewed();
    int32_t code = ts_scan_at(h, view, relation, time, area.at, area.len, rows, 8, out, sizeof out, &info);
    CHECK(TS_OK, ts_end(h, view));
    return code;
}

static int32_t scan_between(uint64_t from, uint64_t upto) {
    lent area = archive();
    uint64_t view = viewed();
    int32_t code = ts_scan_between(h, view, 1, from, upto, area.at, area.len, rows, 8, out, sizeof out, &info);
    CHECK(TS_OK, ts_end(h, view));
    return code;
}

/* Whether what was found is just this: "7 100 110 a; ..", of a scan of one moment without times. */
static bool found(const char *wanted) {
    char said[512] = "";
    size_t len = 0;
    for (uint64_t n = 0; n < info.a; n++) {
        const char *text = (const char *)out + rows[n].at + 2;
        len += (size_t)snprintf(said + len, sizeof said - len, "%s%" PRIu64, n ? "; " : "", rows[n].record);
        if (rows[n].upto) len += (size_t)snprintf(said + len, sizeof said - len, " %" PRIu64 " %" PRIu64, rows[n].from, rows[n].upto);
        len += (size_t)snprintf(said + len, sizeof said - len, " %.*s", text[-1], text);
    }
    if (strcmp(said, wanted) != 0) fprintf(stderr, "found %s\n", said);
    return strcmp(said, wanted) == 0;
}

/* ---- commits */

static void a_new_store(void) {
    fresh(16);
    HOLDS(info.a == 0 && info.b == 0 && size_of("status") == 8704);
    HOLDS(has(0, NULL));
    CHECK(TS_NOT_YET, at(1));
    HOLDS(info.a == 0);
}

static void one_commit(void) {
    fresh(16);
    uint64_t txn = begun();
    HOLDS(info.b == 0);
    put_text(h, txn, 7, "a");
    CHECK(TS_OK, ts_submit(h, txn, 9, 100, &info));
    uint64_t ticket = info.a;
    PUMPS(TS_WROTE, TS_SYNCED, TS_BODY_WRITTEN, TS_BODY_SYNCED, TS_GATE_WRITTEN);
    CHECK(TS_WAITING, ts_redeem(h, ticket, &info));
    ticket = info.a;
    CHECK(TS_NOT_YET, at(100));
    HOLDS(info.a == 0);
    PUMPS(TS_PUBLISHED);
    HOLDS(info.b == 1);
    CHECK(TS_OK, ts_redeem(h, ticket, &info));
    HOLDS(info.a == 100);
    PUMPS(TS_IDLE);
    HOLDS(has(99, NULL) && has(100, "a"));
    CHECK(TS_NOT_YET, at(101));
    HOLDS(info.a == 100);
}

static void times_rise(void) {
    fresh(16);
    HOLDS(commits(7, "a", 1, 100) == 100 && commits(7, "b", 2, 100) == 101 && commits(7, "c", 3, 50) == 102);
    CHECK(TS_CLOCK_END, submits(7, "d", 4, 1ull << 63));
    CHECK(TS_OK, submits(7, "d", 4, (1ull << 63) - 1));
    CHECK(TS_CLOCK_END, submits(8, "d", 4, 0));
}

static void the_first_writer_wins(void) {
    fresh(16);
    HOLDS(commits(8, "x", 1, 102) == 102);
    uint64_t first = begun(), second = begun();
    put_text(h, first, 7, "a");
    put_text(h, second, 7, "b");
    CHECK(TS_OK, ts_submit(h, first, 2, 103, &info));
    CHECK(TS_CONFLICT, ts_submit(h, second, 3, 103, &info));
    HOLDS(info.a == 1 && info.b == 7);
}

/* The least key that a later commit wrote is told, whatever the order of the writes. */
static void the_least_key_is_told(void) {
    fresh(16);
    uint64_t txn = begun();
    put_text(h, txn, 9, "x");
    put_text(h, txn, 3, "x");
    put_text(h, txn, 7, "x");
    commits(9, "y", 1, 100);
    commits(7, "y", 2, 101);
    CHECK(TS_CONFLICT, ts_submit(h, txn, 3, 0, &info));
    HOLDS(info.a == 1 && info.b == 7);
}

static void reads_do_not_conflict(void) {
    uint8_t value[16];
    fresh(16);
    commits(1, "x", 1, 100);
    commits(2, "y", 1, 101);
    uint64_t first = begun(), second = begun();
    CHECK(TS_OK, ts_get(h, first, 1, 1, value, sizeof value, &info));
    CHECK(TS_OK, ts_get(h, second, 1, 2, value, sizeof value, &info));
    put_text(h, first, 2, "z");
    put_text(h, second, 1, "z");
    CHECK(TS_OK, ts_file_commit(file, first, 2, 0, &info));
    CHECK(TS_OK, ts_file_commit(file, second, 2, 0, &info));
}

static void what_waits_is_not_seen(void) {
    uint8_t value[16];
    fresh(16);
    HOLDS(commits(7, "a", 1, 130) == 130);
    queued(7, "b", 2, 140);
    uint64_t txn = begun();
    HOLDS(info.b == 130);
    CHECK(TS_OK, ts_get(h, txn, 1, 7, value, sizeof value, &info));
    HOLDS(value[2] == 'a');
}

static void a_scan_has_own_writes(void) {
    fresh(16);
    commits(3, "a", 1, 100);
    commits(7, "b", 2, 101);
    uint64_t txn = begun();
    put_text(h, txn, 5, "c");
    CHECK(TS_OK, ts_delete(h, txn, 1, 7));
    CHECK(TS_OK, ts_scan(h, txn, 1, rows, 8, out, sizeof out, &info));
    HOLDS(found("3 a; 5 c"));
}

static void writes_that_leave_nothing(void) {
    fresh(16);
    commits(8, "x", 1, 100);
    uint64_t txn = begun();
    put_text(h, txn, 7, "a");
    CHECK(TS_OK, ts_delete(h, txn, 1, 7));
    CHECK(TS_MISSING, ts_delete(h, txn, 1, 7));
    CHECK(TS_MISSING, ts_delete(h, txn, 1, 9));
    CHECK(TS_READ_ONLY, ts_submit(h, txn, 2, 101, &info));
    HOLDS(info.a == 100);
    PUMPS(TS_IDLE);
}

/* ---- values and their bytes */

static void large_values(void) {
    uint8_t large[TS_VALUE_MOST] = {16}, none = 0, more[18] = {17};
    for (size_t field = 0; field < 16; field++) large[1 + 256 * field] = 255;
    fresh(16);
    uint64_t txn = begun();
    CHECK(TS_BAD_VALUE, ts_put(h, txn, 1, 7, &none, 1));
    CHECK(TS_BAD_VALUE, ts_put(h, txn, 1, 7, more, sizeof more));
    CHECK(TS_OK, ts_put(h, txn, 1, 7, large, sizeof large));
    CHECK(TS_OK, ts_put(h, txn, 1, 8, large, sizeof large));
    CHECK(TS_OK, ts_submit(h, txn, 1, 100, &info));
    PUMPS(TS_WROTE, TS_WROTE, REST_OF_GROUP);
}

/* How many bytes of records an extent has. */
static uint64_t used(int64_t extent) {
    uint8_t bytes[4];
    read_bytes("heap", EXTENT * (extent - 1) + 8, bytes, sizeof bytes);
    return (uint64_t)(bytes[0] | bytes[1] << 8 | bytes[2] << 16) | (uint64_t)bytes[3] << 24;
}

static void many_records(void) {
    uint8_t value[8];
    fresh(16);
    uint64_t txn = begun();
    for (uint64_t record = 1; record <= 1024; record++) put_text(h, txn, record, "a");
    CHECK(TS_TOO_MANY_KEYS, ts_put(h, txn, 1, 1025, value, value_of("a", value)));
    put_text(h, txn, 7, "a");
    CHECK(TS_OK, ts_submit(h, txn, 1, 100, &info));
    PUMPS(TS_WROTE, TS_WROTE, REST_OF_GROUP);
    HOLDS(info.b == 1 && used(1) == 8176 && used(2) == 6160);
}

/* The kind of the first record of an extent. */
static uint8_t kind(int64_t extent) {
    uint8_t byte;
    read_bytes("heap", EXTENT * (extent - 1) + 16, &byte, 1);
    return byte;
}

static void commit_bytes(const char *value, size_t len, uint64_t now) {
    uint64_t txn = begun();
    CHECK(TS_OK, ts_put(h, txn, 1, 7, (const uint8_t *)value, len));
    CHECK(TS_OK, ts_file_commit(file, txn, 1, now, &info));
}

/* A delta is stored where it is shorter than the value. */
static void deltas(void) {
    enum { ANCHOR = 1, DELTA = 2, GONE = 3 };
    fresh(16);
    commit_bytes("\2\1a\1b", 5, 100);
    commit_bytes("\2\1a\1c", 5, 101);
    commit_bytes("\2\1d\1c", 5, 102);
    HOLDS(kind(1) == ANCHOR && used(1) == 16 && kind(2) == DELTA && used(2) == 15 && kind(3) == DELTA && used(3) == 15);
    commit_bytes("\1\1a", 3, 103);
    commit_bytes("\1\1b", 3, 104);
    HOLDS(kind(4) == ANCHOR && used(4) == 14 && kind(5) == ANCHOR && used(5) == 14);
    commits(7, NULL, 1, 105);
    commit_bytes("\1\1b", 3, 106);
    HOLDS(kind(6) == GONE && used(6) == 11 && kind(7) == ANCHOR);
    reopen();
    HOLDS(has(104, "b") && has(105, NULL));
    CHECK(TS_OK, between(102, 103));
    HOLDS(info.a == 1 && info.b == 5 && memcmp(out, "\2\1d\1c", 5) == 0);
}

/* ---- groups */

static void a_group_of_sixteen(void) {
    uint64_t tickets[17];
    fresh(64);
    for (uint64_t n = 0; n < 17; n++) tickets[n] = queued(n, "a", 1, 100);
    for (int n = 0; n < 16; n++) PUMPS(TS_WROTE);
    PUMPS(REST_OF_GROUP);
    HOLDS(info.b == 16);
    PUMPS(TS_WROTE, REST_OF_GROUP);
    HOLDS(info.b == 1);
    PUMPS(TS_IDLE);
    for (uint64_t n = 0; n < 17; n++) {
        CHECK(TS_OK, ts_redeem(h, tickets[n], &info));
        HOLDS(info.a == 100 + n);
    }
}

static void a_group_has_begun(void) {
    fresh(16);
    queued(7, "a", 1, 100);
    PUMPS(TS_WROTE);
    queued(8, "b", 1, 100);
    PUMPS(REST_OF_GROUP);
    HOLDS(info.b == 1);
    PUMPS(TS_WROTE, REST_OF_GROUP);
    HOLDS(info.b == 1);
}

/* A stop within the gate's write: the gate open, all three commits stand; else none, and their slot is used again. */
static void a_stop_within_the_gate(void) {
    static const uint8_t left[] = {OPEN_GATE, 0x00, 0x37};
    for (size_t n = 0; n < sizeof left; n++) {
        fresh(16);
        for (uint64_t record = 7; record < 10; record++) queued(record, "a", 5, 100);
        faults_refuse(7, EIO); /* three extents, the sync, the body and its sync came before */
        CHECK(TS_FAILED, ts_file_flush(file));
        ts_file_close(file);
        write_byte("status", FRONT, left[n]);
        open_again();
        bool whole = left[n] == OPEN_GATE;
        HOLDS(info.a == (whole ? 102 : 0));
        HOLDS(has(info.a, whole ? "a" : NULL));
        HOLDS(commits(7, "b", 6, 200) == 200);
        uint8_t gates[2];
        read_bytes("status", FRONT, gates, 1);
        read_bytes("status", FRONT + SLOT, gates + 1, 1);
        HOLDS(gates[0] == OPEN_GATE && (gates[1] == OPEN_GATE) == whole);
    }
}

/* ---- intervals: a from 100, b from 110, nothing from 120, c from 130 on */

static void a_history(uint32_t slots) {
    fresh(slots);
    HOLDS(commits(7, "a", 1, 100) == 100 && commits(7, "b", 2, 110) == 110);
    HOLDS(commits(7, NULL, 3, 120) == 120 && commits(7, "c", 4, 130) == 130);
}

static void its_answers(void) {
    CHECK(TS_OK, between(100, 131));
    HOLDS(found("7 100 110 a; 7 110 120 b; 7 130 131 c"));
    CHECK(TS_OK, between(105, 115));
    HOLDS(found("7 105 110 a; 7 110 115 b"));
    CHECK(TS_OK, between(120, 130));
    HOLDS(found(""));
    CHECK(TS_EMPTY_INTERVAL, between(110, 110));
    CHECK(TS_NOT_YET, between(100, 132));
    HOLDS(info.a == 130);
}

static void intervals(void) {
    a_history(16);
    its_answers();
    commits(3, "x", 5, 0);
    CHECK(TS_NOT_YET, between(140, 140));
    HOLDS(info.a == 131);
}

static void scans(void) {
    fresh(16);
    commits(7, "a", 1, 100);
    commits(7, "b", 2, 110);
    commits(3, "x", 3, 115);
    commits(7, NULL, 4, 120);
    uint64_t txn = begun();
    CHECK(TS_OK, ts_delete(h, txn, 1, 3));
    CHECK(TS_OK, ts_abort(h, txn));
    commits(7, "c", 5, 130);
    CHECK(TS_OK, scan_at(1, 115));
    HOLDS(found("3 x; 7 b"));
    CHECK(TS_OK, scan_at(1, 125));
    HOLDS(found("3 x"));
    CHECK(TS_OK, scan_at(2, 115));
    HOLDS(found(""));
    CHECK(TS_OK, scan_between(112, 131));
    HOLDS(found("3 115 131 x; 7 112 120 b; 7 130 131 c"));
}

/* ---- one call for what is asked most */

/* What stands now is of the last commit, also behind a reclaim: it needs no archive. */
static void its_present(void) {
    static const uint8_t C[] = {1, 1, 'c'}, X[] = {1, 1, 'x'};
    uint8_t out[TS_VALUE_MOST];
    ts_row row[2];
    CHECK(TS_OK, ts_file_get(file, 1, 7, out, sizeof out, &info));
    HOLDS(info.a == sizeof C && memcmp(out, C, sizeof C) == 0);
    CHECK(TS_SMALL, ts_file_get(file, 1, 7, out, sizeof C - 1, &info));
    HOLDS(info.a == sizeof C);
    CHECK(TS_NONE, ts_file_get(file, 1, 8, out, sizeof out, &info));
    CHECK(TS_OK, ts_file_scan(file, 1, row, 2, out, sizeof out, &info));
    HOLDS(info.a == 2 && info.b == sizeof X + sizeof C && row[0].record == 3 && row[1].record == 7);
    HOLDS(memcmp(out + row[0].at, X, sizeof X) == 0 && memcmp(out + row[1].at, C, sizeof C) == 0);
    CHECK(TS_SMALL, ts_file_scan(file, 1, row, 1, out, sizeof out, &info));
    HOLDS(info.a == 2 && info.b == sizeof X + sizeof C);
}

static void one_call_each(void) {
    static const uint8_t A[] = {1, 1, 'a'}, B[] = {1, 1, 'b'}, C[] = {1, 1, 'c'}, X[] = {1, 1, 'x'}, NO_VALUE[] = {0};
    fresh(16);
    CHECK(TS_OK, ts_file_put(file, 1, 7, A, sizeof A, 1, 100, &info));
    HOLDS(info.a == 100);
    CHECK(TS_OK, ts_file_put(file, 1, 8, B, sizeof B, 2, 0, &info));
    HOLDS(info.a == 101);
    CHECK(TS_OK, ts_file_put(file, 1, 7, C, sizeof C, 3, 110, &info));
    CHECK(TS_OK, ts_file_delete(file, 1, 8, 4, 120, &info));
    HOLDS(info.a == 120);
    CHECK(TS_MISSING, ts_file_delete(file, 1, 8, 5, 130, &info));
    CHECK(TS_BAD_VALUE, ts_file_put(file, 1, 8, NO_VALUE, sizeof NO_VALUE, 5, 130, &info));
    CHECK(TS_OK, ts_file_put(file, 1, 3, X, sizeof X, 5, 140, &info));
    its_present();
    HOLDS(has(105, "a") && has(110, "c"));
    CHECK(TS_OK, ts_archive(h, 120, &info));
    CHECK(TS_OK, ts_file_job(file));
    CHECK(TS_OK, ts_reclaim(h, &info)); /* what was refused has left no transaction open, which would bar it */
    CHECK(TS_OK, ts_file_job(file));
    its_present();
    reopen();
    its_present();
    HOLDS(has(105, "a"));
}

/* ---- archives, reclaims and floors */

static void archived(uint64_t upto) {
    CHECK(TS_OK, ts_archive(h, upto, &info));
    JOBS(TS_WROTE, TS_SYNCED, REST_OF_JOB);
}

static void reclaimed(void) {
    CHECK(TS_OK, ts_reclaim(h, &info));
    JOBS(TS_KEPT_SYNCED, REST_OF_JOB);
}

static void floor_raised(uint64_t time) {
    CHECK(TS_OK, ts_floor_of(h, 1, time, &info));
    JOBS(REST_OF_JOB);
}

static void an_archive(void) {
    a_history(16);
    archived(120);
    HOLDS(size_of("archive") == 74);
    its_answers();
}

static void a_reclaim(void) {
    a_history(16);
    archived(120);
    reclaimed();
    for (int n = 0; n < 2; n++) {
        its_answers();
        CHECK(TS_OK, scan_at(1, 105));
        HOLDS(found("7 a"));
        CHECK(TS_OK, scan_between(100, 131));
        HOLDS(found("7 100 110 a; 7 110 120 b; 7 130 131 c"));
        CHECK(TS_OK, scan_between(105, 121));
        HOLDS(found("7 105 110 a; 7 110 120 b"));
        reopen();
    }
    commits(8, "d", 5, 140); /* takes the first extent, which is free now */
    uint8_t record;
    read_bytes("heap", 16 + 3, &record, 1);
    HOLDS(size_of("heap") == 4 * EXTENT && record == 8);
}

static void a_reclaim_under_a_transaction(void) {
    fresh(16);
    commits(7, "a", 1, 100);
    commits(7, "b", 2, 110);
    uint64_t txn = begun();
    HOLDS(info.b == 110);
    commits(7, NULL, 3, 120);
    commits(7, "c", 4, 130);
    CHECK(TS_IN_USE, ts_floor_of(h, 1, 120, &info));
    HOLDS(info.a == 110);
    archived(120);
    CHECK(TS_IN_USE, ts_reclaim(h, &info));
    HOLDS(info.a == 110);
    CHECK(TS_OK, ts_abort(h, txn));
    reclaimed();
}

static void a_floor_up_to_a_transaction(void) {
    fresh(16);
    commits(7, "a", 1, 100);
    commits(7, "b", 2, 110);
    begun();
    commits(7, NULL, 3, 120);
    floor_raised(110);
}

/* A version that began before the mark and ends behind it is written anew. */
static void what_stands_at_the_mark(void) {
    uint8_t value[16];
    fresh(16);
    commits(7, "a", 1, 100);
    commits(8, "x", 2, 105);
    commits(7, "b", 3, 110);
    CHECK(TS_OK, ts_archive(h, 105, &info));
    CHECK(TS_OK, ts_file_job(file));
    HOLDS(size_of("archive") == 0);
    CHECK(TS_OK, ts_reclaim(h, &info));
    JOBS(TS_KEPT_WRITTEN, TS_KEPT_SYNCED, REST_OF_JOB);
    HOLDS(used(4) == 44);
    CHECK(TS_OK, between(100, 111));
    HOLDS(found("7 100 110 a; 7 110 111 b"));
    uint64_t view = viewed();
    CHECK(TS_NEEDS_ARCHIVE, ts_recent(h, view, 1, 7, 104, value, sizeof value, &info));
    CHECK(TS_OK, ts_end(h, view));
}

static void a_job_with_its_slot_in_the_writing(void) {
    a_history(16);
    CHECK(TS_OK, ts_archive(h, 120, &info));
    JOBS(TS_WROTE, TS_SYNCED, TS_BODY_WRITTEN);
    queued(8, "d", 5, 0);
    PUMPS(TS_WROTE, TS_SYNCED);
    CHECK(TS_BUSY, ts_file_pump(file, &info));
    JOBS(TS_BODY_SYNCED, TS_GATE_WRITTEN, TS_PUBLISHED);
    PUMPS(TS_BODY_WRITTEN, TS_BODY_SYNCED, TS_GATE_WRITTEN, TS_PUBLISHED);
}

/* A view that was taken before all of it answers as it did. */
static void a_floor(void) {
    a_history(16);
    uint64_t before = viewed();
    archived(120);
    reclaimed();
    floor_raised(120);
    CHECK(TS_BEFORE_KEPT, at(119));
    HOLDS(info.a == 120);
    HOLDS(has(120, NULL) && has(130, "c"));
    CHECK(TS_NOTHING_TO_DO, ts_floor_of(h, 1, 120, &info));
    CHECK(TS_NOT_YET, ts_floor_of(h, 1, 131, &info));
    HOLDS(info.a == 130);
    HOLDS(view_has(before, 7, 105, "a"));
}

static void an_archive_behind_a_floor(void) {
    a_history(16);
    floor_raised(115);
    archived(120);
    HOLDS(size_of("archive") == 37);
    CHECK(TS_OK, between(115, 131));
    HOLDS(found("7 115 120 b; 7 130 131 c"));
    CHECK(TS_BEFORE_KEPT, between(114, 131));
    HOLDS(info.a == 115);
}

/* A commit of one write in relation 2. */
static void commits_beside(uint64_t record, const char *text, uint64_t now) {
    uint8_t value[258];
    size_t len = value_of(text, value);
    uint64_t txn = begun();
    CHECK(TS_OK, ts_put(h, txn, 2, record, value, len));
    CHECK(TS_OK, ts_file_commit(file, txn, 0, now, &info));
}

/* The floor of relation 1 bars it alone, and an archive behind it leaves out what ended of it alone. */
static void a_floor_of_one_relation(void) {
    fresh(16);
    commits(7, "a", 1, 100);
    commits_beside(5, "z", 105);
    commits(7, "b", 3, 110);
    commits_beside(5, "y", 115);
    CHECK(TS_WRONG_PROFILE, ts_floor(h, 115, &info));
    floor_raised(115);
    CHECK(TS_OK, ts_archive(h, 115, &info));
    CHECK(TS_OK, ts_file_job(file));
    HOLDS(size_of("archive") == 37);
    CHECK(TS_OK, ts_reclaim(h, &info));
    CHECK(TS_OK, ts_file_job(file));
    for (int n = 0; n < 2; n++) {
        CHECK(TS_BEFORE_KEPT, at(114));
        HOLDS(info.a == 115 && has(115, "b"));
        CHECK(TS_OK, scan_at(2, 109));
        HOLDS(found("5 z"));
        CHECK(TS_OK, scan_at(2, 115));
        HOLDS(found("5 y"));
        reopen();
    }
    CHECK(TS_OK, ts_floor_of(h, 2, 110, &info));
    JOBS(REST_OF_JOB);
    CHECK(TS_BEFORE_KEPT, scan_at(2, 109));
    HOLDS(info.a == 110);
    CHECK(TS_BEFORE_KEPT, scan_at(1, 114));
    HOLDS(info.a == 115);
}

/* ---- ends and faults */

static void few_slots_are_left(void) {
    fresh(16);
    for (uint64_t n = 0; n < 13; n++) commits(7, "a", n, 100 + n);
    queued(7, "b", 13, 0);
    CHECK(TS_STATUS_FULL, submits(8, "b", 14, 0));
    CHECK(TS_OK, ts_archive(h, 105, &info));
}

static void a_refused_sync_behind_the_gate(void) {
    uint64_t times[2];
    a_history(16);
    uint64_t ticket = queued(7, "d", 9, 140);
    PUMPS(TS_WROTE, TS_SYNCED, TS_BODY_WRITTEN, TS_BODY_SYNCED, TS_GATE_WRITTEN);
    HOLDS(!tells_a_refusal(file));
    faults_refuse(1, EIO);
    CHECK(TS_FAILED, ts_file_pump(file, &info));
    HOLDS(tells_a_refusal(file));
    CHECK(TS_IN_DOUBT, ts_redeem(h, ticket, &info));
    CHECK(TS_FAILED, ts_begin(h, &info));
    HOLDS(has(130, "c"));
    CHECK(TS_NOT_YET, at(140));
    HOLDS(info.a == 130);
    for (int n = 0; n < 2; n++) { /* the gate was written */
        reopen();
        HOLDS(!tells_a_refusal(file));
        lent area = archive();
        CHECK(TS_OK, ts_times_of(h, 9, area.at, area.len, times, 2, &info));
        HOLDS(info.a == 1 && times[0] == 140);
    }
}

static void damages(void) {
    fresh(16);
    commits(7, "a", 1, 100);
    ts_file_close(file);
    cut("heap", EXTENT - 1);
    CHECK(TS_DAMAGED, opens_as());
    HOLDS(info.a == 1 && info.b == TS_HEAP);
    write_byte("status", FRONT + 1, 5);
    CHECK(TS_DAMAGED, opens_as());
    HOLDS(info.a == 0 && info.b == TS_STATUS);
    cut("status", 8703);
    CHECK(TS_NOT_A_STORE, opens_as());
    cut("status", 511);
    CHECK(TS_NOT_A_STORE, opens_as());
    file = NULL;
}

static void a_damaged_archive(void) {
    a_history(16);
    archived(120);
    reclaimed();
    ts_file_close(file);
    write_byte("archive", 58, 1); /* the first place of its index */
    open_again();
    HOLDS(has(130, "c"));
    CHECK(TS_DAMAGED, between(100, 131));
    HOLDS(info.a == 0 && info.b == TS_ARCHIVE);
    ts_file_close(file);
    file = NULL;
    cut("archive", 73);
    CHECK(TS_DAMAGED, opens_as());
    HOLDS(info.a == 0 && info.b == TS_ARCHIVE);
}

int main(int argc, char **argv) {
    static void (*const EXAMPLES[])(void) = {
        a_new_store, one_commit, times_rise, the_first_writer_wins, the_least_key_is_told, reads_do_not_conflict,
        what_waits_is_not_seen, a_scan_has_own_writes, writes_that_leave_nothing, large_values, many_records, deltas,
        a_group_of_sixteen, a_group_has_begun, a_stop_within_the_gate, intervals, scans, one_call_each, an_archive, a_reclaim,
        a_reclaim_under_a_transaction, a_floor_up_to_a_transaction, what_stands_at_the_mark,
        a_job_with_its_slot_in_the_writing, a_floor, an_archive_behind_a_floor, a_floor_of_one_relation,
        few_slots_are_left, a_refused_sync_behind_the_gate, damages, a_damaged_archive,
    };
    size_t count = sizeof EXAMPLES / sizeof EXAMPLES[0];
    if (argc != 2) return 2;
    top = argv[1];
    for (size_t n = 0; n < count; n++) EXAMPLES[n]();
    if (file) ts_file_close(file);
    printf("%zu examples\n", count);
    return 0;
}
