/* The library on the workloads of bench/peers, as SQLite and LMDB are: a value is spelled as they spell it, and
   each query takes a view of its own. */
#include "peer.h"
#include <stdlib.h>
#include <string.h>
#include <timestore_file.h>

enum { SLOTS = 65536, ROWS = 1024 };
struct conn { ts_file *file; ts *store; };
static ts_row rows[ROWS]; /* what a query finds */
static uint8_t values[ROWS * VALUE_MAX];

static int32_t asked(const char *what, int32_t code) {
    if (code < 0 || code == TS_IN_DOUBT) die("timestore %s: %s", what, ts_text(code));
    return code;
}

void peer_create(const char *dir) { asked("format", ts_file_format(dir, SLOTS)); }

conn *peer_open(const char *dir) {
    conn *c = calloc(1, sizeof *c);
    ts_info info;
    if (!c) die("no memory");
    asked("open", ts_file_open(dir, &c->file, &info));
    c->store = ts_file_store(c->file);
    return c;
}

void peer_close(conn *c) {
    ts_file_close(c->file);
    free(c);
}

void peer_commit(conn *c, int64_t time, const row *written, int n) {
    ts_info info;
    asked("begin", ts_begin(c->store, &info));
    uint64_t txn = info.a;
    for (int i = 0; i < n; i++)
        asked("put", ts_put(c->store, txn, RELATION, written[i].record, written[i].value, (size_t)written[i].len));
    if (asked("commit", ts_file_commit(c->file, txn, 0, (uint64_t)time, &info)) != TS_OK) die("timestore: a commit waits");
}

/* The number of a view of what is published now, and the archive that its queries are lent. */
static uint64_t begin(conn *c, const uint8_t **archive, size_t *len) {
    ts_info info;
    asked("archive", ts_file_archive(c->file, archive, len));
    asked("view", ts_view(c->store, &info));
    return info.a;
}

/* No query goes behind the last commit, whose value still stands later. */
static uint64_t known(conn *c, int64_t time) {
    ts_info info;
    asked("last", ts_last(c->store, &info));
    return (uint64_t)time < info.a ? (uint64_t)time : info.a;
}

int peer_as_of(conn *c, uint64_t record, int64_t time, unsigned char *out) {
    const uint8_t *archive;
    size_t len;
    ts_info info;
    uint64_t view = begin(c, &archive, &len), at = known(c, time);
    int32_t code = asked("at", ts_at(c->store, view, RELATION, record, at, archive, len, out, VALUE_MAX, &info));
    asked("end", ts_end(c->store, view));
    return code == TS_NONE ? -1 : (int)info.a;
}

static int give(uint64_t count, row_sink sink, void *arg) {
    for (uint64_t i = 0; i < count; i++) sink(arg, rows[i].record, values + rows[i].at, (int)rows[i].len);
    return (int)count;
}

int peer_history(conn *c, uint64_t record, int64_t a, int64_t b, row_sink sink, void *arg) {
    const uint8_t *archive;
    size_t len;
    ts_info info;
    uint64_t view = begin(c, &archive, &len), upto = known(c, b - 1) + 1;
    asked("between", ts_between(c->store, view, RELATION, record, (uint64_t)a, upto, archive, len, rows, ROWS, values, sizeof values, &info));
    asked("end", ts_end(c->store, view));
    return give(info.a, sink, arg);
}

int peer_scan(conn *c, int64_t time, row_sink sink, void *arg) {
    const uint8_t *archive;
    size_t len;
    ts_info info;
    uint64_t view = begin(c, &archive, &len), at = known(c, time);
    asked("scan_at", ts_scan_at(c->store, view, RELATION, at, archive, len, rows, ROWS, values, sizeof values, &info));
    asked("end", ts_end(c->store, view));
    return give(info.a, sink, arg);
}
