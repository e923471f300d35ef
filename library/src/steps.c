/* The steps of a store with their device calls, for each host. */
#include "steps.h"
#include <stdatomic.h>

uint64_t tsi_next_mark(tsi_kind kind) {
    enum { MOST = 0x7fff };
    static atomic_uint_fast32_t opened[2];
    uint64_t number = atomic_fetch_add(&opened[kind], 1) & MOST;
    return kind == TSI_FILES ? number : MOST - number;
}

/* ---- steps */

/* Makes the device call that is due, if one is; what its step did is told. */
static int32_t make_call(tsi_host *host, ts_info *info) {
    ts_device call;
    int32_t code = ts_call(&host->store, &call, host->bytes, sizeof host->bytes);
    if (code != TS_OK) return code == TS_NONE ? TS_OK : code;
    return ts_called(&host->store, host->make(host, &call), info);
}

typedef int32_t step(ts *store, ts_info *info);

/* A step with its device call. */
static int32_t take(tsi_host *host, step *next, ts_info *info) {
    int32_t code = next(&host->store, info);
    int32_t made = make_call(host, info);
    return made < 0 ? made : code;
}

/* All steps. A group and a job may each wait for the other's slot: TS_BUSY, and then that one goes on. */
static int32_t take_all(tsi_host *host, step *next, step *other) {
    ts_info info = {0, 0};
    int32_t code;
    do {
        code = take(host, next, &info);
        if (code == TS_BUSY) code = take(host, other, &info);
        else if (code == TS_OK && info.a == TS_IDLE) return TS_OK;
    } while (code == TS_OK);
    return code;
}

int32_t tsi_pump(tsi_host *host, ts_info *info) { return take(host, ts_pump, info); }

int32_t tsi_job_pump(tsi_host *host, ts_info *info) { return take(host, ts_job_pump, info); }

int32_t tsi_flush(tsi_host *host) { return take_all(host, ts_pump, ts_job_pump); }

int32_t tsi_job(tsi_host *host) { return take_all(host, ts_job_pump, ts_pump); }

int32_t tsi_commit(tsi_host *host, uint64_t txn, uint64_t label, uint64_t now, ts_info *info) {
    int32_t code = ts_submit(&host->store, txn, label, now, info);
    if (code != TS_OK) return code;
    uint64_t ticket = info->a;
    tsi_flush(host); /* where it is refused, the ticket says what became of the commit */
    return ts_redeem(&host->store, ticket, info);
}

/* ---- one call for what is asked most */

/* Commits a transaction where its write was answered so, and else gives it up. */
static int32_t commit_one(tsi_host *host, uint64_t txn, int32_t code, uint64_t label, uint64_t now, ts_info *info) {
    if (code == TS_OK) return tsi_commit(host, txn, label, now, info);
    ts_abort(&host->store, txn);
    return code;
}

int32_t tsi_put(tsi_host *host, uint16_t relation, uint64_t record, const uint8_t *value, size_t value_len, uint64_t label,
                uint64_t now, ts_info *info) {
    int32_t code = ts_begin(&host->store, info);
    if (code != TS_OK) return code;
    code = ts_put(&host->store, info->a, relation, record, value, value_len);
    return commit_one(host, info->a, code, label, now, info);
}

int32_t tsi_delete(tsi_host *host, uint16_t relation, uint64_t record, uint64_t label, uint64_t now, ts_info *info) {
    int32_t code = ts_begin(&host->store, info);
    if (code != TS_OK) return code;
    code = ts_delete(&host->store, info->a, relation, record);
    return commit_one(host, info->a, code, label, now, info);
}

/* A view of what is published now, and the time of its last commit. */
static int32_t view_now(ts *store, uint64_t *view, uint64_t *last) {
    ts_info info = {0, 0};
    int32_t code = ts_last(store, &info);
    *last = info.a;
    if (code == TS_OK) code = ts_view(store, &info);
    *view = info.a;
    return code;
}

int32_t tsi_get(ts *store, uint16_t relation, uint64_t record, uint8_t *out, size_t len, ts_info *info) {
    uint64_t view, last;
    int32_t code = view_now(store, &view, &last);
    if (code != TS_OK) return code;
    code = ts_recent(store, view, relation, record, last, out, len, info);
    ts_end(store, view);
    return code;
}

int32_t tsi_scan(ts *store, uint16_t relation, ts_row *rows, size_t row_count, uint8_t *out, size_t len, ts_info *info) {
    static const uint8_t nothing[1];
    uint64_t view, last;
    int32_t code = view_now(store, &view, &last);
    if (code != TS_OK) return code;
    code = ts_scan_at(store, view, relation, last, nothing, 0, rows, row_count, out, len, info);
    ts_end(store, view);
    return code;
}
