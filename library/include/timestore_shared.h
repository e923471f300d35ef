/* A store in files that any thread may call: timestore_file.h under a lock.
 *
 * Commits of several threads are written together: up to 16 with the syncs of one. There is no thread for that: one
 * of the threads that wait in ts_shared_commit makes the device calls for all, without the lock, and waits a little
 * before it begins where those whose commits were written together last are likely to come again. A commit returns
 * once it outlasts a stop.
 *
 * What takes the lock, and how long:
 *   - Queries, and the reads and writes of a transaction, for as long as they take. They wait for no device call and
 *     for no commit. Two of them are not made at once: threads that only read share one processor's worth of it.
 *   - ts_shared_begin, a commit's beginning, ts_shared_times_of and the beginning of a job wait for the device call
 *     that is being made, if one is: for a sync at most.
 *   - ts_shared_view, ts_shared_get, ts_shared_scan and ts_shared_last wait for none.
 *   - A query that needs the archive reads what is new of it from its file first, one at a time, and without the lock
 *     where that is more than 65,536 bytes.
 *
 * Transactions and views are numbers. Any thread may use one, also several at once, and any may end it. One whose
 * thread ended stays open until another thread ends it or the store is closed. A number that was given back names
 * nothing.
 *
 * In the child of a fork all calls but ts_shared_free answer TS_CLOSED; the parent goes on. A thread that is cancelled
 * (pthread_cancel) within a call ends after it. No call is made from a signal handler.
 */
#ifndef TIMESTORE_SHARED_H
#define TIMESTORE_SHARED_H
#include "timestore_file.h"
#ifdef __cplusplus
extern "C" {
#endif

/* A store that threads share. */
typedef struct ts_shared ts_shared;

/* Opens the store of a folder, as ts_file_open. */
int32_t ts_shared_open(const char *folder, ts_shared **store, ts_info *info);

/* Closes it, once the calls that are being made have returned: their commits are done, and so is the job that is being
   made. From its beginning on all others answer TS_CLOSED, and so does a second closing, at once. */
int32_t ts_shared_close(ts_shared *store);

/* Closes it, if it is open, and gives back its memory. No other thread is in a call of it, nor makes one later. */
void ts_shared_free(ts_shared *store);

/* The device call that failed the store, as ts_file_error. */
int32_t ts_shared_error(ts_shared *store, ts_cause *cause);

/* a: the time of the last commit, b: the floor of all relations, 0 where each has one of its own. */
int32_t ts_shared_last(ts_shared *store, ts_info *info);

/* ---- the present */

/* A commit of one value, or of one deletion; a: its time. As ts_shared_commit; where another commit of that record is on its
   way it comes after that. (TS_CONFLICT only where that one was answered TS_WAITING.) */
int32_t ts_shared_put(ts_shared *store, uint16_t relation, uint64_t record, const uint8_t *value, size_t value_len,
                      uint64_t label, uint64_t now, ts_info *info);
int32_t ts_shared_delete(ts_shared *store, uint16_t relation, uint64_t record, uint64_t label, uint64_t now,
                         ts_info *info);

/* The value of a record after the last commit, and the records of a relation, as ts_file_get and ts_file_scan. */
int32_t ts_shared_get(ts_shared *store, uint16_t relation, uint64_t record, uint8_t *out, size_t len, ts_info *info);
int32_t ts_shared_scan(ts_shared *store, uint16_t relation, ts_row *rows, size_t row_count, uint8_t *out, size_t len,
                       ts_info *info);

/* ---- transactions */

/* A transaction on what is published; a: its number, b: the time of its snapshot. */
int32_t ts_shared_begin(ts_shared *store, ts_info *info);
int32_t ts_shared_txn_put(ts_shared *store, uint64_t txn, uint16_t relation, uint64_t record, const uint8_t *value,
                          size_t len);
int32_t ts_shared_txn_delete(ts_shared *store, uint64_t txn, uint16_t relation, uint64_t record);
int32_t ts_shared_txn_get(ts_shared *store, uint64_t txn, uint16_t relation, uint64_t record, uint8_t *out, size_t len,
                          ts_info *info);
int32_t ts_shared_txn_scan(ts_shared *store, uint64_t txn, uint16_t relation, ts_row *rows, size_t row_count,
                           uint8_t *out, size_t len, ts_info *info);

/* Commits it, with a label, at the time now or just after the last commit, and returns once that outlasts a stop: TS_OK,
   a: the time of the commit. TS_READ_ONLY where nothing was written. TS_IN_DOUBT where the device failed on the way.
   TS_WAITING where memory was refused on the way, a: the number of a ticket, for ts_shared_resume. Another refusal
   says that nothing was committed; TS_CONFLICT comes once the commits that were on their way are done, so that a new
   transaction sees them. The transaction is over, but where the store is closed. */
int32_t ts_shared_commit(ts_shared *store, uint64_t txn, uint64_t label, uint64_t now, ts_info *info);

/* Goes on with a commit that was answered TS_WAITING. The ticket is spent, and answered as ts_shared_commit is. */
int32_t ts_shared_resume(ts_shared *store, uint64_t ticket, ts_info *info);

/* Spends such a ticket; its commit goes its way. */
int32_t ts_shared_give_up(ts_shared *store, uint64_t ticket);

int32_t ts_shared_abort(ts_shared *store, uint64_t txn);

/* ---- views, and the past */

/* What is published now, which later commits do not change; a: the number of the view, b: the time of its last commit.
   Of one store 65,536 may be out at a time. */
int32_t ts_shared_view(ts_shared *store, ts_info *info);
int32_t ts_shared_end(ts_shared *store, uint64_t view);

/* The queries of timestore.h. The archive is read where one needs it. One that is being made is answered, though its view is
   ended meanwhile. */
int32_t ts_shared_at(ts_shared *store, uint64_t view, uint16_t relation, uint64_t record, uint64_t time, uint8_t *out,
                     size_t len, ts_info *info);
int32_t ts_shared_scan_at(ts_shared *store, uint64_t view, uint16_t relation, uint64_t time, ts_row *rows,
                          size_t row_count, uint8_t *out, size_t len, ts_info *info);
int32_t ts_shared_between(ts_shared *store, uint64_t view, uint16_t relation, uint64_t record, uint64_t from,
                          uint64_t upto, ts_row *rows, size_t row_count, uint8_t *out, size_t len, ts_info *info);
int32_t ts_shared_scan_between(ts_shared *store, uint64_t view, uint16_t relation, uint64_t from, uint64_t upto,
                               ts_row *rows, size_t row_count, uint8_t *out, size_t len, ts_info *info);

/* Cursors, as those of timestore_file.h, over what a transaction sees, a time, or an interval. To make one takes the lock as a
   query does; its rows are taken without. */
int32_t ts_shared_cursor_of(ts_shared *store, uint64_t txn, uint16_t relation, uint64_t first, uint64_t last,
                            ts_cursor **cursor, ts_info *info);
int32_t ts_shared_cursor_at(ts_shared *store, uint64_t view, uint16_t relation, uint64_t first, uint64_t last, uint64_t time,
                            ts_cursor **cursor, ts_info *info);
int32_t ts_shared_cursor_between(ts_shared *store, uint64_t view, uint16_t relation, uint64_t first, uint64_t last,
                                 uint64_t from, uint64_t upto, ts_cursor **cursor, ts_info *info);

/* The times of the commits with a label, rising, as ts_times_of; a: how many. The archive is read where that needs it. */
int32_t ts_shared_times_of(ts_shared *store, uint64_t label, uint64_t *times, size_t count, ts_info *info);

/* ---- jobs, which return once they are done, while commits go on. One is made at a time: TS_JOB_BUSY. */

int32_t ts_shared_archive(ts_shared *store, uint64_t upto, ts_info *info);
int32_t ts_shared_reclaim(ts_shared *store, ts_info *info);
int32_t ts_shared_floor_of(ts_shared *store, uint16_t relation, uint64_t time, ts_info *info);
int32_t ts_shared_floor(ts_shared *store, uint64_t time, ts_info *info);
int32_t ts_shared_grow(ts_shared *store, ts_info *info);

/* Goes on with a job that ended in TS_NO_MEMORY on its way; TS_OK too where there is none. */
int32_t ts_shared_job(ts_shared *store);

/* ---- a vacuum of its own */

/* What a vacuum does. Times are microseconds. */
typedef struct ts_policy {
    uint64_t every; /* from one look to the next, by the machine's own clock; at least a millisecond */
    uint64_t keep;  /* memory keeps what ended less than so long before the last commit; the rest is archived and reclaimed */
    bool grows;     /* 256 slots more once a commit or a job was refused with TS_STATUS_FULL, which its caller makes again */
} ts_policy;

/* Starts a thread that archives and reclaims by a policy until the store is closed. It looks at once where a commit was
   refused with TS_HEAP_FULL or TS_STATUS_FULL. TS_BUSY where one runs, TS_SYSTEM where no thread can be started. Signals are
   blocked in it. */
int32_t ts_shared_vacuum(ts_shared *store, const ts_policy *policy);

/* What it was answered last, TS_OK or a refusal, those not counted that say that there is nothing to do or that it is to
   wait (TS_NOTHING_TO_DO, TS_IN_USE, TS_JOB_BUSY); a: how many archives, reclaims and growths it has made. TS_NONE where
   none was started. */
int32_t ts_shared_vacuumed(ts_shared *store, ts_info *info);

#ifdef __cplusplus
}
#endif
#endif
