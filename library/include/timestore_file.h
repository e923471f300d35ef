/* A host of timestore for three files of a folder, status, heap and archive, as the program `timestore`
 * has them: under a lock, written by pwrite and fdatasync, and read by pread into memory of its own. For one
 * thread; timestore_shared.h has the same for any. */
#ifndef TIMESTORE_FILE_H
#define TIMESTORE_FILE_H
#include "timestore.h"
#ifdef __cplusplus
extern "C" {
#endif

/* A store in files. It keeps to what timestore.h asks of a host, but for its third point, which is its
   user's. The folder is not renamed while it is open. In the child of a fork its files are closed, whenever
   the fork comes, and all its calls but ts_file_close answer TS_CLOSED; its parent goes on. No file of it has
   the descriptor of a standard stream that the process has closed: what is written there is refused. */
typedef struct ts_file ts_file;

/* Codes besides those of the store. */
enum {
    TS_SYSTEM = -100,      /* the system refused a call; ts_file_error and errno say why */
    TS_LOCKED = -101,      /* another process has the store open */
    TS_OCCUPIED = -102,    /* a store, or something else, is there already */
    TS_CACHED = -103,      /* the system keeps a part of a file in memory that the disk may lack */
    TS_ALREADY_OPEN = -104 /* this process has the store open */
};

/* A call of the system that was refused. */
typedef struct ts_cause {
    const char *call; /* its name, as "fdatasync" */
    const char *file; /* "status", "heap", "archive", or "" for the folder */
    int number;       /* its errno; ENODATA where a file is shorter than what was written to it */
} ts_cause;

/* Makes a store of so many slots, 16 to 65,536, in a folder that is there. */
int32_t ts_file_format(const char *folder, uint32_t slots);

/* The same of the endless profile: the heap may have so many extents of 8,192 bytes, a multiple of 16 from 64 to 1,048,576.
   This profile is being made: later versions may not read its files. */
int32_t ts_file_format_endless(const char *folder, uint32_t extents);

/* Opens the store of a folder; a: the time of the last commit, b: the floor of all relations. Where it is refused
   there is nothing to close. What the system has of the files in memory is not believed, since after a sync that
   failed, of whichever process, it may be more than the disk has: it is dropped, and what is not is compared with
   the disk. TS_CACHED where that can't be done: end the process that has the file mapped, or start the machine again. */
int32_t ts_file_open(const char *folder, ts_file **file, ts_info *info);

/* Which call of the system was refused: for a file the device call that failed its store, and for NULL the last
   call on this thread that was answered by TS_SYSTEM or TS_CACHED. TS_NONE where there was none; a store also fails
   where there was no memory. */
int32_t ts_file_error(const ts_file *file, ts_cause *cause);

/* The store, for all calls but ts_open, ts_close, ts_call, ts_called, ts_pump and ts_job_pump. */
ts *ts_file_store(ts_file *file);

/* ts_pump and ts_job_pump with their device call, made or refused; a: what the step did. */
int32_t ts_file_pump(ts_file *file, ts_info *info);
int32_t ts_file_job_pump(ts_file *file, ts_info *info);

/* The archive area as it is now, read into memory, to be lent to a query: at is not null, and len may be 0. It stays
   until the next call of this function or of ts_file_close. It takes as much memory as the archive has bytes; a query
   that is lent nothing answers TS_NEEDS_ARCHIVE where it needs it. TS_SYSTEM where the file can't be read. */
int32_t ts_file_archive(ts_file *file, const uint8_t **at, size_t *len);

/* All steps of all commits that wait, and of the archive, the reclaim, the floor or the growth that is being made. */
int32_t ts_file_flush(ts_file *file);
int32_t ts_file_job(ts_file *file);

/* Submits, flushes and redeems: TS_OK, a: the time of the commit; TS_IN_DOUBT where the device failed on the
   way; TS_WAITING where memory was refused there, a: the ticket. */
int32_t ts_file_commit(ts_file *file, uint64_t txn, uint64_t label, uint64_t now, ts_info *info);

/* The microseconds since 1970 of the system's clock, for a commit at the time that it is. */
uint64_t ts_now(void);

/* A commit of one value, or of one deletion: as ts_file_commit. */
int32_t ts_file_put(ts_file *file, uint16_t relation, uint64_t record, const uint8_t *value, size_t value_len,
                    uint64_t label, uint64_t now, ts_info *info);
int32_t ts_file_delete(ts_file *file, uint16_t relation, uint64_t record, uint64_t label, uint64_t now, ts_info *info);

/* The present, after the last commit: the value of a record, as ts_recent, and the records of a relation with their
   values, as ts_scan_at. They need no archive. */
int32_t ts_file_get(ts_file *file, uint16_t relation, uint64_t record, uint8_t *out, size_t len, ts_info *info);
int32_t ts_file_scan(ts_file *file, uint16_t relation, ts_row *rows, size_t row_count, uint8_t *out, size_t len,
                     ts_info *info);

void ts_file_close(ts_file *file);

/* ---- cursors, over any handle: what a query finds of the records of a relation from one on up to another, which counts
   too, block by block. The query is made as the cursor is, of the whole relation, and takes memory as it finds rows. It is
   made once; but twice where the system refuses addresses for more than the machine has memory, and the first time that a
   query of a process finds more than some megabytes. The cursor needs neither the store nor the view any more; one thread
   uses it at a time. What it has passed is given back by and by. */
typedef struct ts_cursor ts_cursor;

/* What a transaction sees, as ts_scan. */
int32_t ts_cursor_of(ts *h, uint64_t txn, uint16_t relation, uint64_t first, uint64_t last, ts_cursor **cursor, ts_info *info);

/* The records that have a value at a time, as ts_scan_at, and rows from one time up to another, as ts_scan_between. */
int32_t ts_cursor_at(ts *h, uint64_t view, uint16_t relation, uint64_t first, uint64_t last, uint64_t time,
                     const uint8_t *archive, size_t archive_len, ts_cursor **cursor, ts_info *info);
int32_t ts_cursor_between(ts *h, uint64_t view, uint16_t relation, uint64_t first, uint64_t last, uint64_t from, uint64_t upto,
                          const uint8_t *archive, size_t archive_len, ts_cursor **cursor, ts_info *info);

/* The next rows, so many at most, or TS_NONE. The value of a row lies at `at` of the values. They stay where they are until the
   next call of this cursor. A new cursor from the record after the last one goes on where this one is. */
int32_t ts_cursor_next(ts_cursor *cursor, size_t most, const ts_row **rows, size_t *count, const uint8_t **values);

void ts_cursor_free(ts_cursor *cursor);

/* The text of a code, as the program has it. */
const char *ts_text(int32_t code);

#ifdef __cplusplus
}
#endif
#endif
