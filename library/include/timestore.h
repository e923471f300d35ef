/* timestore: a store of records that keeps every version, in the process of its user.
 *
 * The functions of this header open no file, start no thread and hold no lock. Where the store is to write
 * or sync, its user, the host, makes that device call: where ts_pump or ts_job_pump tells TS_CALL_DUE it
 * asks ts_call, makes what is told, and says so by ts_called, which tells what the step did. Until then
 * every call answers TS_PENDING but ts_call, ts_called, ts_close, the reads and writes of open transactions,
 * the queries of views, ts_abort, ts_end and ts_give_up. If the device refused it, the host says so by
 * ts_called: from then on the store answers what was published before that call, tickets of commits that
 * were not are in doubt, nothing is written any more, and the store is to be opened again. So it is too
 * where there was no memory to tell the device call: the step then answers TS_FAILED, and no call is due.
 * timestore_file.h has a host for files, which does all this.
 *
 * What the host must uphold, which nothing checks:
 *   1. Three areas of bytes that nobody else writes: status, heap and archive. Each is synced before ts_open
 *      is given its bytes, as the device has them: after a sync that failed a system may have more of them in
 *      memory. They stay as they are until ts_open returns, and are not used after it. Of the archive ts_open asks
 *      the length alone. The bytes of the archive that a query is lent stay as long as it: all that was written to
 *      that area so far, from its first byte on.
 *   2. A write goes to that area and place whole, and a gap before it reads as zeros. A sync returns once
 *      what was written to that area outlasts a stop (fdatasync). They are made in the order told, each
 *      before ts_called says that it was. Of a write that was refused any part may have been made.
 *   3. A handle begins as TS_EMPTY, is not copied, and one call of it is made at a time: by the thread that
 *      opened it, or by several, each call under one lock. timestore_shared.h is such a host for files; owner.c
 *      of the examples has one thread own the handle and serve the others by a queue.
 *   4. No pointer is null, also where its length is 0; memory that is written to lies apart from all else that
 *      the call is given, and lengths are those of the memory.
 *   5. The marks that ts_open is given for stores that are open in one process differ in their lowest 15 bits.
 *      Then a number of one store names nothing in another.
 *   6. malloc, realloc and free are one allocator, of blocks aligned to 16 bytes. No call is made from a
 *      signal handler, nor in the child of a fork.
 *
 * Times are microseconds since 1970. A call gives a code: 0 and more for an answer, less for a refusal,
 * which changes nothing but where it says so. Of a transaction, a ticket or a view it gives a number, which
 * names nothing once that was taken back: 65,536 may be out at a time.
 */
#ifndef TIMESTORE_H
#define TIMESTORE_H
#include <stdbool.h>
#include <stddef.h>
#include <stdint.h>
#ifdef __cplusplus
extern "C" {
#endif

/* The version of these headers, and of the library that is loaded. The first number, which is that of the shared
   library's name, rises where a function, a type, a code or what one means is changed or taken away, the second where
   something is added, the third where neither is. Which files a version reads is another matter: all that earlier ones
   wrote. */
#define TIMESTORE_VERSION "1.0.0"
#define TIMESTORE_VERSION_NUMBER 10000 /* 10,000 times the first number, 100 times the second, and the third */
const char *timestore_version(void);

/* A handle: an open store, or none. */
typedef struct ts {
    void *at;
    bool full;
} ts;
#define TS_EMPTY {NULL, false}

/* What a call tells besides its code. */
typedef struct ts_info {
    uint64_t a, b;
} ts_info;

/* A device call that is due: of a write the place and the length of its bytes; a sync has 0 in both. */
typedef struct ts_device {
    uint32_t kind, area;
    uint64_t at, len;
} ts_device;
enum { TS_NO_CALL = 0, TS_WRITE = 1, TS_SYNC = 2 };
enum { TS_STATUS = 0, TS_HEAP = 1, TS_ARCHIVE = 2 };
#define TS_WRITE_MOST 8192 /* no write is longer */

/* A row: record, from when on and up to when it had the value, whose len bytes lie at `at`. The values lie one
   after the other, in the order of their rows. */
typedef struct ts_row {
    uint64_t record, from, upto, at, len;
} ts_row;

/* A value as bytes: how many fields it has, 1 to 16, in a byte; then of each its length in a byte, and so
   many bytes. */
#define TS_VALUE_MOST 4097

/* Codes. The comment of a code says what info has with it. */
enum {
    TS_OK = 0,
    TS_NONE = 1,            /* there is no value; no device call is due */
    TS_WAITING = 2,         /* the commit waits; a: the ticket's new number */
    TS_READ_ONLY = 3,       /* nothing was written, the transaction is over; a: the time of its snapshot */
    TS_IN_DOUBT = 4,        /* the device failed before the commit was published: opened again, the store
                               has it or not */
    TS_PENDING = -1,        /* the last device call was not made yet */
    TS_CLOSED = -2,         /* the handle has no store */
    TS_UNKNOWN = -3,        /* no such transaction, ticket or view */
    TS_SMALL = -4,          /* too little room for the answer; info, or the device call, has what is needed */
    TS_NO_MEMORY = -5,
    TS_FAILED = -6,         /* a device call was refused */
    TS_STRANGER = -7,       /* a transaction, ticket or view of another store */
    TS_CONFLICT = -8,       /* a: relation, b: record of the least key that a later commit wrote too */
    TS_HEAP_FULL = -9,      /* the records need more extents than are free; where the log lies in the heap, the entry
                               of an archive or of a floor does */
    TS_STATUS_FULL = -10,   /* too few slots of the status log are left */
    TS_CLOCK_END = -11,     /* no commit time is left */
    TS_MISSING = -12,       /* a delete of what is not there */
    TS_TOO_MANY_KEYS = -13, /* a transaction writes at most 1,024 records */
    TS_BAD_VALUE = -14,     /* not the bytes of a value */
    TS_BEFORE_KEPT = -15,   /* a: the floor of the relation; history before it may be gone */
    TS_NOT_YET = -16,       /* a: the time of the last commit; a later one may still change the answer */
    TS_EMPTY_INTERVAL = -17,
    TS_DAMAGED = -18,       /* what a stop cannot leave. b: the area; a: of the status area the slot, of the heap
                               the chain's first extent, of the archive the first byte of the run or of the roll */
    TS_NOT_A_STORE = -19,
    TS_BUSY = -20,          /* one slot is written at a time: pump the other one; ts_open: the handle is full */
    TS_JOB_BUSY = -21,      /* an archive, a reclaim, a floor or a growth is being made */
    TS_NOTHING_TO_DO = -22, /* all versions that ended by then are archived; all that is archived is reclaimed;
                               the floor is as late */
    TS_ARCHIVE_FULL = -23,
    TS_BAD_SLOTS = -24,     /* a store has 16 to 65,536 slots; one of the endless profile a multiple of 16 extents from
                               64 to 1,048,576 */
    TS_IN_USE = -25,        /* a: the least open snapshot */
    TS_NEEDS_ARCHIVE = -26, /* the answer needs the archive, and none was lent */
    TS_WRONG_PROFILE = -27, /* ts_floor: this store has a floor for each relation; ts_floor_of: one for all */
    TS_NOT_GROWABLE = -28   /* it would have more than 65,536 slots, it has none, or the first timestore made it */
};

/* What a step did: ts_called tells it in a; of TS_PUBLISHED, b has the commits of the group. */
enum {
    TS_IDLE = 0,
    TS_WROTE = 1,
    TS_SYNCED = 2,
    TS_BODY_WRITTEN = 3,
    TS_BODY_SYNCED = 4,
    TS_GATE_WRITTEN = 5,
    TS_PUBLISHED = 6, /* of a job: it is done */
    TS_KEPT_WRITTEN = 7, /* of a reclaim: an extent of the values at its time, or of its base, is written */
    TS_KEPT_SYNCED = 8, /* these are synced; where the log lies in the heap a job's entry, but for its gate */
    TS_ZEROS_WRITTEN = 9, /* of a growth: zeros are written after the slots */
    TS_ZEROS_SYNCED = 10,
    TS_ENTRY_WRITTEN = 12, /* where the log lies in the heap: a job's entry is written, but for its gate */
    TS_GATE_CLOSED = 13, /* where the log lies in the heap: the gate where the log will end is closed */
    /* of a reclaim there: */
    TS_ROLL_WRITTEN = 14, /* a part of the names of archived commits is written */
    TS_ROLL_SYNCED = 15,
    TS_ROOT_WRITTEN = 16, /* the status area names the new base, which does not count yet */
    TS_ROOT_SYNCED = 17,
    TS_TURN_WRITTEN = 18 /* the base comes to count */
};
/* What ts_pump and ts_job_pump tell in a, where it is not TS_IDLE: the device call of the step is to be made. */
enum { TS_CALL_DUE = 11 };

/* The status area of a new store; a: its length, 512 + 512 slots. The host writes it from byte 512 on,
   syncs it, writes the first 512 bytes, and syncs it. The other two areas begin empty (b: 0). */
int32_t ts_format(uint32_t slots, uint8_t *out, size_t len, ts_info *info);

/* The same of the endless profile: the log lies in the heap, which may have so many extents. a: 512; b: 8,192, the zeros
   that the heap begins with. The host writes these, syncs the heap, writes the status area, and syncs it. The archive
   begins empty. This profile is being made: later versions may not read what this one wrote. */
int32_t ts_format_endless(uint32_t extents, uint8_t *out, size_t len, ts_info *info);

/* Opens the store of these bytes; a: the time of the last commit, b: the floor of all relations. TS_NOT_A_STORE and
   TS_DAMAGED by the first rule of the format that they break. The mark is a number of the host's own, whose lowest
   15 bits each number of this store has. */
int32_t ts_open(ts *h, const uint8_t *status, size_t status_len, const uint8_t *heap, size_t heap_len,
                const uint8_t *archive, size_t archive_len, uint64_t mark, ts_info *info);

/* Ends the store: what waits is not published, all numbers name nothing. */
int32_t ts_close(ts *h);

/* a: the time of the last commit, b: the floor of all relations, 0 where each has one of its own. */
int32_t ts_last(ts *h, ts_info *info);

/* The device call that is due, with the bytes of a write, as often as it is asked; TS_NONE where none is. */
int32_t ts_call(ts *h, ts_device *call, uint8_t *out, size_t len);

/* The device call was made; a and b: what its step did. Only then are the commits of a group published. Or it was
   refused, which gives TS_FAILED. TS_NONE where none is due. */
int32_t ts_called(ts *h, bool made, ts_info *info);

/* A transaction on what is published; a: its number, b: the time of its snapshot. */
int32_t ts_begin(ts *h, ts_info *info);
int32_t ts_put(ts *h, uint64_t txn, uint16_t relation, uint64_t record, const uint8_t *value, size_t len);
int32_t ts_delete(ts *h, uint64_t txn, uint16_t relation, uint64_t record);

/* What the transaction sees, its own writes over its snapshot; a: the value's length. */
int32_t ts_get(ts *h, uint64_t txn, uint16_t relation, uint64_t record, uint8_t *out, size_t len,
               ts_info *info);

/* The records that it sees in a relation, in rising order; a: how many, b: the bytes of their values. */
int32_t ts_scan(ts *h, uint64_t txn, uint16_t relation, ts_row *rows, size_t row_count, uint8_t *out,
                size_t len, ts_info *info);

/* Queues its writes as a commit, with a label, at the time now or just after the last commit; a: the number
   of its ticket. The transaction is over, also where it is refused, but for TS_PENDING. */
int32_t ts_submit(ts *h, uint64_t txn, uint64_t label, uint64_t now, ts_info *info);
int32_t ts_abort(ts *h, uint64_t txn);

/* The next step of the group of commits that is being written; a: TS_CALL_DUE, or TS_IDLE where there is none. */
int32_t ts_pump(ts *h, ts_info *info);

/* Whether the ticket's commit is published, TS_OK; a: its time. The ticket is spent. */
int32_t ts_redeem(ts *h, uint64_t ticket, ts_info *info);

/* Spends a ticket; its commit goes its way. */
int32_t ts_give_up(ts *h, uint64_t ticket);

/* What is published now, which later commits do not change; a: the number of the view. */
int32_t ts_view(ts *h, ts_info *info);
int32_t ts_end(ts *h, uint64_t view);

/* The value of a record at a time; a: its length. From memory alone: TS_NEEDS_ARCHIVE at a time before the
   view's last reclaim. */
int32_t ts_recent(ts *h, uint64_t view, uint16_t relation, uint64_t record, uint64_t time, uint8_t *out,
                  size_t len, ts_info *info);

/* The queries below are lent the archive area for the call; the store keeps nothing of it. It is read only at
   times before the view's last reclaim. A store without a reclaim needs none: with archive_len 0 memory alone
   answers, as in ts_recent. */

/* The value of a record at a time; a: its length. */
int32_t ts_at(ts *h, uint64_t view, uint16_t relation, uint64_t record, uint64_t time, const uint8_t *archive,
              size_t archive_len, uint8_t *out, size_t len, ts_info *info);

/* The records of a relation that have a value at a time; as ts_scan. */
int32_t ts_scan_at(ts *h, uint64_t view, uint16_t relation, uint64_t time, const uint8_t *archive,
                   size_t archive_len, ts_row *rows, size_t row_count, uint8_t *out, size_t len, ts_info *info);

/* The values of a record from one time up to another, by rising time; as ts_scan. */
int32_t ts_between(ts *h, uint64_t view, uint16_t relation, uint64_t record, uint64_t from, uint64_t upto,
                   const uint8_t *archive, size_t archive_len, ts_row *rows, size_t row_count, uint8_t *out,
                   size_t len, ts_info *info);

/* The same of a relation's records, by record and then by time. */
int32_t ts_scan_between(ts *h, uint64_t view, uint16_t relation, uint64_t from, uint64_t upto,
                        const uint8_t *archive, size_t archive_len, ts_row *rows, size_t row_count,
                        uint8_t *out, size_t len, ts_info *info);

/* The times of the commits with a label, rising; a: how many. It is lent the archive as those queries are: where the log
   lies in the heap, the names of the commits up to the last reclaim are read there. */
int32_t ts_times_of(ts *h, uint64_t label, const uint8_t *archive, size_t archive_len, uint64_t *times, size_t count,
                    ts_info *info);

/* Begins a copy of the versions that ended by a time into the archive. It takes a slot or, where the log lies in the
   heap, an extent. */
int32_t ts_archive(ts *h, uint64_t upto, ts_info *info);

/* Begins a reclaim: once it is done the heap and memory have only what ended after the last archive; where the log
   lies in the heap, memory once the store is opened again. Open views keep what they have. TS_IN_USE while an open
   transaction reads below that. */
int32_t ts_reclaim(ts *h, ts_info *info);

/* Begins to raise the floor of a relation to a time: once it is done views that are taken answer TS_BEFORE_KEPT
   before it where they are asked of that relation, and an archive leaves out what ended of it by then. Open views
   keep what they have. TS_IN_USE while an open transaction reads before it. */
int32_t ts_floor_of(ts *h, uint16_t relation, uint64_t time, ts_info *info);

/* The same of all relations together, in a store that an earlier timestore made; there ts_floor_of is refused. */
int32_t ts_floor(ts *h, uint64_t time, ts_info *info);

/* Begins to make 256 slots more: once that is done the status area has 131,072 bytes more, and the store so many
   slots more. It takes no slot and holds up no commit. */
int32_t ts_grow(ts *h, ts_info *info);

/* The next step of the archive, the reclaim, the floor or the growth that is being made, as ts_pump. */
int32_t ts_job_pump(ts *h, ts_info *info);

#ifdef __cplusplus
}
#endif
#endif
