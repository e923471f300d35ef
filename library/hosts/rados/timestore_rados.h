/* A host of timestore for areas that are objects of a Ceph pool, by librados: what a store has written outlasts its machine, and
 * another machine can take it over. The calls are those of timestore_file.h, and so is their meaning where nothing else is said. */
#ifndef TIMESTORE_RADOS_H
#define TIMESTORE_RADOS_H
#include <timestore_file.h>
#ifdef __cplusplus
extern "C" {
#endif

/* Where a store lies and how it is opened. The texts are not kept. */
typedef struct ts_rados_place {
    const char *conf;   /* the file ceph.conf; NULL for where librados looks for it */
    const char *user;   /* the client's name, without "client." */
    const char *pool;
    const char *store;  /* the store's name in the pool: the namespace of its objects, not empty */
    const char *folder; /* NULL: all three areas are in the pool. Else status and heap are files of this folder, and the archive alone
                           is in the pool */
    uint64_t cache;     /* the most bytes of the archive that are kept in memory, at least 1 MiB; 0: all of it is, once a query needs
                           it */
    uint32_t lease;     /* seconds after which an owner that says nothing may be replaced, 3 to 3,600; 0 for 30 */
    bool take_over;     /* take the store from an owner whose lease has not ended */
} ts_rados_place;

/* An open store. It keeps to what timestore.h asks of a host, but for its third point, which is its user's. It is the store's only
   owner: whoever takes the store over has the cluster refuse all its later writes. It has threads of its own, and does not live
   through a fork. */
typedef struct ts_rados ts_rados;

/* Codes besides those of timestore_file.h: TS_LOCKED says that another host owns the store, TS_SYSTEM that the cluster or the system
   refused a call, TS_OCCUPIED that the place has a store or a part of one. */
enum {
    TS_FENCED = -120, /* another host has taken the store over: nothing is written any more */
};

/* Why a call was refused. */
typedef struct ts_rados_cause {
    int32_t code;   /* TS_SYSTEM, TS_FENCED, TS_LOCKED, TS_NOT_A_STORE or TS_OCCUPIED */
    int error;      /* as errno has it, 0 where no call was made */
    char text[240]; /* what was asked, and what came */
} ts_rados_cause;

/* The cause of the device call that this store was refused, since which it is failed; of NULL, of the last call of this thread that
   was refused. TS_NONE where there was none; a store also fails where there was no memory. */
int32_t ts_rados_error(const ts_rados *host, ts_rados_cause *cause);

/* The text of a code, of these too. */
const char *ts_rados_text(int32_t code);

/* Makes a store of so many slots, 16 to 65,536, where the place has none. The pool and the folder are there. */
int32_t ts_rados_format(const ts_rados_place *place, uint32_t slots);

/* The same of the endless profile, as ts_file_format_endless. */
int32_t ts_rados_format_endless(const ts_rados_place *place, uint32_t extents);

/* Becomes the store's owner and opens it; a: the time of the last commit, b: the floor of all relations. TS_LOCKED where another owns
   it and is not to be replaced, TS_FENCED where one has taken it over meanwhile. Before anything is read the cluster refuses all writes
   of the earlier owner. Where it is refused there is nothing to close. */
int32_t ts_rados_open(const ts_rados_place *place, ts_rados **host, ts_info *info);

/* The store, for all calls but ts_open, ts_close, ts_call, ts_called, ts_pump and ts_job_pump. */
ts *ts_rados_store(ts_rados *host);

/* ts_pump and ts_job_pump with their device call, made or refused; a: what the step did. */
int32_t ts_rados_pump(ts_rados *host, ts_info *info);
int32_t ts_rados_job_pump(ts_rados *host, ts_info *info);

/* The archive area as it is now, to be lent to a query: at is not null, and len may be 0. It stays until the next call of this
   function or of ts_rados_close. It is no mapped file: its bytes come from the pool as the process reads them, and no call of the
   system may be given them. */
int32_t ts_rados_archive(ts_rados *host, const uint8_t **at, size_t *len);

/* Whether all bytes that were read of what was lent have come from the pool. Where this is refused, what a query answered since
   ts_rados_archive counts for nothing; it may be asked again. */
int32_t ts_rados_lent(ts_rados *host);

/* The queries of timestore.h, and the times of a label, lent the archive; TS_SYSTEM or TS_FENCED where a part of it could
   not be read. */
int32_t ts_rados_at(ts_rados *host, uint64_t view, uint16_t relation, uint64_t record, uint64_t time, uint8_t *out, size_t len,
                    ts_info *info);
int32_t ts_rados_scan_at(ts_rados *host, uint64_t view, uint16_t relation, uint64_t time, ts_row *rows, size_t row_count, uint8_t *out,
                         size_t len, ts_info *info);
int32_t ts_rados_between(ts_rados *host, uint64_t view, uint16_t relation, uint64_t record, uint64_t from, uint64_t upto, ts_row *rows,
                         size_t row_count, uint8_t *out, size_t len, ts_info *info);
int32_t ts_rados_scan_between(ts_rados *host, uint64_t view, uint16_t relation, uint64_t from, uint64_t upto, ts_row *rows,
                              size_t row_count, uint8_t *out, size_t len, ts_info *info);
int32_t ts_rados_times_of(ts_rados *host, uint64_t label, uint64_t *times, size_t count, ts_info *info);

/* All steps of all commits that wait, and of the archive, the reclaim, the floor or the growth that is being made. */
int32_t ts_rados_flush(ts_rados *host);
int32_t ts_rados_job(ts_rados *host);

/* Submits, flushes and redeems: TS_OK, a: the time of the commit; TS_IN_DOUBT where the device failed on the way; TS_WAITING where
   memory was refused there, a: the ticket. */
int32_t ts_rados_commit(ts_rados *host, uint64_t txn, uint64_t label, uint64_t now, ts_info *info);

/* A commit of one value, or of one deletion: as ts_rados_commit. */
int32_t ts_rados_put(ts_rados *host, uint16_t relation, uint64_t record, const uint8_t *value, size_t value_len, uint64_t label,
                     uint64_t now, ts_info *info);
int32_t ts_rados_delete(ts_rados *host, uint16_t relation, uint64_t record, uint64_t label, uint64_t now, ts_info *info);

/* The present, after the last commit: the value of a record, as ts_recent, and the records of a relation with their values, as
   ts_scan_at. They need no archive. */
int32_t ts_rados_get(ts_rados *host, uint16_t relation, uint64_t record, uint8_t *out, size_t len, ts_info *info);
int32_t ts_rados_scan(ts_rados *host, uint16_t relation, ts_row *rows, size_t row_count, uint8_t *out, size_t len, ts_info *info);

/* Gives the store back: the next owner replaces nobody, unless a device call was refused. */
void ts_rados_close(ts_rados *host);

#ifdef __cplusplus
}
#endif
#endif
