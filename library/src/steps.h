/* What the hosts share: the steps of a store with their device calls, and what is made of steps. */
#ifndef STEPS_H
#define STEPS_H
#include "timestore.h"

/* A store and the device of its host. The first member of the host's own struct. */
typedef struct tsi_host {
    ts store;
    bool (*make)(struct tsi_host *host, const ts_device *call); /* makes a device call; false where it was refused */
    uint8_t bytes[TS_WRITE_MOST];                               /* those of the write that is due */
} tsi_host;

/* A mark for each store that is opened. The host for files counts up from 0, the one for a pool down from the other end
   of what 15 bits hold, since each of their shared libraries has a count of its own. No two of the first 32,768 stores
   that a process opens have the same. */
typedef enum tsi_kind { TSI_FILES, TSI_POOL } tsi_kind;
uint64_t tsi_next_mark(tsi_kind kind);

/* A step of the group, or of the job, with its device call; what the step did is told. */
int32_t tsi_pump(tsi_host *host, ts_info *info);
int32_t tsi_job_pump(tsi_host *host, ts_info *info);

/* All steps of the group, or of the job. */
int32_t tsi_flush(tsi_host *host);
int32_t tsi_job(tsi_host *host);

/* The calls of timestore_file.h that end so. */
int32_t tsi_commit(tsi_host *host, uint64_t txn, uint64_t label, uint64_t now, ts_info *info);
int32_t tsi_put(tsi_host *host, uint16_t relation, uint64_t record, const uint8_t *value, size_t value_len, uint64_t label,
                uint64_t now, ts_info *info);
int32_t tsi_delete(tsi_host *host, uint16_t relation, uint64_t record, uint64_t label, uint64_t now, ts_info *info);
int32_t tsi_get(ts *store, uint16_t relation, uint64_t record, uint8_t *out, size_t len, ts_info *info);
int32_t tsi_scan(ts *store, uint16_t relation, ts_row *rows, size_t row_count, uint8_t *out, size_t len, ts_info *info);
#endif
