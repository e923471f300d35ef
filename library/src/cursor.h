/* What a query finds, in memory of a cursor. */
#ifndef CURSOR_H
#define CURSOR_H
#include "timestore_file.h"

/* What is asked: of a transaction or a view of this number, which records, and at which times. */
typedef struct asked {
    void *of; /* the store, as the query knows it */
    uint64_t number;
    uint16_t relation;
    uint64_t first, last; /* records */
    uint64_t from, upto;  /* times; of a scan at one time, from */
    const uint8_t *archive;
    size_t archive_len;
} asked;

/* A query that fills two buffers, as ts_scan. */
typedef int32_t asking_rows(const asked *q, ts_row *rows, size_t row_count, uint8_t *out, size_t len, ts_info *info);

/* A query of one record alone as one of rows: what a call answers that copies out a value. */
int32_t tsi_as_rows(int32_t code, uint64_t record, ts_row *rows, size_t row_count, ts_info *info);

/* Makes a query, and a cursor over those of its rows whose records are asked for. */
int32_t tsi_cursor_make(asking_rows *query, const asked *q, ts_cursor **cursor, ts_info *info);
#endif
