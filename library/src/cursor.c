/* Cursors. How much a query finds is known once it was made. So that none is made again for want of room, each has more room
 * than most queries fill: the system gives memory for it as it is written to. Once one has found more than that, those that
 * may find much have addresses, while they are made, for more than the machine has memory. */
#define _GNU_SOURCE
#include "cursor.h"
#include <stdatomic.h>
#include <stdlib.h>
#include <sys/mman.h>
#include <unistd.h>

enum { POOLED = 16 }; /* so many cursors are kept for the next queries */

/* The room of a cursor that is kept. It is no more, since a process may lock in memory all that it has. */
#define KEPT_ROWS ((size_t)3 << 20)
#define KEPT_VALUES ((size_t)5 << 20)
/* So much of it stays in memory. What a cursor has passed is given back by so much. */
#define WARM ((size_t)1 << 16)
#define PART ((size_t)1 << 20)

/* A mapping, and how much of it was written, and given back since. */
typedef struct part {
    uint8_t *at;
    size_t len, used, gone;
} part;

struct ts_cursor {
    part rows, values;
    size_t next, end; /* rows that are still to be given */
};

/* ---- memory */

static size_t in_pages(size_t len) {
    size_t page = (size_t)sysconf(_SC_PAGESIZE);
    return (len + page - 1) / page * page;
}

/* Addresses, which are not locked in memory, nor written where the process leaves a core. */
static bool map(part *p, size_t len) {
    uint8_t *at = mmap(NULL, len, PROT_NONE, MAP_PRIVATE | MAP_ANONYMOUS | MAP_NORESERVE, -1, 0);
    if (at == MAP_FAILED) return false;
    munlock(at, len);
    madvise(at, len, MADV_DONTDUMP);
    madvise(at, len, MADV_NOHUGEPAGE);
    *p = (part){.at = at, .len = len};
    if (mprotect(at, len, PROT_READ | PROT_WRITE) == 0) return true;
    munmap(at, len);
    *p = (part){.at = NULL};
    return false;
}

static void unmap(part *p) {
    if (p->at) munmap(p->at, p->len);
    *p = (part){.at = NULL};
}

/* Only what was written stays mapped. */
static void trim(part *p) {
    size_t len = in_pages(p->used > 0 ? p->used : 1);
    if (len < p->len) munmap(p->at + len, p->len - len);
    p->len = len < p->len ? len : p->len;
}

/* What lies before a place is not asked for any more. */
static void pass(part *p, size_t place) {
    size_t upto = place / PART * PART;
    if (upto <= p->gone) return;
    madvise(p->at + p->gone, upto - p->gone, MADV_DONTNEED);
    p->gone = upto;
}

/* It is as good as new. */
static void refresh(part *p) {
    if (p->used > WARM) madvise(p->at + WARM, p->used - WARM, MADV_DONTNEED);
    p->used = p->gone = 0;
}

static void drop_room(ts_cursor *c) {
    unmap(&c->rows);
    unmap(&c->values);
}

static bool has_room_of(ts_cursor *c, size_t rows, size_t values) {
    drop_room(c);
    return map(&c->rows, in_pages(rows)) && map(&c->values, in_pages(values));
}

/* Addresses for whatever a query may find. All values are in memory then, and of each row 16 bytes more, which has 40 here. */
static bool has_addresses(ts_cursor *c) {
    size_t pages = (size_t)sysconf(_SC_PHYS_PAGES), page = (size_t)sysconf(_SC_PAGESIZE);
    return pages <= SIZE_MAX / 8 / page && has_room_of(c, 3 * pages * page, pages * page);
}

/* Room for so much as a query has found, which is made again. */
static bool has_room_for(ts_cursor *c, const ts_info *found) {
    if (found->a >= SIZE_MAX / 2 / sizeof(ts_row) || found->b >= SIZE_MAX / 2) return false;
    return has_room_of(c, ((size_t)found->a + 1) * sizeof(ts_row), (size_t)found->b + 1);
}

/* ---- cursors that no query has */

static _Atomic(ts_cursor *) pool[POOLED];

static ts_cursor *take_pooled(void) {
    for (int i = 0; i < POOLED; i++) {
        ts_cursor *c = atomic_exchange(&pool[i], NULL);
        if (c) return c;
    }
    ts_cursor *c = calloc(1, sizeof *c);
    if (c && !has_room_of(c, KEPT_ROWS, KEPT_VALUES)) {
        drop_room(c);
        free(c);
        return NULL;
    }
    return c;
}

static bool is_pooled(ts_cursor *c) {
    if (c->rows.len != in_pages(KEPT_ROWS) || c->values.len != in_pages(KEPT_VALUES)) return false;
    refresh(&c->rows);
    refresh(&c->values);
    for (int i = 0; i < POOLED; i++) {
        ts_cursor *none = NULL;
        if (atomic_compare_exchange_strong(&pool[i], &none, c)) return true;
    }
    return false;
}

void ts_cursor_free(ts_cursor *c) {
    if (!c || is_pooled(c)) return;
    drop_room(c);
    free(c);
}

/* ---- queries */

int32_t tsi_as_rows(int32_t code, uint64_t record, ts_row *rows, size_t row_count, ts_info *info) {
    if (code == TS_NONE) *info = (ts_info){0, 0};
    if (code != TS_OK && code != TS_SMALL) return code == TS_NONE ? TS_OK : code;
    *info = (ts_info){1, info->a};
    if (row_count == 0) return TS_SMALL;
    if (code == TS_OK) rows[0] = (ts_row){record, 0, 0, 0, info->b};
    return code;
}

/* The first of so many rows whose record is this one or a later one. */
static size_t place_of(const ts_row *rows, size_t count, uint64_t record) {
    size_t from = 0;
    while (from < count) {
        size_t half = from + (count - from) / 2;
        if (rows[half].record < record) from = half + 1;
        else count = half;
    }
    return from;
}

static const ts_row *rows_of(const ts_cursor *c) { return (const ts_row *)(const void *)c->rows.at; }

/* Of what was found, the records that are asked for. */
static void set_found(ts_cursor *c, const asked *q, const ts_info *found) {
    size_t count = (size_t)found->a;
    c->rows.used = count * sizeof(ts_row);
    c->values.used = (size_t)found->b;
    c->next = place_of(rows_of(c), count, q->first);
    c->end = q->last == UINT64_MAX ? count : place_of(rows_of(c), count, q->last + 1);
    if (c->end < c->next) c->end = c->next;
}

/* Makes the query over the room that the cursor has. */
static int32_t make_query(asking_rows *query, const asked *q, ts_cursor *c, ts_info *info) {
    return query(q, (ts_row *)(void *)c->rows.at, c->rows.len / sizeof(ts_row), c->values.at, c->values.len, info);
}

/* Makes it over as many addresses as there may be; only what it fills stays. */
static int32_t make_large(asking_rows *query, const asked *q, ts_cursor *c, ts_info *info) {
    if (!has_addresses(c) && !has_room_for(c, info)) return TS_NO_MEMORY;
    int32_t code = make_query(query, q, c, info);
    while (code == TS_SMALL) code = has_room_for(c, info) ? make_query(query, q, c, info) : TS_NO_MEMORY;
    if (code != TS_OK) return code;
    set_found(c, q, info);
    trim(&c->rows);
    trim(&c->values);
    return TS_OK;
}

int32_t tsi_cursor_make(asking_rows *query, const asked *q, ts_cursor **cursor, ts_info *info) {
    static atomic_bool found_much;
    bool may_find_much = q->first < q->last && atomic_load(&found_much);
    ts_cursor *c = may_find_much ? calloc(1, sizeof *c) : take_pooled();
    if (!c) return TS_NO_MEMORY;
    *info = (ts_info){0, 0};
    int32_t code = may_find_much ? TS_SMALL : make_query(query, q, c, info);
    if (code == TS_OK) {
        set_found(c, q, info);
    } else if (code == TS_SMALL) {
        atomic_store(&found_much, true);
        code = make_large(query, q, c, info);
    }
    if (code == TS_OK) *cursor = c;
    else ts_cursor_free(c);
    return code;
}

int32_t ts_cursor_next(ts_cursor *c, size_t most, const ts_row **rows, size_t *count, const uint8_t **values) {
    size_t left = c->end - c->next;
    if (left == 0) return TS_NONE;
    *rows = rows_of(c) + c->next;
    *count = most < left ? most : left;
    *values = c->values.at;
    pass(&c->rows, c->next * sizeof(ts_row));
    pass(&c->values, (size_t)(*rows)->at);
    c->next += *count;
    return TS_OK;
}

/* ---- those of a handle */

static int32_t scan_of(const asked *q, ts_row *rows, size_t row_count, uint8_t *out, size_t len, ts_info *info) {
    if (q->first < q->last) return ts_scan(q->of, q->number, q->relation, rows, row_count, out, len, info);
    return tsi_as_rows(ts_get(q->of, q->number, q->relation, q->first, out, len, info), q->first, rows, row_count, info);
}

static int32_t scan_at(const asked *q, ts_row *rows, size_t row_count, uint8_t *out, size_t len, ts_info *info) {
    if (q->first < q->last)
        return ts_scan_at(q->of, q->number, q->relation, q->from, q->archive, q->archive_len, rows, row_count, out, len, info);
    int32_t code = ts_at(q->of, q->number, q->relation, q->first, q->from, q->archive, q->archive_len, out, len, info);
    return tsi_as_rows(code, q->first, rows, row_count, info);
}

static int32_t scan_between(const asked *q, ts_row *rows, size_t row_count, uint8_t *out, size_t len, ts_info *info) {
    if (q->first < q->last)
        return ts_scan_between(q->of, q->number, q->relation, q->from, q->upto, q->archive, q->archive_len, rows, row_count,
                               out, len, info);
    return ts_between(q->of, q->number, q->relation, q->first, q->from, q->upto, q->archive, q->archive_len, rows, row_count,
                      out, len, info);
}

int32_t ts_cursor_of(ts *h, uint64_t txn, uint16_t relation, uint64_t first, uint64_t last, ts_cursor **cursor, ts_info *info) {
    asked q = {.of = h, .number = txn, .relation = relation, .first = first, .last = last};
    return tsi_cursor_make(scan_of, &q, cursor, info);
}

int32_t ts_cursor_at(ts *h, uint64_t view, uint16_t relation, uint64_t first, uint64_t last, uint64_t time,
                     const uint8_t *archive, size_t archive_len, ts_cursor **cursor, ts_info *info) {
    asked q = {h, view, relation, first, last, time, 0, archive, archive_len};
    return tsi_cursor_make(scan_at, &q, cursor, info);
}

int32_t ts_cursor_between(ts *h, uint64_t view, uint16_t relation, uint64_t first, uint64_t last, uint64_t from, uint64_t upto,
                          const uint8_t *archive, size_t archive_len, ts_cursor **cursor, ts_info *info) {
    asked q = {h, view, relation, first, last, from, upto, archive, archive_len};
    return tsi_cursor_make(scan_between, &q, cursor, info);
}
