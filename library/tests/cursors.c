/* Cursors: cursors FOLDER, one that is there. They give what the queries give, and no query is made twice but the first that
 * finds much. What is called of the store and of the system is wrapped. */
#define _GNU_SOURCE
#include "check.h"
#include <pthread.h>
#include <sys/mman.h>
#include <sys/stat.h>
#include <timestore_shared.h>

enum { RECORDS = 3000, EACH = 1000, TIMES = 3, MOST = RECORDS * TIMES, SIZE = 1 << 24, MANY = 20, SMALL = 1, LARGE = 2 };

static ts_row rows[MOST];
static uint8_t values[SIZE];
static uint8_t archive[1];

/* ---- what is wrapped */

static int asked;
static bool has_no_addresses;
static int refused; /* of the next allocations and mappings the one of this number, from 1, is refused */

int32_t __real_ts_scan_at(ts *h, uint64_t view, uint16_t relation, uint64_t time, const uint8_t *lent, size_t lent_len,
                          ts_row *found, size_t row_count, uint8_t *out, size_t len, ts_info *info);
int32_t __wrap_ts_scan_at(ts *h, uint64_t view, uint16_t relation, uint64_t time, const uint8_t *lent, size_t lent_len,
                          ts_row *found, size_t row_count, uint8_t *out, size_t len, ts_info *info) {
    asked++;
    return __real_ts_scan_at(h, view, relation, time, lent, lent_len, found, row_count, out, len, info);
}

void *__real_mmap(void *at, size_t len, int protection, int flags, int fd, off_t offset);
void *__wrap_mmap(void *at, size_t len, int protection, int flags, int fd, off_t offset) {
    if ((refused > 0 && --refused == 0) || (has_no_addresses && len >= 1 << 30)) return MAP_FAILED;
    return __real_mmap(at, len, protection, flags, fd, offset);
}

void *__real_malloc(size_t len);
void *__wrap_malloc(size_t len) { return refused > 0 && --refused == 0 ? NULL : __real_malloc(len); }

void *__real_calloc(size_t count, size_t len);
void *__wrap_calloc(size_t count, size_t len) { return refused > 0 && --refused == 0 ? NULL : __real_calloc(count, len); }

/* ---- a store, and its queries of one piece */

static ts_shared *store;
static uint64_t view, last;

static void put_large(ts *h, uint64_t txn, uint64_t record) {
    uint8_t value[TS_VALUE_MOST] = {16};
    for (int field = 0; field < 16; field++) {
        value[1 + 256 * field] = 255;
        value[2 + 256 * field] = (uint8_t)record;
    }
    CHECK(TS_OK, ts_put(h, txn, LARGE, record, value, sizeof value));
}

/* Of each record, which is every other number, three values at three times; and relation 2, with one of the longest values of each. */
static void fill(const char *folder) {
    ts_info info;
    ts_file *file;
    CHECK(TS_OK, ts_file_format(folder, 1024));
    CHECK(TS_OK, ts_file_open(folder, &file, &info));
    ts *h = ts_file_store(file);
    for (uint64_t time = 1; time <= TIMES; time++)
        for (uint64_t part = 0; part < RECORDS / EACH; part++) {
            CHECK(TS_OK, ts_begin(h, &info));
            uint64_t txn = info.a;
            for (uint64_t i = part * EACH; i < (part + 1) * EACH; i++) {
                char text[256];
                snprintf(text, sizeof text, "%" PRIu64 " of %" PRIu64 "%*s", time, i, (int)(100 + i % 100), "");
                put_text(h, txn, 2 * i, text);
            }
            CHECK(TS_OK, ts_file_commit(file, txn, 9, 100 * time + part, &info));
            if (time != 1) continue;
            CHECK(TS_OK, ts_begin(h, &info));
            txn = info.a;
            for (uint64_t i = part * EACH; i < (part + 1) * EACH; i++) put_large(h, txn, 2 * i);
            CHECK(TS_OK, ts_file_commit(file, txn, 9, 100 * time + part, &info));
        }
    ts_file_close(file);
}

static bool is_within(const ts_row *row, uint64_t first, uint64_t upto) { return row->record >= first && row->record <= upto; }

/* Whether a cursor gives these of so many rows, in blocks of so many; it is freed. */
static void gives(ts_cursor *cursor, size_t count, uint64_t first, uint64_t upto, size_t most) {
    const ts_row *block;
    const uint8_t *bytes;
    size_t n = 0, i = 0;
    while (ts_cursor_next(cursor, most, &block, &n, &bytes) == TS_OK) {
        HOLDS(n > 0 && n <= most);
        for (size_t k = 0; k < n; k++, i++) {
            while (i < count && !is_within(&rows[i], first, upto)) i++;
            HOLDS(i < count && block[k].record == rows[i].record && block[k].from == rows[i].from && block[k].upto == rows[i].upto);
            HOLDS(block[k].len == rows[i].len && memcmp(bytes + block[k].at, values + rows[i].at, rows[i].len) == 0);
        }
    }
    while (i < count) HOLDS(!is_within(&rows[i++], first, upto));
    CHECK(TS_NONE, ts_cursor_next(cursor, most, &block, &n, &bytes));
    ts_cursor_free(cursor);
}

typedef struct range {
    uint64_t first, last;
    size_t most;
} range;
static const range RANGES[] = {
    {0, UINT64_MAX, 256}, {0, UINT64_MAX, 100000}, {1, UINT64_MAX - 1, 7},       {100, 200, 1},  {101, 199, 16},
    {7, 7, 5},            {8, 8, 5},               {2 * RECORDS, UINT64_MAX, 5}, {10, 9, 5},     {2 * RECORDS - 2, 2 * RECORDS, 1},
};
enum { RANGE_COUNT = sizeof RANGES / sizeof RANGES[0] };

static void cursors_of_a_store(void) {
    ts_info info;
    ts_cursor *cursor;
    for (int i = 0; i < RANGE_COUNT; i++) {
        const range *r = &RANGES[i];
        for (uint64_t time = 100; time <= last; time += 100) {
            CHECK(TS_OK, ts_shared_scan_at(store, view, 1, time, rows, MOST, values, SIZE, &info));
            size_t count = info.a;
            CHECK(TS_OK, ts_shared_cursor_at(store, view, 1, r->first, r->last, time, &cursor, &info));
            gives(cursor, count, r->first, r->last, r->most);
        }
        CHECK(TS_OK, ts_shared_scan_between(store, view, 1, 150, last, rows, MOST, values, SIZE, &info));
        size_t count = info.a;
        CHECK(TS_OK, ts_shared_cursor_between(store, view, 1, r->first, r->last, 150, last, &cursor, &info));
        gives(cursor, count, r->first, r->last, r->most);
    }
}

static void cursors_of_a_transaction(void) {
    ts_info info;
    ts_cursor *cursor;
    const uint8_t value[] = {1, 1, 'a'};
    CHECK(TS_OK, ts_shared_begin(store, &info));
    uint64_t txn = info.a;
    CHECK(TS_OK, ts_shared_txn_put(store, txn, 1, 151, value, sizeof value));
    CHECK(TS_OK, ts_shared_txn_delete(store, txn, 1, 8));
    CHECK(TS_OK, ts_shared_txn_scan(store, txn, 1, rows, MOST, values, SIZE, &info));
    size_t count = info.a;
    for (int i = 0; i < RANGE_COUNT; i++) {
        const range *r = &RANGES[i];
        CHECK(TS_OK, ts_shared_cursor_of(store, txn, 1, r->first, r->last, &cursor, &info));
        gives(cursor, count, r->first, r->last, r->most);
    }
    CHECK(TS_OK, ts_shared_abort(store, txn));
    CHECK(TS_UNKNOWN, ts_shared_cursor_of(store, txn, 1, 0, 9, &cursor, &info));
}

/* A refusal is that of the query, with what it tells, also of one record alone and of none. */
static void what_is_refused(void) {
    ts_info info;
    ts_cursor *cursor;
    for (int i = 0; i < RANGE_COUNT; i++) {
        const range *r = &RANGES[i];
        CHECK(TS_NOT_YET, ts_shared_cursor_at(store, view, 1, r->first, r->last, last + 1, &cursor, &info));
        HOLDS(info.a == last);
        CHECK(TS_EMPTY_INTERVAL, ts_shared_cursor_between(store, view, 1, r->first, r->last, 200, 200, &cursor, &info));
        CHECK(TS_UNKNOWN, ts_shared_cursor_at(store, view + 1, 1, r->first, r->last, 100, &cursor, &info));
    }
}

static ts_cursor *all_of(uint16_t relation) {
    ts_info info;
    ts_cursor *cursor;
    CHECK(TS_OK, ts_shared_cursor_at(store, view, relation, 0, UINT64_MAX, last, &cursor, &info));
    return cursor;
}

static size_t rows_of(uint16_t relation) {
    ts_info info;
    CHECK(TS_OK, ts_shared_scan_at(store, view, relation, last, rows, MOST, values, SIZE, &info));
    return info.a;
}

/* ---- how often, and in which memory */

/* Whether this often a query is made for a cursor over a relation, which gives all. */
static bool is_asked(int times, uint16_t relation) {
    size_t count = rows_of(relation);
    asked = 0;
    gives(all_of(relation), count, 0, UINT64_MAX, 64);
    return asked == times;
}

static void a_query_is_made_once(void) {
    HOLDS(is_asked(1, SMALL));
    HOLDS(is_asked(2, LARGE)); /* the first of this process that finds more than a cursor has room for */
    HOLDS(is_asked(1, LARGE) && is_asked(1, SMALL));
    size_t count = rows_of(LARGE);
    ts_cursor *all[MANY];
    asked = 0;
    for (int i = 0; i < MANY; i++) all[i] = all_of(LARGE);
    for (int i = 0; i < MANY; i++) gives(all[i], count, 0, UINT64_MAX, 1000);
    HOLDS(asked == MANY && is_asked(1, LARGE));
}

/* Without addresses it is made once more. */
static void without_addresses(void) {
    has_no_addresses = true;
    HOLDS(is_asked(2, LARGE) && is_asked(2, SMALL));
    has_no_addresses = false;
    HOLDS(is_asked(1, LARGE));
}

/* Of the cursor, and of each of its two mappings, with addresses for much and without. */
static void without_memory(void) {
    ts_info info;
    ts_cursor *cursor;
    size_t count = rows_of(LARGE);
    int refusals = 0;
    for (int nth = 1; nth <= 8; nth++) {
        has_no_addresses = nth > 4;
        refused = (nth - 1) % 4 + 1;
        int32_t code = ts_shared_cursor_at(store, view, LARGE, 0, UINT64_MAX, last, &cursor, &info);
        refused = 0;
        if (code == TS_OK) gives(cursor, count, 0, UINT64_MAX, 64);
        else CHECK(TS_NO_MEMORY, code);
        refusals += code != TS_OK;
        gives(all_of(LARGE), count, 0, UINT64_MAX, 64);
    }
    HOLDS(refusals >= 2);
    has_no_addresses = false;
    ts_cursor_free(NULL);
}

/* How many bytes of addresses the process has. */
static uint64_t addresses(void) {
    uint64_t pages;
    FILE *file = fopen("/proc/self/statm", "r");
    HOLDS(file && fscanf(file, "%" SCNu64, &pages) == 1);
    fclose(file);
    return pages * 4096;
}

/* A cursor that is made has no more addresses than it needs: who locks all of them in memory takes no more than that. */
static void addresses_are_given_back(void) {
    size_t count = rows_of(LARGE);
    uint64_t before = addresses();
    ts_cursor *cursor = all_of(LARGE);
    HOLDS(addresses() - before < 2 * count * TS_VALUE_MOST);
    gives(cursor, count, 0, UINT64_MAX, 64);
    HOLDS(addresses() - before < 1 << 20);
}

/* Whether the system has memory for the page that a byte lies in. */
static bool has_memory(const void *at) {
    unsigned char has;
    HOLDS(mincore((void *)((uintptr_t)at & ~(uintptr_t)4095), 1, &has) == 0);
    return has & 1;
}

/* Values of more than a megabyte, of which the first are passed. */
static void what_is_passed_is_given_back(void) {
    ts_info info;
    ts_cursor *cursor;
    const ts_row *block;
    const uint8_t *bytes;
    size_t n;
    CHECK(TS_OK, ts_shared_cursor_between(store, view, 1, 0, UINT64_MAX, 100, last, &cursor, &info));
    CHECK(TS_OK, ts_cursor_next(cursor, 1, &block, &n, &bytes));
    const uint8_t *first = bytes + block->at;
    HOLDS(has_memory(first));
    uint64_t passed = 0;
    while (ts_cursor_next(cursor, 100, &block, &n, &bytes) == TS_OK) {
        HOLDS(has_memory(bytes + block->at) && has_memory(block));
        passed = block->at;
    }
    HOLDS(passed >= 1 << 20 && !has_memory(first));
    ts_cursor_free(cursor);
}

/* ---- a handle, and threads */

static void cursors_of_a_handle(const char *folder) {
    ts_info info;
    ts_file *file;
    ts_cursor *cursor;
    CHECK(TS_OK, ts_file_open(folder, &file, &info));
    ts *h = ts_file_store(file);
    CHECK(TS_OK, ts_view(h, &info));
    uint64_t number = info.a;
    CHECK(TS_OK, ts_scan_at(h, number, 1, last, archive, 0, rows, MOST, values, SIZE, &info));
    size_t count = info.a;
    for (int i = 0; i < RANGE_COUNT; i++) {
        const range *r = &RANGES[i];
        CHECK(TS_OK, ts_cursor_at(h, number, 1, r->first, r->last, last, archive, 0, &cursor, &info));
        gives(cursor, count, r->first, r->last, r->most);
    }
    CHECK(TS_OK, ts_cursor_between(h, number, 1, 8, 8, 100, last, archive, 0, &cursor, &info));
    CHECK(TS_OK, ts_begin(h, &info));
    ts_cursor *of_txn;
    CHECK(TS_OK, ts_cursor_of(h, info.a, 1, 0, UINT64_MAX, &of_txn, &info));
    CHECK(TS_OK, ts_end(h, number));
    ts_file_close(file); /* they need it no more */
    gives(of_txn, count, 0, UINT64_MAX, 9);
    const ts_row *block;
    const uint8_t *bytes;
    size_t n;
    CHECK(TS_OK, ts_cursor_next(cursor, 9, &block, &n, &bytes));
    HOLDS(n == TIMES && block[0].record == 8 && block[0].from == 100 && block[TIMES - 1].upto == last);
    ts_cursor_free(cursor);
}

static void *walks(void *none) {
    (void)none;
    for (int i = 0; i < 50; i++) {
        const ts_row *block;
        const uint8_t *bytes;
        size_t n, all = 0;
        ts_cursor *cursor = all_of(SMALL);
        while (ts_cursor_next(cursor, 97, &block, &n, &bytes) == TS_OK) {
            for (size_t k = 0; k < n; k++) HOLDS(block[k].record == 2 * (all + k) && bytes[block[k].at] == 1);
            all += n;
        }
        HOLDS(all == RECORDS);
        ts_cursor_free(cursor);
    }
    return NULL;
}

static void threads_have_cursors(void) {
    pthread_t all[8];
    for (int i = 0; i < 8; i++) HOLDS(pthread_create(&all[i], NULL, walks, NULL) == 0);
    for (int i = 0; i < 8; i++) HOLDS(pthread_join(all[i], NULL) == 0);
}

int main(int argc, char **argv) {
    if (argc != 2) return 2;
    ts_info info;
    fill(argv[1]);
    CHECK(TS_OK, ts_shared_open(argv[1], &store, &info));
    CHECK(TS_OK, ts_shared_view(store, &info));
    view = info.a;
    last = info.b;
    cursors_of_a_store();
    cursors_of_a_transaction();
    what_is_refused();
    a_query_is_made_once();
    without_addresses();
    without_memory();
    addresses_are_given_back();
    what_is_passed_is_given_back();
    threads_have_cursors();
    ts_shared_free(store);
    cursors_of_a_handle(argv[1]);
    return 0;
}
