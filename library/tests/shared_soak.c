/* Sixteen threads over one store beside a small machine: shared_soak FOLDER MILLISECONDS SEED, one that is there. Writers
 * note what each commit that was answered as done wrote, and what its transaction had read; readers what views answered.
 * Behind them the machine, which is a list of those commits by their times, says what each was to be, in the open store
 * and in its files. A vacuum runs by policy. */
#define _GNU_SOURCE
#include "check.h"
#include <pthread.h>
#include <stdatomic.h>
#include <time.h>
#include <timestore_shared.h>
#include <unistd.h>

enum { WRITERS = 12, READERS = 4, THREADS = WRITERS + READERS, RECORDS = 12, COMMITS_MOST = 4000, ASKED_MOST = 20000, WRITES_MOST = 3 };
#define ABSENT 0 /* no number is written that is this */

/* What a commit wrote, or a transaction had read, of a record: a number, or nothing. */
typedef struct change {
    uint64_t record, number;
} change;

typedef struct commit {
    uint64_t time, snapshot, label; /* without a transaction of the test's own the snapshot is unknown: its time */
    size_t written, read;
    change writes[WRITES_MOST], reads[WRITES_MOST];
} commit;

/* What a view answered. */
typedef struct asked {
    uint64_t last, time;
    change was;
} asked;

typedef struct worker {
    pthread_t thread;
    uint64_t number, seed;
    size_t commits, conflicts, asks;
    commit *made;
    asked *told;
} worker;

static ts_shared *s;
static worker workers[THREADS];
static atomic_bool over;
static atomic_uint_fast64_t next_number = 1; /* each number is written once */
static commit *all;
static size_t count;

static uint64_t chance(worker *w, uint64_t below) {
    w->seed = w->seed * 6364136223846793005u + 1442695040888963407u;
    return (w->seed >> 33) % below;
}

static uint64_t a_number(void) { return atomic_fetch_add(&next_number, 1); }

static size_t spelled(uint64_t number, uint8_t *value) {
    char text[24];
    snprintf(text, sizeof text, "%" PRIu64, number);
    return value_of(text, value);
}

/* The number that a call gave. */
static uint64_t number_in(int32_t code, const uint8_t *value) {
    char text[24] = "";
    if (code == TS_NONE) return ABSENT;
    CHECK(TS_OK, code);
    HOLDS(value[0] == 1 && value[1] < sizeof text);
    memcpy(text, value + 2, value[1]);
    return strtoull(text, NULL, 10);
}

/* ---- writers */

/* Whether a commit was done; one that another was ahead of was not. */
static bool is_done(worker *w, int32_t code) {
    if (code == TS_OK) return true;
    if (code == TS_STATUS_FULL || code == TS_HEAP_FULL) usleep(1000); /* the vacuum makes room */
    else if (code != TS_MISSING) CHECK(TS_CONFLICT, code);
    w->conflicts += code == TS_CONFLICT;
    return false;
}

/* One call for one value, or for one deletion. */
static void commit_one(worker *w, commit *made) {
    uint8_t value[64];
    ts_info info;
    bool deletes = chance(w, 5) == 0;
    change it = {chance(w, RECORDS), deletes ? ABSENT : a_number()};
    int32_t code = deletes ? ts_shared_delete(s, 1, it.record, made->label, 0, &info)
                           : ts_shared_put(s, 1, it.record, value, spelled(it.number, value), made->label, 0, &info);
    if (!is_done(w, code)) return;
    made->time = made->snapshot = info.a;
    made->writes[made->written++] = it;
    w->commits++;
}

/* Reads some records and writes some, each once. */
static void fill(worker *w, uint64_t txn, commit *made) {
    uint8_t value[TS_VALUE_MOST];
    ts_info info;
    uint64_t first = chance(w, RECORDS);
    for (uint64_t i = 0; i < WRITES_MOST; i++) {
        change it = {(first + i) % RECORDS, ABSENT};
        it.number = number_in(ts_shared_txn_get(s, txn, 1, it.record, value, sizeof value, &info), value);
        made->reads[made->read++] = it;
        if (i > 0 && chance(w, 2)) continue;
        it.number = a_number();
        CHECK(TS_OK, ts_shared_txn_put(s, txn, 1, it.record, value, spelled(it.number, value)));
        made->writes[made->written++] = it;
    }
}

static void commit_transaction(worker *w, commit *made) {
    ts_info info;
    CHECK(TS_OK, ts_shared_begin(s, &info));
    uint64_t txn = info.a;
    made->snapshot = info.b;
    fill(w, txn, made);
    if (chance(w, 10) == 0) CHECK(TS_OK, ts_shared_abort(s, txn));
    else if (is_done(w, ts_shared_commit(s, txn, made->label, 0, &info))) {
        made->time = info.a;
        w->commits++;
    }
}

static void *write_on(void *arg) {
    worker *w = arg;
    while (!atomic_load(&over) && w->commits < COMMITS_MOST) {
        commit *made = &w->made[w->commits];
        *made = (commit){.label = chance(w, 3)};
        if (chance(w, 2)) commit_one(w, made);
        else commit_transaction(w, made);
    }
    return NULL;
}

/* ---- readers */

static void ask(worker *w, uint64_t view, uint64_t last) {
    uint8_t value[TS_VALUE_MOST];
    ts_info info;
    asked *it = &w->told[w->asks++];
    *it = (asked){last, chance(w, last + 1), {chance(w, RECORDS), ABSENT}};
    it->was.number = number_in(ts_shared_at(s, view, 1, it->was.record, it->time, value, sizeof value, &info), value);
}

static void *read_on(void *arg) {
    worker *w = arg;
    ts_info info;
    while (!atomic_load(&over) && w->asks < ASKED_MOST - 10) {
        CHECK(TS_OK, ts_shared_view(s, &info));
        uint64_t view = info.a;
        for (int i = 0; i < 10; i++) ask(w, view, info.b);
        CHECK(TS_OK, ts_shared_end(s, view));
        usleep((useconds_t)chance(w, 2000));
    }
    return NULL;
}

/* ---- the machine */

static int by_time(const void *a, const void *b) {
    uint64_t one = ((const commit *)a)->time, other = ((const commit *)b)->time;
    return one < other ? -1 : one > other;
}

static void gather_commits(void) {
    for (int i = 0; i < WRITERS; i++) count += workers[i].commits;
    all = calloc(count + 1, sizeof *all);
    HOLDS(all != NULL);
    commit *next = all;
    for (int i = 0; i < WRITERS; i++) {
        memcpy(next, workers[i].made, workers[i].commits * sizeof *all);
        next += workers[i].commits;
    }
    qsort(all, count, sizeof *all, by_time);
    for (size_t i = 1; i < count; i++) HOLDS(all[i - 1].time < all[i].time);
}

/* What a commit wrote in a record; NULL for nothing. */
static const change *written(const commit *c, uint64_t record) {
    for (size_t i = 0; i < c->written; i++)
        if (c->writes[i].record == record) return &c->writes[i];
    return NULL;
}

/* How many commits came by a time. */
static size_t made_by(uint64_t time) {
    size_t low = 0, high = count;
    while (low < high) {
        size_t mid = (low + high) / 2;
        if (all[mid].time <= time) low = mid + 1;
        else high = mid;
    }
    return low;
}

static uint64_t number_at(uint64_t record, uint64_t time) {
    for (size_t i = made_by(time); i-- > 0;) {
        const change *it = written(&all[i], record);
        if (it) return it->number;
    }
    return ABSENT;
}

/* A transaction reads its snapshot, and none that wrote a record too came between that and its commit. */
static void check_commit(size_t at) {
    const commit *c = &all[at];
    for (size_t i = 0; i < c->read; i++) HOLDS(number_at(c->reads[i].record, c->snapshot) == c->reads[i].number);
    for (size_t i = at; i-- > 0 && all[i].time > c->snapshot;)
        for (size_t k = 0; k < c->written; k++) HOLDS(!written(&all[i], c->writes[k].record));
}

static void check_reader(const worker *w) {
    for (const asked *it = w->told; it < w->told + w->asks; it++) HOLDS(number_at(it->was.record, it->time) == it->was.number);
}

/* The rows of a record are those of the machine. */
static void check_rows(uint64_t record, const ts_row *rows, uint64_t rows_count, const uint8_t *out, uint64_t end) {
    uint64_t found = 0;
    for (size_t i = 0; i < count; i++) {
        const change *it = written(&all[i], record);
        if (!it) continue;
        if (found > 0 && rows[found - 1].upto > all[i].time) HOLDS(!"a row goes on behind what came then");
        if (it->number == ABSENT) continue;
        HOLDS(found < rows_count && rows[found].from == all[i].time && number_in(TS_OK, out + rows[found].at) == it->number);
        HOLDS(rows[found].upto <= end);
        found++;
    }
    HOLDS(found == rows_count);
}

static void check_times(const uint64_t *times, uint64_t found, uint64_t label) {
    uint64_t next = 0;
    for (size_t i = 0; i < count; i++)
        if (all[i].label == label) HOLDS(next < found && times[next++] == all[i].time);
    HOLDS(next == found);
}

/* ---- what the store has in the end, open and opened again */

static ts_row *rows;
static uint8_t *out;
static uint64_t *times;

static void compare_open(void) {
    ts_info info;
    CHECK(TS_OK, ts_shared_view(s, &info));
    uint64_t view = info.a, end = info.b + 1;
    HOLDS(count == 0 || info.b == all[count - 1].time);
    for (uint64_t record = 0; record < RECORDS; record++) {
        CHECK(TS_OK, ts_shared_between(s, view, 1, record, 0, end, rows, count + 1, out, 64 * count + 64, &info));
        check_rows(record, rows, info.a, out, end);
    }
    for (uint64_t label = 0; label < 3; label++) {
        CHECK(TS_OK, ts_shared_times_of(s, label, times, count + 1, &info));
        check_times(times, info.a, label);
    }
    CHECK(TS_OK, ts_shared_end(s, view));
}

static void compare_files(const char *folder) {
    ts_file *file;
    ts_info info, view;
    const uint8_t *archive;
    size_t len;
    CHECK(TS_OK, ts_file_open(folder, &file, &info));
    uint64_t end = info.a + 1;
    ts *h = ts_file_store(file);
    CHECK(TS_OK, ts_view(h, &view));
    CHECK(TS_OK, ts_file_archive(file, &archive, &len));
    for (uint64_t record = 0; record < RECORDS; record++) {
        CHECK(TS_OK, ts_between(h, view.a, 1, record, 0, end, archive, len, rows, count + 1, out, 64 * count + 64, &info));
        check_rows(record, rows, info.a, out, end);
    }
    for (uint64_t label = 0; label < 3; label++) {
        CHECK(TS_OK, ts_times_of(h, label, archive, len, times, count + 1, &info));
        check_times(times, info.a, label);
    }
    ts_file_close(file);
}

static void start(uint64_t seed) {
    for (uint64_t i = 0; i < THREADS; i++) {
        worker *w = &workers[i];
        *w = (worker){.number = i, .seed = seed * 1000 + i};
        w->made = calloc(COMMITS_MOST, sizeof *w->made);
        w->told = calloc(ASKED_MOST, sizeof *w->told);
        HOLDS(w->made && w->told && pthread_create(&w->thread, NULL, i < WRITERS ? write_on : read_on, w) == 0);
    }
}

static void make_room(void) {
    rows = calloc(count + 1, sizeof *rows);
    out = calloc(count + 1, 64);
    times = calloc(count + 1, sizeof *times);
    HOLDS(rows && out && times);
}

int main(int argc, char **argv) {
    ts_policy policy = {.every = 10000, .keep = 200, .grows = true};
    ts_info info;
    if (argc != 4) return 2;
    CHECK(TS_OK, ts_file_format(argv[1], 1024));
    CHECK(TS_OK, ts_shared_open(argv[1], &s, &info));
    CHECK(TS_OK, ts_shared_vacuum(s, &policy));
    start(strtoull(argv[3], NULL, 10));
    usleep((useconds_t)(1000 * strtoull(argv[2], NULL, 10)));
    atomic_store(&over, true);
    size_t asks = 0, conflicts = 0;
    for (int i = 0; i < THREADS; i++) {
        HOLDS(pthread_join(workers[i].thread, NULL) == 0);
        asks += workers[i].asks;
        conflicts += workers[i].conflicts;
    }
    CHECK(TS_OK, ts_shared_vacuumed(s, &info));
    gather_commits();
    make_room();
    for (size_t i = 0; i < count; i++) check_commit(i);
    for (int i = WRITERS; i < THREADS; i++) check_reader(&workers[i]);
    compare_open();
    ts_shared_free(s);
    compare_files(argv[1]);
    printf("%zu commits, %zu conflicts, %zu answers, %" PRIu64 " jobs", count, conflicts, asks, info.a);
    HOLDS(count > 0 && asks > 0);
    for (int i = 0; i < THREADS; i++) {
        free(workers[i].made);
        free(workers[i].told);
    }
    free(all);
    free(rows);
    free(out);
    free(times);
    return 0;
}
