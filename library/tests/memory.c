/* Refuses each growth of memory in turn of a store's life: memory FOLDER, one that is there; each trial has a
 * folder of its own in it. A call that is refused memory is made again, and answers as if it had not been. Where
 * the device call could not be noted, the store is failed: it goes on answering, and is opened again.
 * It is linked with --wrap of malloc, calloc and realloc. */
#include "refused_memory.h"

static uint64_t failures;

typedef struct life {
    const char *folder;
    ts_file *file;
    uint64_t last;
} life;

static void open_life(life *l) {
    ts_info info;
    DOES(ts_file_open(l->folder, &l->file, &info));
    HOLDS(info.a >= l->last);
    l->last = info.a;
}

/* Whether a record had this text at a time. */
static void answers(life *l, uint64_t time) {
    ts *h = ts_file_store(l->file);
    uint8_t value[TS_VALUE_MOST];
    const uint8_t *archive;
    size_t len;
    ts_info view, info;
    DOES(ts_view(h, &view));
    DOES(ts_file_archive(l->file, &archive, &len));
    DOES(ts_at(h, view.a, 1, 7, time, archive, len, value, sizeof value, &info));
    HOLDS(is_text_of(time, value, info.a));
    CHECK(TS_OK, ts_end(h, view.a));
}

/* The times of the commits, of which the last may be that of one in doubt. */
static void times(life *l, uint64_t last) {
    uint64_t found[8];
    ts_info info;
    DOES(ts_times_of(ts_file_store(l->file), 9, NONE, found, 8, &info));
    HOLDS(are_times(found, info.a, last));
}

/* The store has failed: what was published answers, and it is opened again. */
static void failed(life *l) {
    ts *h = ts_file_store(l->file);
    ts_info info;
    failures++;
    CHECK(TS_FAILED, ts_begin(h, &info));
    CHECK(TS_OK, ts_last(h, &info));
    HOLDS(info.a == l->last);
    times(l, l->last);
    if (l->last >= 100) answers(l, l->last);
    ts_file_close(l->file);
    open_life(l);
}

/* A commit at this time; one that was in doubt is made again where the store does not have it. */
static void commit(life *l, uint64_t time) {
    while (l->last < time) {
        ts *h = ts_file_store(l->file);
        ts_info txn, info;
        uint8_t value[258];
        size_t len = value_of(TEXTS[time / 100], value);
        DOES(ts_begin(h, &txn));
        DOES(ts_put(h, txn.a, 1, 7, value, len));
        int32_t code = ts_submit(h, txn.a, 9, time, &info);
        if (code == TS_NO_MEMORY) continue;
        CHECK(TS_OK, code);
        uint64_t ticket = info.a;
        ASK(code, ts_file_flush(l->file));
        if (code == TS_OK) {
            CHECK(TS_OK, ts_redeem(h, ticket, &info));
            HOLDS(info.a == time);
            l->last = time;
        } else {
            CHECK(TS_FAILED, code);
            CHECK(TS_IN_DOUBT, ts_redeem(h, ticket, &info));
            failed(l);
        }
    }
}

typedef int32_t start(ts *h, ts_info *info);
static int32_t start_archive(ts *h, ts_info *info) { return ts_archive(h, 200, info); }
static int32_t start_reclaim(ts *h, ts_info *info) { return ts_reclaim(h, info); }
static int32_t start_floor(ts *h, ts_info *info) { return ts_floor_of(h, 1, 150, info); }
static int32_t start_grow(ts *h, ts_info *info) { return ts_grow(h, info); }

/* A job, begun again where the device call could not be noted and the store does not have it. */
static void job(life *l, start *starts) {
    int32_t code;
    do {
        ts_info info;
        ASK(code, starts(ts_file_store(l->file), &info));
        if (code == TS_NOTHING_TO_DO) return;
        CHECK(TS_OK, code);
        ASK(code, ts_file_job(l->file));
        if (code != TS_OK) {
            CHECK(TS_FAILED, code);
            failed(l);
        }
    } while (code != TS_OK);
}

static void rows(life *l) {
    ts *h = ts_file_store(l->file);
    ts_row found[4];
    uint8_t out[64];
    const uint8_t *archive;
    size_t len;
    ts_info view, info;
    DOES(ts_view(h, &view));
    DOES(ts_file_archive(l->file, &archive, &len));
    DOES(ts_between(h, view.a, 1, 7, 150, 301, archive, len, found, 4, out, sizeof out, &info));
    HOLDS(info.a == 3 && found[0].from == 150 && found[1].from == 200 && found[2].upto == 301);
    DOES(ts_scan_between(h, view.a, 1, 150, 301, archive, len, found, 4, out, sizeof out, &info));
    HOLDS(info.a == 3);
    DOES(ts_scan_at(h, view.a, 1, 199, archive, len, found, 4, out, sizeof out, &info));
    HOLDS(info.a == 1 && out[found[0].at + 2] == 'a');
    CHECK(TS_OK, ts_end(h, view.a));
}

/* A store whose log lies in the heap, which is made and opened. */
static void endless(const char *folder) {
    char path[4200];
    life l = {path, NULL, 0};
    snprintf(path, sizeof path, "%s/endless", folder);
    HOLDS(mkdir(path, 0777) == 0);
    DOES(ts_file_format_endless(path, 64));
    open_life(&l);
    ts_file_close(l.file);
}

/* Whether a growth was refused. */
static bool live(const char *folder, uint64_t refuse) {
    life l = {folder, NULL, 0};
    grown = 0;
    refused_growth = refuse;
    endless(folder);
    DOES(ts_file_format(folder, 64));
    open_life(&l);
    for (uint64_t time = 100; time <= 300; time += 100) commit(&l, time);
    job(&l, start_archive);
    job(&l, start_reclaim);
    job(&l, start_floor);
    job(&l, start_grow);
    rows(&l);
    times(&l, 300);
    ts_file_close(l.file);
    open_life(&l);
    answers(&l, 150);
    answers(&l, 300);
    ts_file_close(l.file);
    return grown >= refuse;
}

int main(int argc, char **argv) {
    char folder[4096];
    if (argc != 2) return 2;
    uint64_t growth = 0;
    do new_folder(folder, argv[1], "", ++growth);
    while (live(folder, growth));
    printf("refused %" PRIu64 " growths, %" PRIu64 " of them of a device call\n", growth - 1, failures);
    HOLDS(growth - 1 >= 50 && failures > 0);
    return 0;
}
