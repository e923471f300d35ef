/* Refuses each growth of memory in turn of the life of a store that threads share: shared_memory FOLDER, one that is there;
 * each trial has a folder of its own in it. What is refused memory is asked again, and answers as if it had not been; a commit
 * and a job that were on their way go on. It is linked with --wrap of malloc, calloc and realloc. */
#include "refused_memory.h"
#include <pthread.h>
#include <timestore_shared.h>

static uint64_t failures, waited, stopped_jobs;
static const char *folder;
static ts_shared *s;
static uint64_t last;

static void open_it(void) {
    ts_info info;
    DOES(ts_shared_open(folder, &s, &info));
    HOLDS(info.a >= last);
    last = info.a;
}

/* Whether a record had this text at a time. */
static void answers(uint64_t time) {
    uint8_t value[TS_VALUE_MOST];
    ts_info view, info;
    DOES(ts_shared_view(s, &view));
    DOES(ts_shared_at(s, view.a, 1, 7, time, value, sizeof value, &info));
    HOLDS(is_text_of(time, value, info.a));
    CHECK(TS_OK, ts_shared_end(s, view.a));
}

static void times(void) {
    uint64_t found[8];
    ts_info info;
    DOES(ts_shared_times_of(s, 9, found, 8, &info));
    HOLDS(are_times(found, info.a, last));
}

/* The store has failed: what was published answers, and it is opened again. */
static void failed(void) {
    ts_info info;
    failures++;
    CHECK(TS_FAILED, ts_shared_begin(s, &info));
    DOES(ts_shared_last(s, &info));
    HOLDS(info.a == last);
    times();
    if (last >= 100) answers(last);
    ts_shared_free(s);
    open_it();
}

static int32_t commit_text_at(uint64_t time, ts_info *info) {
    uint8_t value[258];
    int32_t code;
    size_t len = value_of(TEXTS[time / 100], value);
    ASK(code, ts_shared_put(s, 1, 7, value, len, 9, time, info));
    while (code == TS_WAITING) {
        waited++;
        code = ts_shared_resume(s, info->a, info);
    }
    return code;
}

/* A commit at this time; one that was in doubt is made again where the store does not have it. */
static void commit(uint64_t time) {
    while (last < time) {
        ts_info info;
        int32_t code = commit_text_at(time, &info);
        if (code == TS_OK) {
            HOLDS(info.a == time);
            last = time;
        } else {
            CHECK(TS_IN_DOUBT, code);
            failed();
        }
    }
}

typedef int32_t start(ts_info *info);
static int32_t start_archive(ts_info *info) { return ts_shared_archive(s, 200, info); }
static int32_t start_reclaim(ts_info *info) { return ts_shared_reclaim(s, info); }
static int32_t start_floor(ts_info *info) { return ts_shared_floor_of(s, 1, 150, info); }
static int32_t start_grow(ts_info *info) { return ts_shared_grow(s, info); }

/* A job, which goes on where memory was refused on its way. */
static void job(start *starts) {
    int32_t code;
    do {
        ts_info info;
        ASK(code, starts(&info));
        if (code == TS_JOB_BUSY) {
            stopped_jobs++;
            ASK(code, ts_shared_job(s));
        }
        if (code == TS_FAILED) failed();
        else if (code != TS_NOTHING_TO_DO) CHECK(TS_OK, code);
    } while (code == TS_FAILED);
}

/* A transaction of its own, which another one is ahead of. */
static void conflict(void) {
    ts_info one, other, info;
    DOES(ts_shared_begin(s, &one));
    DOES(ts_shared_begin(s, &other));
    DOES(ts_shared_txn_put(s, other.a, 1, 7, (const uint8_t *)"\1\1z", 3));
    CHECK(TS_OK, ts_shared_abort(s, other.a));
    DOES(ts_shared_txn_get(s, one.a, 1, 7, (uint8_t[8]){0}, 8, &info));
    CHECK(TS_READ_ONLY, ts_shared_commit(s, one.a, 0, 0, &info));
}

/* Whether a growth was refused. */
static bool live(uint64_t refuse) {
    grown = last = 0;
    refused_growth = refuse;
    DOES(ts_file_format(folder, 64));
    open_it();
    for (uint64_t time = 100; time <= 300; time += 100) commit(time);
    conflict();
    job(start_archive);
    job(start_reclaim);
    job(start_floor);
    job(start_grow);
    times();
    answers(150);
    ts_shared_free(s);
    open_it();
    answers(150);
    answers(300);
    ts_shared_free(s);
    return grown >= refuse;
}

static void *reclaim_on(void *arg) {
    int32_t code;
    ts_info info;
    ASK(code, ts_shared_reclaim(s, &info));
    if (code == TS_JOB_BUSY) ASK(code, ts_shared_job(s));
    if (code != TS_FAILED) CHECK(TS_OK, code);
    return arg;
}

/* The same of commits beside a reclaim on another thread: one may wait for memory while the reclaim's slot is in the writing. */
static void live_beside(uint64_t refuse) {
    pthread_t thread;
    ts_info info;
    int32_t code = TS_OK;
    last = 0;
    refused_growth = UINT64_MAX;
    CHECK(TS_OK, ts_file_format(folder, 64));
    open_it();
    commit(100);
    commit(200);
    CHECK(TS_OK, ts_shared_archive(s, 200, &info));
    grown = 0;
    refused_growth = refuse;
    HOLDS(pthread_create(&thread, NULL, reclaim_on, NULL) == 0);
    for (uint64_t time = 300; time <= 320 && code == TS_OK; time++) {
        code = commit_text_at(time, &info);
        if (code == TS_OK) last = info.a;
        else HOLDS(code == TS_IN_DOUBT || code == TS_FAILED);
    }
    HOLDS(pthread_join(thread, NULL) == 0);
    refused_growth = UINT64_MAX;
    failures += code != TS_OK;
    ts_shared_free(s);
    open_it();
    answers(150);
    answers(last);
    ts_shared_free(s);
}

int main(int argc, char **argv) {
    char path[4096];
    if (argc != 2) return 2;
    folder = path;
    uint64_t growth = 0;
    do new_folder(path, argv[1], "", ++growth);
    while (live(growth));
    for (uint64_t refuse = 1; refuse <= 60; refuse++) {
        new_folder(path, argv[1], "beside-", refuse);
        live_beside(refuse);
    }
    printf("refused %" PRIu64 " growths, %" PRIu64 " of them of a device call; %" PRIu64 " commits waited, %" PRIu64 " jobs stopped", growth - 1,
           failures, waited, stopped_jobs);
    HOLDS(growth - 1 >= 50 && failures > 0);
    return 0;
}
