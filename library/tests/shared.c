/* A store that threads share: shared FOLDER, one that is there. Each trial has a folder of its own in it. */
#define _GNU_SOURCE
#include "check.h"
#include "faults.h"
#include <errno.h>
#include <pthread.h>
#include <semaphore.h>
#include <stdatomic.h>
#include <sys/stat.h>
#include <sys/wait.h>
#include <time.h>
#include <timestore_shared.h>
#include <unistd.h>

enum { THREADS = 8, COMMITS = 60 };

static const char *top;
static char folder[4200];
static ts_shared *s;
static ts_info info;

/* ---- what the trials share */

static void open_it(void) { CHECK(TS_OK, ts_shared_open(folder, &s, &info)); }

static void new_store(const char *name, uint32_t slots) {
    snprintf(folder, sizeof folder, "%s/%s", top, name);
    HOLDS(mkdir(folder, 0777) == 0);
    CHECK(TS_OK, ts_file_format(folder, slots));
    open_it();
}

static int32_t put_number(uint64_t record, uint64_t number, uint64_t label, ts_info *told) {
    char text[24];
    uint8_t value[258];
    snprintf(text, sizeof text, "%" PRIu64, number);
    size_t len = value_of(text, value);
    return ts_shared_put(s, 1, record, value, len, label, 0, told);
}

static int32_t txn_put(uint64_t txn, uint64_t record, const char *text) {
    uint8_t value[258];
    size_t len = value_of(text, value);
    return ts_shared_txn_put(s, txn, 1, record, value, len);
}

static uint64_t begin(void) {
    ts_info told;
    CHECK(TS_OK, ts_shared_begin(s, &told));
    return told.a;
}

/* Whether this is what a call gave. */
static bool is_text(int32_t code, const uint8_t *value, uint64_t len, const char *text) {
    uint8_t wanted[258];
    return code == TS_OK && len == value_of(text, wanted) && memcmp(value, wanted, len) == 0;
}

static bool view_has(uint64_t view, uint64_t record, uint64_t time, const char *text) {
    uint8_t value[TS_VALUE_MOST];
    ts_info told;
    int32_t code = ts_shared_at(s, view, 1, record, time, value, sizeof value, &told);
    return text ? is_text(code, value, told.a, text) : code == TS_NONE;
}

static bool stands_now(uint64_t record, const char *text) {
    uint8_t value[TS_VALUE_MOST];
    ts_info told;
    int32_t code = ts_shared_get(s, 1, record, value, sizeof value, &told);
    return text ? is_text(code, value, told.a, text) : code == TS_NONE;
}

/* What each of some threads was answered. */
typedef struct work {
    pthread_t thread;
    uint64_t number, done;       /* commits that were answered as done */
    uint64_t times[COMMITS + 1]; /* of those */
    int32_t code;                /* what ended it */
} work;

/* Commits rising numbers in a record of its own, until it is refused. */
static void *commit_numbers(void *arg) {
    work *w = arg;
    ts_info told;
    while (w->done < COMMITS && (w->code = put_number(w->number, w->done + 1, w->number, &told)) == TS_OK) w->times[w->done++] = told.a;
    return NULL;
}

static void start(work *works, void *(*does)(void *)) {
    for (uint64_t i = 0; i < THREADS; i++) {
        works[i] = (work){.number = i};
        HOLDS(pthread_create(&works[i].thread, NULL, does, &works[i]) == 0);
    }
}

static void join(work *works) {
    for (int i = 0; i < THREADS; i++) HOLDS(pthread_join(works[i].thread, NULL) == 0);
}

/* All that was answered as done stands in the files, and at most one commit more of each thread. */
static void compare(const work *works) {
    ts_file *file;
    char text[24];
    CHECK(TS_OK, ts_file_open(folder, &file, &info));
    ts *h = ts_file_store(file);
    CHECK(TS_OK, ts_view(h, &info));
    uint64_t view = info.a;
    for (const work *w = works; w < works + THREADS; w++) {
        uint64_t times[COMMITS + 1];
        CHECK(TS_OK, ts_times_of(h, w->number, NONE, times, COMMITS + 1, &info));
        HOLDS(info.a == w->done || info.a == w->done + 1);
        for (uint64_t n = 0; n < w->done; n++) {
            snprintf(text, sizeof text, "%" PRIu64, n + 1);
            HOLDS(times[n] == w->times[n] && has_text(h, view, w->number, w->times[n], text));
        }
    }
    ts_file_close(file);
}

/* ---- each call */

static void queries(uint64_t view, uint64_t first, uint64_t last) {
    ts_row rows[4];
    uint8_t out[64];
    uint64_t times[2];
    HOLDS(view_has(view, 7, first, "a") && view_has(view, 7, last, "b") && view_has(view, 8, first, NULL));
    CHECK(TS_OK, ts_shared_scan_at(s, view, 1, last, rows, 4, out, sizeof out, &info));
    HOLDS(info.a == 2 && rows[1].record == 8 && out[rows[0].at + 2] == 'b');
    CHECK(TS_OK, ts_shared_between(s, view, 1, 7, first, last + 1, rows, 4, out, sizeof out, &info));
    HOLDS(info.a == 2 && rows[0].from == first && rows[0].upto == last && rows[1].upto == last + 1);
    CHECK(TS_OK, ts_shared_scan_between(s, view, 1, first, last + 1, rows, 4, out, sizeof out, &info));
    HOLDS(info.a == 3);
    CHECK(TS_SMALL, ts_shared_scan_between(s, view, 1, first, last + 1, rows, 1, out, sizeof out, &info));
    HOLDS(info.a == 3);
    CHECK(TS_OK, ts_shared_times_of(s, 9, times, 2, &info));
    HOLDS(info.a == 2 && times[0] == first && times[1] == last);
    CHECK(TS_NOT_YET, ts_shared_at(s, view, 1, 7, last + 1, out, sizeof out, &info));
    HOLDS(info.a == last);
}

static void transactions(void) {
    uint8_t out[64];
    ts_row rows[4];
    uint64_t one = begin(), other = begin();
    CHECK(TS_OK, txn_put(one, 7, "b"));
    CHECK(TS_OK, txn_put(one, 8, "c"));
    CHECK(TS_OK, ts_shared_txn_get(s, one, 1, 7, out, sizeof out, &info));
    HOLDS(is_text(TS_OK, out, info.a, "b"));
    CHECK(TS_OK, ts_shared_txn_scan(s, one, 1, rows, 4, out, sizeof out, &info));
    HOLDS(info.a == 2);
    CHECK(TS_OK, ts_shared_txn_delete(s, other, 1, 7));
    CHECK(TS_OK, ts_shared_commit(s, one, 9, 0, &info));
    CHECK(TS_UNKNOWN, ts_shared_abort(s, one));
    CHECK(TS_CONFLICT, ts_shared_commit(s, other, 9, 0, &info));
    HOLDS(info.a == 1 && info.b == 7);
    CHECK(TS_READ_ONLY, ts_shared_commit(s, begin(), 0, 0, &info));
    other = begin();
    CHECK(TS_OK, ts_shared_abort(s, other));
    CHECK(TS_UNKNOWN, ts_shared_commit(s, other, 0, 0, &info));
    CHECK(TS_UNKNOWN, ts_shared_resume(s, other, &info));
}

static void jobs(uint64_t view, uint64_t first, uint64_t last) {
    uint64_t later;
    CHECK(TS_OK, ts_shared_archive(s, last, &info));
    CHECK(TS_NOTHING_TO_DO, ts_shared_archive(s, last, &info));
    CHECK(TS_OK, ts_shared_reclaim(s, &info));
    CHECK(TS_OK, ts_shared_view(s, &info));
    later = info.a;
    HOLDS(view_has(view, 7, first, "a") && view_has(later, 7, first, "a"));
    CHECK(TS_WRONG_PROFILE, ts_shared_floor(s, last, &info));
    CHECK(TS_OK, ts_shared_floor_of(s, 1, last, &info));
    CHECK(TS_OK, ts_shared_view(s, &info));
    uint8_t out[8];
    CHECK(TS_BEFORE_KEPT, ts_shared_at(s, info.a, 1, 7, first, out, sizeof out, &info));
    HOLDS(info.a == last && view_has(later, 7, first, "a"));
    CHECK(TS_OK, ts_shared_grow(s, &info));
    CHECK(TS_OK, ts_shared_job(s));
}

static void each_call(void) {
    ts_row rows[4];
    uint8_t out[64];
    new_store("each-call", 64);
    CHECK(TS_OK, ts_shared_put(s, 1, 7, (const uint8_t *)"\1\1a", 3, 9, 100, &info));
    HOLDS(info.a == 100 && stands_now(7, "a") && stands_now(8, NULL));
    CHECK(TS_BAD_VALUE, ts_shared_put(s, 1, 7, (const uint8_t *)"\1", 1, 9, 0, &info));
    CHECK(TS_MISSING, ts_shared_delete(s, 1, 8, 9, 0, &info));
    transactions();
    CHECK(TS_OK, ts_shared_last(s, &info));
    uint64_t last = info.a;
    CHECK(TS_OK, ts_shared_view(s, &info));
    HOLDS(info.b == last);
    uint64_t view = info.a;
    queries(view, 100, last);
    CHECK(TS_OK, ts_shared_delete(s, 1, 8, 0, 0, &info));
    CHECK(TS_OK, ts_shared_scan(s, 1, rows, 4, out, sizeof out, &info));
    HOLDS(info.a == 1 && rows[0].record == 7);
    jobs(view, 100, last);
    CHECK(TS_OK, ts_shared_end(s, view));
    CHECK(TS_UNKNOWN, ts_shared_end(s, view));
    CHECK(TS_UNKNOWN, ts_shared_at(s, view, 1, 7, 100, out, sizeof out, &info));
    ts_shared_free(s);
}

static void is_closed(void) {
    ts_cause cause;
    ts_policy policy = {.every = 1000};
    uint8_t out[8];
    CHECK(TS_CLOSED, ts_shared_last(s, &info));
    CHECK(TS_CLOSED, ts_shared_begin(s, &info));
    CHECK(TS_CLOSED, ts_shared_view(s, &info));
    CHECK(TS_CLOSED, ts_shared_get(s, 1, 7, out, sizeof out, &info));
    CHECK(TS_CLOSED, ts_shared_at(s, 0, 1, 7, 1, out, sizeof out, &info));
    CHECK(TS_CLOSED, ts_shared_end(s, 0));
    CHECK(TS_CLOSED, ts_shared_abort(s, 0));
    CHECK(TS_CLOSED, put_number(7, 1, 0, &info));
    CHECK(TS_CLOSED, ts_shared_commit(s, 0, 0, 0, &info));
    CHECK(TS_CLOSED, ts_shared_reclaim(s, &info));
    CHECK(TS_CLOSED, ts_shared_job(s));
    CHECK(TS_CLOSED, ts_shared_error(s, &cause));
    CHECK(TS_CLOSED, ts_shared_vacuum(s, &policy));
    CHECK(TS_CLOSED, ts_shared_close(s));
}

/* ---- what may go wrong while threads commit */

static void all_commit(void) {
    work works[THREADS];
    new_store("all-commit", 1024);
    start(works, commit_numbers);
    join(works);
    for (int i = 0; i < THREADS; i++) HOLDS(works[i].done == COMMITS);
    ts_shared_free(s);
    compare(works);
}

/* A device call that is refused: what was done stands, the others are in doubt, and the store answers on. */
static void refused(uint64_t call, int number) {
    work works[THREADS];
    ts_cause cause;
    char name[32];
    snprintf(name, sizeof name, "refused-%" PRIu64, call);
    new_store(name, 1024);
    CHECK(TS_OK, put_number(100, 1, 1000, &info));
    uint64_t txn = begin();
    CHECK(TS_OK, txn_put(txn, 101, "open"));
    faults_refuse_of_all(call, number);
    start(works, commit_numbers);
    join(works);
    faults_refuse_of_all(0, 0);
    for (int i = 0; i < THREADS; i++) HOLDS(works[i].code == TS_IN_DOUBT || works[i].code == TS_FAILED);
    CHECK(TS_OK, ts_shared_error(s, &cause));
    HOLDS(cause.number == number);
    HOLDS(stands_now(100, "1"));
    for (int i = 0; i < THREADS; i++) {
        char text[24];
        snprintf(text, sizeof text, "%" PRIu64, works[i].done);
        HOLDS(stands_now(works[i].number, works[i].done > 0 ? text : NULL));
    }
    CHECK(TS_FAILED, ts_shared_begin(s, &info));
    CHECK(TS_FAILED, ts_shared_commit(s, txn, 0, 0, &info));
    CHECK(TS_FAILED, ts_shared_reclaim(s, &info));
    CHECK(TS_OK, ts_shared_close(s));
    is_closed();
    ts_shared_free(s);
    compare(works);
}

/* A store that is closed while threads call it: what was done stands, and the others are told. */
static void closed(unsigned wait) {
    work works[THREADS];
    char name[32];
    snprintf(name, sizeof name, "closed-%u", wait);
    new_store(name, 1024);
    CHECK(TS_OK, txn_put(begin(), 7, "left open"));
    CHECK(TS_OK, ts_shared_view(s, &info));
    start(works, commit_numbers);
    usleep(wait);
    CHECK(TS_OK, ts_shared_close(s));
    is_closed();
    join(works);
    for (int i = 0; i < THREADS; i++) HOLDS(works[i].code == TS_CLOSED || works[i].done == COMMITS);
    ts_shared_free(s);
    compare(works);
}

/* A fork amid commits: the child has no store, and the parent goes on. */
static void forked(void) {
    work works[THREADS];
    ts_shared *other;
    new_store("forked", 1024);
    CHECK(TS_OK, ts_shared_view(s, &info));
    start(works, commit_numbers);
    for (int i = 0; i < 5; i++) {
        int state;
        pid_t child = fork();
        if (child == 0) {
            is_closed();
            CHECK(TS_LOCKED, ts_shared_open(folder, &other, &info));
            ts_shared_free(s);
            _exit(0);
        }
        HOLDS(child > 0 && waitpid(child, &state, 0) == child && WIFEXITED(state) && WEXITSTATUS(state) == 0);
    }
    join(works);
    CHECK(TS_ALREADY_OPEN, ts_shared_open(folder, &other, &info));
    ts_shared_free(s);
    compare(works);
}

static uint64_t left;

static void *leave_open(void *arg) {
    left = begin();
    CHECK(TS_OK, txn_put(left, 7, "left"));
    pthread_exit(arg);
}

/* Commits until it is cancelled. */
static void *commit_on(void *arg) {
    work *w = arg;
    ts_info told;
    for (uint64_t n = 1; n <= COMMITS; n++) {
        CHECK(TS_OK, put_number(w->number, n, w->number, &told));
        w->times[w->done++] = told.a;
        pthread_testcancel();
    }
    return NULL;
}

/* Threads that end with a transaction open, or are cancelled amid commits, hold up nobody. */
static void threads_end(void) {
    work works[THREADS];
    pthread_t thread;
    new_store("threads-end", 1024);
    HOLDS(pthread_create(&thread, NULL, leave_open, NULL) == 0 && pthread_join(thread, NULL) == 0);
    start(works, commit_on);
    for (int i = 0; i < THREADS; i += 2) pthread_cancel(works[i].thread);
    join(works);
    for (int i = 1; i < THREADS; i += 2) HOLDS(works[i].done == COMMITS);
    CHECK(TS_OK, ts_shared_last(s, &info));
    CHECK(TS_OK, ts_shared_archive(s, info.a, &info));
    CHECK(TS_IN_USE, ts_shared_reclaim(s, &info));
    CHECK(TS_OK, ts_shared_abort(s, left));
    CHECK(TS_OK, ts_shared_reclaim(s, &info));
    ts_shared_free(s);
    CHECK(TS_OK, ts_shared_open(folder, &s, &info));
    HOLDS(stands_now(7, "60"));
    ts_shared_free(s);
}

/* Transactions and views that go from thread to thread, by one number. */
static void *use_number(void *arg) {
    work *w = arg;
    HOLDS(view_has(left, 7, 100, "a"));
    w->code = ts_shared_commit(s, w->times[0], 1, 0, &info);
    return NULL;
}

static void handed_over(void) {
    work w = {.number = 1};
    new_store("handed-over", 64);
    CHECK(TS_OK, ts_shared_put(s, 1, 7, (const uint8_t *)"\1\1a", 3, 9, 100, &info));
    CHECK(TS_OK, ts_shared_view(s, &info));
    left = info.a;
    w.times[0] = begin();
    CHECK(TS_OK, txn_put(w.times[0], 7, "b"));
    HOLDS(pthread_create(&w.thread, NULL, use_number, &w) == 0 && pthread_join(w.thread, NULL) == 0);
    HOLDS(w.code == TS_OK && stands_now(7, "b"));
    CHECK(TS_OK, ts_shared_end(s, left));
    ts_shared_free(s);
}

/* A vacuum by policy, which also makes slots. */
static void vacuumed(void) {
    ts_policy policy = {.every = 2000, .keep = 20, .grows = true};
    uint8_t out[8];
    new_store("vacuumed", 16);
    CHECK(TS_NONE, ts_shared_vacuumed(s, &info));
    CHECK(TS_OK, ts_shared_vacuum(s, &policy));
    CHECK(TS_BUSY, ts_shared_vacuum(s, &policy));
    for (uint64_t n = 1; n <= 300;) {
        int32_t code = put_number(7, n, 1, &info);
        if (code == TS_STATUS_FULL) usleep(1000);
        else CHECK(TS_OK, code);
        n += code == TS_OK;
    }
    do {
        usleep(1000);
        CHECK(TS_OK, ts_shared_vacuumed(s, &info));
    } while (info.a < 3);
    CHECK(TS_OK, ts_shared_view(s, &info));
    uint64_t view = info.a;
    HOLDS(view_has(view, 7, 10, "10") && view_has(view, 7, 300, "300"));
    CHECK(TS_OK, ts_shared_close(s));
    CHECK(TS_CLOSED, ts_shared_vacuumed(s, &info));
    ts_shared_free(s);
    ts_file *file;
    CHECK(TS_OK, ts_file_open(folder, &file, &info));
    CHECK(TS_OK, ts_view(ts_file_store(file), &info));
    CHECK(TS_NEEDS_ARCHIVE, ts_recent(ts_file_store(file), info.a, 1, 7, 10, out, sizeof out, &info));
    ts_file_close(file);
}

/* The times of a label that commits 1 to this one have. */
static bool has_times(uint64_t label, uint64_t last) {
    uint64_t times[16];
    bool same = ts_shared_times_of(s, label, times, 16, &info) == TS_OK && info.a == last;
    for (uint64_t n = 0; n < last && same; n++) same = times[n] == n + 1;
    return same;
}

/* The same where the log lies in the heap, and it is refused nothing. Up to its mark the labels are in the archive. */
static void vacuumed_in_the_heap(void) {
    uint64_t times[16];
    ts_policy policy = {.every = 1000, .keep = 2, .grows = true};
    snprintf(folder, sizeof folder, "%s/vacuumed-in-the-heap", top);
    endless_format(folder);
    open_it();
    CHECK(TS_NOTHING_TO_DO, ts_shared_reclaim(s, &info));
    CHECK(TS_OK, ts_shared_vacuum(s, &policy));
    for (uint64_t n = 1; n <= 10; n++) CHECK(TS_OK, put_number(7, n, 1, &info));
    do {
        usleep(1000);
        CHECK(TS_OK, ts_shared_vacuumed(s, &info));
    } while (info.a < 2);
    CHECK(TS_OK, put_number(7, 11, 1, &info));
    CHECK(TS_OK, ts_shared_view(s, &info));
    HOLDS(view_has(info.a, 7, 1, "1") && view_has(info.a, 7, 11, "11"));
    CHECK(TS_OK, ts_shared_close(s));
    ts_shared_free(s);
    open_it();
    CHECK(TS_OK, ts_shared_view(s, &info));
    uint64_t view = info.a;
    HOLDS(has_times(1, 11));
    HOLDS(view_has(view, 7, 1, "1") && view_has(view, 7, 11, "11"));
    CHECK(TS_OK, ts_shared_archive(s, 11, &info));
    CHECK(TS_NOTHING_TO_DO, ts_shared_archive(s, 11, &info));
    HOLDS(view_has(view, 7, 1, "1"));
    CHECK(TS_OK, ts_shared_reclaim(s, &info));
    CHECK(TS_NOTHING_TO_DO, ts_shared_reclaim(s, &info));
    HOLDS(view_has(view, 7, 1, "1"));
    CHECK(TS_OK, ts_shared_view(s, &info));
    HOLDS(view_has(info.a, 7, 1, "1") && view_has(info.a, 7, 11, "11"));
    ts_shared_free(s);
    open_it();
    faults_refuse_reads(EIO);
    CHECK(TS_SYSTEM, ts_shared_times_of(s, 1, times, 16, &info));
    HOLDS(errno == EIO && was_caused(NULL, "pread", "archive", EIO));
    faults_refuse_reads(0);
    HOLDS(has_times(1, 11) && has_times(2, 0));
    ts_shared_free(s);
}

/* A file that can't be read is a refused query, and no more. */
static void unreadable(void) {
    uint8_t out[8];
    new_store("unreadable", 64);
    for (uint64_t n = 1; n <= 3; n++) CHECK(TS_OK, put_number(7, n, 1, &info));
    CHECK(TS_OK, ts_shared_archive(s, 3, &info));
    CHECK(TS_OK, ts_shared_reclaim(s, &info));
    CHECK(TS_OK, ts_shared_view(s, &info));
    uint64_t view = info.a;
    faults_refuse_reads(EIO);
    CHECK(TS_SYSTEM, ts_shared_at(s, view, 1, 7, 1, out, sizeof out, &info));
    HOLDS(errno == EIO && was_caused(NULL, "pread", "archive", EIO));
    faults_refuse_reads(0);
    HOLDS(view_has(view, 7, 1, "1"));
    ts_shared_free(s);
}

/* ---- an archive that is read while others do something */

enum { READ_RECORDS = 600, LATER = 100 }; /* their first values are more than is read under the lock */

static sem_t did_it;
static void *(*does)(void *);
static bool is_done_meanwhile;

static void *and_tell(void *arg) {
    does(arg);
    HOLDS(sem_post(&did_it) == 0);
    return NULL;
}

/* Has another thread do it, before an archive is read; so long it may take. */
static void let_another(void) {
    struct timespec until;
    pthread_t thread;
    HOLDS(pthread_create(&thread, NULL, and_tell, NULL) == 0 && pthread_detach(thread) == 0);
    clock_gettime(CLOCK_REALTIME, &until);
    until.tv_sec += 1;
    is_done_meanwhile = sem_timedwait(&did_it, &until) == 0;
    HOLDS(is_done_meanwhile || errno == ETIMEDOUT);
}

static void *commits(void *arg) {
    ts_info told;
    CHECK(TS_OK, put_number(READ_RECORDS, 1, 1, &told));
    return arg;
}

static uint64_t asked_view;

static void *asks_too(void *arg) {
    HOLDS(view_has(asked_view, 8, 1, "8 of 1"));
    return arg;
}

static void *ends_it(void *arg) {
    commits(arg); /* so that nothing else needs what that view is of */
    CHECK(TS_OK, ts_shared_end(s, asked_view));
    return arg;
}

static void *closes(void *arg) {
    CHECK(TS_OK, ts_shared_close(s));
    return arg;
}

/* A text that is as long as most values may be, and like no other. */
static const char *long_text(void) {
    static char text[220];
    static uint32_t chance = 1;
    for (size_t i = 0; i + 1 < sizeof text; i++) {
        chance = chance * 1664525 + 1013904223;
        text[i] = (char)('!' + (chance >> 24) % 90);
    }
    return text;
}

/* Two values of each record, at 1 and LATER, of which the first is in the archive alone. */
static void fill_archive(void) {
    char text[40];
    for (uint64_t time = 1; time <= LATER; time += LATER - 1) {
        uint64_t txn = begin();
        for (uint64_t n = 0; n < READ_RECORDS; n++) {
            snprintf(text, sizeof text, "%" PRIu64 " of %" PRIu64, n, time);
            CHECK(TS_OK, txn_put(txn, n, n == 8 ? text : long_text()));
        }
        CHECK(TS_OK, ts_shared_commit(s, txn, 1, time, &info));
    }
    CHECK(TS_OK, ts_shared_archive(s, info.a, &info));
    CHECK(TS_OK, ts_shared_reclaim(s, &info));
}

/* The same store, of which nothing of the archive was read. */
static void open_unread(void) {
    open_it();
    CHECK(TS_OK, ts_shared_view(s, &info));
    asked_view = info.a;
    HOLDS(sem_init(&did_it, 0, 0) == 0);
}

/* A query of the archive, amid whose reading another thread does that; its code. */
static int32_t asks_while(void *(*that)(void *)) {
    uint8_t out[TS_VALUE_MOST];
    ts_info told;
    does = that;
    faults_before("pread", let_another);
    int32_t code = ts_shared_at(s, asked_view, 1, 8, 1, out, sizeof out, &told);
    HOLDS(code != TS_OK || is_text(code, out, told.a, "8 of 1"));
    return code;
}

static void reads_without_the_lock(void) {
    new_store("reads", 256);
    fill_archive();
    ts_shared_free(s);
    open_unread();
    CHECK(TS_OK, asks_while(commits));
    HOLDS(is_done_meanwhile);
    ts_shared_free(s);
    open_unread();
    CHECK(TS_OK, asks_while(asks_too)); /* it waits for what the first one reads */
    HOLDS(!is_done_meanwhile && sem_wait(&did_it) == 0);
    ts_shared_free(s);
    open_unread();
    CHECK(TS_OK, asks_while(ends_it));
    HOLDS(is_done_meanwhile && !view_has(asked_view, 8, 1, "8 of 1"));
    ts_shared_free(s);
    open_unread();
    CHECK(TS_CLOSED, asks_while(closes)); /* that waits for it too */
    HOLDS(!is_done_meanwhile && sem_wait(&did_it) == 0);
    ts_shared_free(s);
    open_unread();
    faults_refuse_reads(EIO);
    CHECK(TS_SYSTEM, asks_while(commits));
    HOLDS(is_done_meanwhile && was_caused(NULL, "pread", "archive", EIO));
    faults_refuse_reads(0);
    HOLDS(view_has(asked_view, 8, 1, "8 of 1"));
    ts_shared_free(s);
}

/* So are the names of commits, which lie in the archive where the log lies in the heap. */
static void labels_are_read_without_the_lock(void) {
    uint64_t times[16];
    snprintf(folder, sizeof folder, "%s/labels", top);
    HOLDS(mkdir(folder, 0777) == 0);
    CHECK(TS_OK, ts_file_format_endless(folder, 256));
    open_it();
    fill_archive();
    ts_shared_free(s);
    open_unread();
    does = commits;
    faults_before("pread", let_another);
    CHECK(TS_OK, ts_shared_times_of(s, 1, times, 16, &info));
    HOLDS(is_done_meanwhile && info.a == 3 && times[0] == 1 && times[1] == LATER && times[2] == LATER + 1);
    ts_shared_free(s);
}

int main(int argc, char **argv) {
    if (argc != 2) return 2;
    top = argv[1];
    CHECK(TS_SYSTEM, ts_shared_open("/no/such/folder", &s, &info));
    HOLDS(errno == ENOENT);
    each_call();
    handed_over();
    all_commit();
    for (uint64_t call = 1; call <= 40; call += 3) refused(call, call % 2 ? EIO : ENOSPC);
    for (unsigned wait = 1; wait < 20000; wait *= 4) closed(wait);
    forked();
    threads_end();
    vacuumed();
    vacuumed_in_the_heap();
    unreadable();
    reads_without_the_lock();
    labels_are_read_without_the_lock();
    return 0;
}
