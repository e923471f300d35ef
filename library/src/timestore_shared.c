/* The calls of a store that threads share. */
#define _GNU_SOURCE
#include "committer.h"
#include "cursor.h"
#include "files.h"
#include <errno.h>
#include <signal.h>
#include <stdlib.h>

enum { VIEWS_MOST = 65536, STORES_MOST = 0x7fff };
#define NO_SEAT UINT32_MAX

/* ---- the stores that are open in this process */

static pthread_mutex_t open_lock = PTHREAD_MUTEX_INITIALIZER;
static ts_shared *open_stores;

/* A fork finds no thread within a call of a store, but for one that makes a device call. */
static void before_fork(void) {
    pthread_mutex_lock(&open_lock);
    for (ts_shared *s = open_stores; s; s = s->next) pthread_mutex_lock(&s->lock);
}

static void unlock_all(void) {
    for (ts_shared *s = open_stores; s; s = s->next) pthread_mutex_unlock(&s->lock);
    pthread_mutex_unlock(&open_lock);
}

/* The child has none of the threads that wait, nor the vacuum, nor those who come. */
static void in_child(void) {
    for (ts_shared *s = open_stores; s; s = s->next) {
        s->closing = s->is_child = true;
        atomic_store(&s->comers, 0);
        s->has_vacuum = false;
    }
    unlock_all();
    open_stores = NULL;
}

static void watch_forks(void) { pthread_atfork(before_fork, unlock_all, in_child); }

static void add_open(ts_shared *s) {
    static pthread_once_t once = PTHREAD_ONCE_INIT;
    pthread_once(&once, watch_forks);
    pthread_mutex_lock(&open_lock);
    s->next = open_stores;
    open_stores = s;
    pthread_mutex_unlock(&open_lock);
}

static void remove_open(const ts_shared *s) {
    pthread_mutex_lock(&open_lock);
    for (ts_shared **at = &open_stores; *at; at = &(*at)->next)
        if (*at == s) {
            *at = s->next;
            break;
        }
    pthread_mutex_unlock(&open_lock);
}

/* ---- opening and closing */

static void make_locks(ts_shared *s) {
    pthread_mutexattr_t kind;
    pthread_condattr_t clock;
    pthread_mutexattr_init(&kind);
    pthread_mutexattr_settype(&kind, PTHREAD_MUTEX_ADAPTIVE_NP);
    pthread_mutex_init(&s->lock, &kind);
    pthread_mutexattr_destroy(&kind);
    pthread_condattr_init(&clock);
    pthread_condattr_setclock(&clock, CLOCK_MONOTONIC);
    pthread_cond_init(&s->quiet, &clock);
    pthread_cond_init(&s->looks, &clock);
    pthread_condattr_destroy(&clock);
}

/* In a child it would wait for threads that only its parent has. */
static void drop_locks(ts_shared *s) {
    if (s->is_child) return;
    pthread_cond_destroy(&s->quiet);
    pthread_cond_destroy(&s->looks);
    pthread_mutex_destroy(&s->lock);
}

static void drop(ts_shared *s) {
    drop_locks(s);
    free(s->seats);
    free(s);
}

int32_t ts_shared_open(const char *folder, ts_shared **store, ts_info *info) {
    static atomic_uint_fast32_t opened;
    ts_shared *s = calloc(1, sizeof *s);
    if (!s) return TS_NO_MEMORY;
    int32_t code = ts_file_open(folder, &s->file, info);
    if (code != TS_OK) {
        int why = errno;
        free(s);
        errno = why;
        return code;
    }
    make_locks(s);
    s->free_seat = NO_SEAT;
    s->mark = atomic_fetch_add(&opened, 1) & STORES_MOST;
    tsi_renew(s); /* where there is no memory for it, it is taken when it is asked for */
    add_open(s);
    *store = s;
    return TS_OK;
}

/* Gives back what views stand for. */
static void end_views(ts_shared *s) {
    tsi_forget(s, s->latest);
    s->latest = NULL;
    for (uint32_t i = 0; i < s->seat_count; i++) {
        tsi_forget(s, s->seats[i].of);
        s->seats[i].of = NULL;
    }
}

int32_t ts_shared_close(ts_shared *s) {
    int state;
    int32_t code = tsi_enter(s, &state);
    if (code != TS_OK) return tsi_leave(s, state, code);
    s->closing = true;
    bool has_vacuum = s->has_vacuum;
    pthread_cond_signal(&s->looks);
    tsi_leave(s, PTHREAD_CANCEL_DISABLE, TS_OK);
    if (has_vacuum) pthread_join(s->vacuum, NULL);
    pthread_mutex_lock(&s->lock);
    while (s->within > 0 || s->leading) pthread_cond_wait(&s->quiet, &s->lock);
    end_views(s);
    ts_file *file = s->file;
    s->file = NULL;
    tsi_leave(s, PTHREAD_CANCEL_DISABLE, TS_OK);
    remove_open(s);
    ts_file_close(file);
    pthread_setcancelstate(state, NULL);
    return TS_OK;
}

void ts_shared_free(ts_shared *s) {
    ts_shared_close(s);
    if (s->is_child) {
        end_views(s);
        if (s->file) ts_file_close(s->file);
    }
    drop(s);
}

int32_t ts_shared_error(ts_shared *s, ts_cause *cause) {
    int state;
    int32_t code = tsi_enter(s, &state);
    if (code == TS_OK) code = ts_file_error(s->file, cause);
    return tsi_leave(s, state, code);
}

/* ---- requests */

static int32_t ask(ts_shared *s, kind kind, asking *call, words words, ts_info *info) {
    request r = {.call = call, .words = words, .kind = kind};
    return tsi_complete(s, &r, info);
}

/* A commit of one value, which may be made behind any other. */
static int32_t ask_one(ts_shared *s, asking *call, words words, ts_info *info) {
    request r = {.call = call, .words = words, .kind = COMMITS, .again = true};
    return tsi_complete(s, &r, info);
}

/* Submits what was written in a transaction, or gives it up. */
static int32_t submit_one(ts *store, uint64_t txn, int32_t code, const words *w, ts_info *info) {
    if (code == TS_OK) return ts_submit(store, txn, w->b, w->c, info);
    ts_abort(store, txn);
    return code;
}

static int32_t put_one(ts *store, const words *w, ts_info *info) {
    int32_t code = ts_begin(store, info);
    if (code != TS_OK) return code;
    uint64_t txn = info->a;
    code = ts_put(store, txn, w->relation, w->a, w->value, w->len);
    return submit_one(store, txn, code, w, info);
}

static int32_t delete_one(ts *store, const words *w, ts_info *info) {
    int32_t code = ts_begin(store, info);
    if (code != TS_OK) return code;
    uint64_t txn = info->a;
    return submit_one(store, txn, ts_delete(store, txn, w->relation, w->a), w, info);
}

static int32_t begin(ts *store, const words *w, ts_info *info) {
    (void)w;
    return ts_begin(store, info);
}

static int32_t submit(ts *store, const words *w, ts_info *info) { return ts_submit(store, w->a, w->b, w->c, info); }

static int32_t resume(ts *store, const words *w, ts_info *info) { return ts_redeem(store, w->a, info); }

/* ---- the archive, of which much may be new: that is read without the lock */

#define LITTLE ((uint64_t)1 << 16) /* no more than so much is read under it */
#define UNREAD (-1000)            /* no code of the store's: so much is to be read first */

/* Reads what is new. The lock is given up meanwhile; closing waits for the end. */
static int32_t read_new(ts_shared *s) {
    archive_part part;
    int state;
    int32_t code = tsi_file_begin_read(s->file, &part);
    if (code != TS_OK) return code;
    s->reading = true;
    s->within++;
    tsi_leave(s, PTHREAD_CANCEL_DISABLE, TS_OK);
    code = tsi_file_read(s->file, &part);
    tsi_enter(s, &state);
    tsi_file_end_read(s->file, code);
    s->reading = false;
    s->within--;
    pthread_cond_broadcast(&s->quiet);
    return code;
}

/* The archive as it is now, with the lock, which may be given up meanwhile. */
static int32_t lend_archive(ts_shared *s, const uint8_t **at, size_t *len) {
    int32_t code = TS_OK;
    while (code == TS_OK && !s->closing && tsi_file_unread(s->file) > LITTLE) {
        if (s->reading) pthread_cond_wait(&s->quiet, &s->lock);
        else code = read_new(s);
    }
    if (code == TS_OK) code = s->closing ? TS_CLOSED : ts_file_archive(s->file, at, len);
    return code;
}

/* It is lent the archive where it needs it, once its caller has read what is much. */
static int32_t times_of(ts *store, const words *w, ts_info *info) {
    static const uint8_t none[1];
    const uint8_t *archive;
    size_t len;
    int32_t code = ts_times_of(store, w->a, none, 0, w->times, w->len, info);
    if (code != TS_NEEDS_ARCHIVE) return code;
    if (tsi_file_unread(w->of->file) > LITTLE) return UNREAD;
    code = ts_file_archive(w->of->file, &archive, &len);
    if (code == TS_OK) return ts_times_of(store, w->a, archive, len, w->times, w->len, info);
    if (code == TS_SYSTEM) *w->cause = *tsi_last_cause(); /* another thread may have asked */
    return code;
}

/* Reads what is new of the archive, for a request that needs it. */
static int32_t read_much(ts_shared *s) {
    const uint8_t *at;
    size_t len;
    int state;
    int32_t code = tsi_enter(s, &state);
    if (code == TS_OK) code = lend_archive(s, &at, &len);
    return tsi_leave(s, state, code);
}

static int32_t archive(ts *store, const words *w, ts_info *info) { return ts_archive(store, w->a, info); }

static int32_t reclaim(ts *store, const words *w, ts_info *info) {
    (void)w;
    return ts_reclaim(store, info);
}

static int32_t floor_of(ts *store, const words *w, ts_info *info) { return ts_floor_of(store, w->relation, w->a, info); }

static int32_t raise_floor(ts *store, const words *w, ts_info *info) { return ts_floor(store, w->a, info); }

static int32_t grow(ts *store, const words *w, ts_info *info) {
    (void)w;
    return ts_grow(store, info);
}

/* A job that is being made goes on, or none is. */
static int32_t go_on(ts *store, const words *w, ts_info *info) {
    (void)store;
    (void)w;
    (void)info;
    return TS_OK;
}

int32_t ts_shared_put(ts_shared *s, uint16_t relation, uint64_t record, const uint8_t *value, size_t value_len,
                      uint64_t label, uint64_t now, ts_info *info) {
    return ask_one(s, put_one, (words){.a = record, .b = label, .c = now, .relation = relation, .value = value, .len = value_len}, info);
}

int32_t ts_shared_delete(ts_shared *s, uint16_t relation, uint64_t record, uint64_t label, uint64_t now, ts_info *info) {
    return ask_one(s, delete_one, (words){.a = record, .b = label, .c = now, .relation = relation}, info);
}

int32_t ts_shared_begin(ts_shared *s, ts_info *info) { return ask(s, ANSWERS, begin, (words){.a = 0}, info); }

int32_t ts_shared_commit(ts_shared *s, uint64_t txn, uint64_t label, uint64_t now, ts_info *info) {
    return ask(s, COMMITS, submit, (words){.a = txn, .b = label, .c = now}, info);
}

int32_t ts_shared_resume(ts_shared *s, uint64_t ticket, ts_info *info) { return ask(s, COMMITS, resume, (words){.a = ticket}, info); }

int32_t ts_shared_times_of(ts_shared *s, uint64_t label, uint64_t *times, size_t count, ts_info *info) {
    words w = {.a = label, .times = times, .len = count, .of = s, .cause = tsi_last_cause()};
    int32_t code;
    do code = ask(s, ANSWERS, times_of, w, info);
    while (code == UNREAD && (code = read_much(s)) == TS_OK);
    if (code == TS_SYSTEM) errno = tsi_last_cause()->number;
    return code;
}

int32_t ts_shared_archive(ts_shared *s, uint64_t upto, ts_info *info) { return ask(s, JOBS, archive, (words){.a = upto}, info); }

int32_t ts_shared_reclaim(ts_shared *s, ts_info *info) { return ask(s, JOBS, reclaim, (words){.a = 0}, info); }

int32_t ts_shared_floor_of(ts_shared *s, uint16_t relation, uint64_t time, ts_info *info) {
    return ask(s, JOBS, floor_of, (words){.a = time, .relation = relation}, info);
}

int32_t ts_shared_floor(ts_shared *s, uint64_t time, ts_info *info) { return ask(s, JOBS, raise_floor, (words){.a = time}, info); }

int32_t ts_shared_grow(ts_shared *s, ts_info *info) { return ask(s, JOBS, grow, (words){.a = 0}, info); }

int32_t ts_shared_job(ts_shared *s) {
    ts_info info;
    return ask(s, JOBS, go_on, (words){.a = 0}, &info);
}

/* ---- transactions, which wait for no device call */

int32_t ts_shared_txn_put(ts_shared *s, uint64_t txn, uint16_t relation, uint64_t record, const uint8_t *value, size_t len) {
    int state;
    int32_t code = tsi_enter(s, &state);
    if (code == TS_OK) code = ts_put(tsi_store(s), txn, relation, record, value, len);
    return tsi_leave(s, state, code);
}

int32_t ts_shared_txn_delete(ts_shared *s, uint64_t txn, uint16_t relation, uint64_t record) {
    int state;
    int32_t code = tsi_enter(s, &state);
    if (code == TS_OK) code = ts_delete(tsi_store(s), txn, relation, record);
    return tsi_leave(s, state, code);
}

int32_t ts_shared_txn_get(ts_shared *s, uint64_t txn, uint16_t relation, uint64_t record, uint8_t *out, size_t len,
                          ts_info *info) {
    int state;
    int32_t code = tsi_enter(s, &state);
    if (code == TS_OK) code = ts_get(tsi_store(s), txn, relation, record, out, len, info);
    return tsi_leave(s, state, code);
}

int32_t ts_shared_txn_scan(ts_shared *s, uint64_t txn, uint16_t relation, ts_row *rows, size_t row_count, uint8_t *out,
                           size_t len, ts_info *info) {
    int state;
    int32_t code = tsi_enter(s, &state);
    if (code == TS_OK) code = ts_scan(tsi_store(s), txn, relation, rows, row_count, out, len, info);
    return tsi_leave(s, state, code);
}

int32_t ts_shared_abort(ts_shared *s, uint64_t txn) {
    int state;
    int32_t code = tsi_enter(s, &state);
    if (code == TS_OK) code = ts_abort(tsi_store(s), txn);
    return tsi_leave(s, state, code);
}

int32_t ts_shared_give_up(ts_shared *s, uint64_t ticket) {
    int state;
    int32_t code = tsi_enter(s, &state);
    if (code == TS_OK) code = ts_give_up(tsi_store(s), ticket);
    return tsi_leave(s, state, code);
}

/* ---- what is published now, and views of it */

static int32_t nothing(ts *store, const words *w, ts_info *info) {
    (void)store;
    (void)w;
    (void)info;
    return TS_OK;
}

/* Takes the lock, with what is published now. Where no memory was left for it before, it is taken now. */
static int32_t enter_latest(ts_shared *s, int *state) {
    int32_t code = tsi_enter(s, state);
    while (code == TS_OK && !s->latest && s->calling) {
        ts_info info;
        tsi_leave(s, *state, TS_OK);
        code = ask(s, ANSWERS, nothing, (words){.a = 0}, &info);
        int32_t entered = tsi_enter(s, state);
        if (code == TS_OK) code = entered;
    }
    return code == TS_OK && !s->latest ? tsi_renew(s) : code;
}

int32_t ts_shared_last(ts_shared *s, ts_info *info) {
    int state;
    int32_t code = enter_latest(s, &state);
    if (code == TS_OK) *info = (ts_info){s->latest->last, s->latest->floor};
    return tsi_leave(s, state, code);
}

int32_t ts_shared_get(ts_shared *s, uint16_t relation, uint64_t record, uint8_t *out, size_t len, ts_info *info) {
    int state;
    int32_t code = enter_latest(s, &state);
    if (code == TS_OK) code = ts_recent(tsi_store(s), s->latest->view, relation, record, s->latest->last, out, len, info);
    return tsi_leave(s, state, code);
}

int32_t ts_shared_scan(ts_shared *s, uint16_t relation, ts_row *rows, size_t row_count, uint8_t *out, size_t len,
                       ts_info *info) {
    static const uint8_t none[1];
    int state;
    int32_t code = enter_latest(s, &state);
    if (code == TS_OK)
        code = ts_scan_at(tsi_store(s), s->latest->view, relation, s->latest->last, none, 0, rows, row_count, out, len, info);
    return tsi_leave(s, state, code);
}

/* A number has the place of its view in the lowest 16 bits, how often the place was used in the 32 bits above, and that
   of its store above those. */
static uint64_t number_of(const ts_shared *s, uint32_t place) {
    return s->mark << 48 | (uint64_t)s->seats[place].stamp << 16 | place;
}

/* Makes sure that a seat is free. */
static bool has_seat(ts_shared *s) {
    if (s->free_seat != NO_SEAT || s->seat_count < s->seat_room) return true;
    if (s->seat_room == VIEWS_MOST) return false;
    uint32_t room = s->seat_room ? 2 * s->seat_room : 16;
    seat *seats = realloc(s->seats, room * sizeof *seats);
    if (!seats) return false;
    s->seats = seats;
    s->seat_room = room;
    return true;
}

static uint32_t take_seat(ts_shared *s) {
    uint32_t place = s->free_seat;
    if (place != NO_SEAT) {
        s->free_seat = s->seats[place].next;
        return place;
    }
    s->seats[s->seat_count] = (seat){0, NO_SEAT, NULL};
    return s->seat_count++;
}

int32_t ts_shared_view(ts_shared *s, ts_info *info) {
    int state;
    int32_t code = enter_latest(s, &state);
    if (code == TS_OK && !has_seat(s)) code = TS_NO_MEMORY;
    if (code != TS_OK) return tsi_leave(s, state, code);
    uint32_t place = take_seat(s);
    s->seats[place].of = s->latest;
    s->latest->users++;
    *info = (ts_info){number_of(s, place), s->latest->last};
    return tsi_leave(s, state, TS_OK);
}

/* The seat of a view, or none. */
static seat *seat_of(ts_shared *s, uint64_t view) {
    uint32_t place = view & (VIEWS_MOST - 1);
    return place < s->seat_count && s->seats[place].of && number_of(s, place) == view ? &s->seats[place] : NULL;
}

int32_t ts_shared_end(ts_shared *s, uint64_t view) {
    int state;
    int32_t code = tsi_enter(s, &state);
    seat *it = code == TS_OK ? seat_of(s, view) : NULL;
    if (!it) return tsi_leave(s, state, code == TS_OK ? TS_UNKNOWN : code);
    tsi_forget(s, it->of);
    *it = (seat){it->stamp + 1, s->free_seat, NULL};
    s->free_seat = (uint32_t)(it - s->seats);
    return tsi_leave(s, state, TS_OK);
}

/* ---- queries of a view */

/* A query, and what it is lent of the archive. */
typedef struct query {
    int state;
    moment *of; /* used until it is answered, though its view is ended meanwhile */
    uint64_t view;
    const uint8_t *archive;
    size_t len;
} query;

/* Takes the lock, and finds the view. */
static int32_t enter_view(ts_shared *s, uint64_t view, query *q) {
    static const uint8_t none[1];
    int32_t code = tsi_enter(s, &q->state);
    const seat *it = code == TS_OK ? seat_of(s, view) : NULL;
    q->of = it ? it->of : NULL;
    if (!it) return code == TS_OK ? TS_UNKNOWN : code;
    q->of->users++;
    q->view = q->of->view;
    q->archive = none;
    q->len = 0;
    return TS_OK;
}

/* Lends it the archive, where it needs it; whether it is to be made again. */
static bool is_lent(ts_shared *s, query *q, int32_t *code) {
    if (*code != TS_NEEDS_ARCHIVE || q->len > 0) return false;
    int32_t read = lend_archive(s, &q->archive, &q->len);
    if (read != TS_OK) *code = read;
    return read == TS_OK && q->len > 0;
}

/* Gives the lock up; where the archive could not be read errno says why. */
static int32_t leave_view(ts_shared *s, const query *q, int32_t code) {
    tsi_forget(s, q->of);
    tsi_leave(s, q->state, code);
    if (code == TS_SYSTEM) errno = tsi_last_cause()->number;
    return code;
}

int32_t ts_shared_at(ts_shared *s, uint64_t view, uint16_t relation, uint64_t record, uint64_t time, uint8_t *out, size_t len,
                     ts_info *info) {
    query q;
    int32_t code = enter_view(s, view, &q);
    if (code == TS_OK) do
            code = ts_at(tsi_store(s), q.view, relation, record, time, q.archive, q.len, out, len, info);
        while (is_lent(s, &q, &code));
    return leave_view(s, &q, code);
}

int32_t ts_shared_scan_at(ts_shared *s, uint64_t view, uint16_t relation, uint64_t time, ts_row *rows, size_t row_count,
                          uint8_t *out, size_t len, ts_info *info) {
    query q;
    int32_t code = enter_view(s, view, &q);
    if (code == TS_OK) do
            code = ts_scan_at(tsi_store(s), q.view, relation, time, q.archive, q.len, rows, row_count, out, len, info);
        while (is_lent(s, &q, &code));
    return leave_view(s, &q, code);
}

int32_t ts_shared_between(ts_shared *s, uint64_t view, uint16_t relation, uint64_t record, uint64_t from, uint64_t upto,
                          ts_row *rows, size_t row_count, uint8_t *out, size_t len, ts_info *info) {
    query q;
    int32_t code = enter_view(s, view, &q);
    if (code == TS_OK) do
            code = ts_between(tsi_store(s), q.view, relation, record, from, upto, q.archive, q.len, rows, row_count, out, len, info);
        while (is_lent(s, &q, &code));
    return leave_view(s, &q, code);
}

int32_t ts_shared_scan_between(ts_shared *s, uint64_t view, uint16_t relation, uint64_t from, uint64_t upto, ts_row *rows,
                               size_t row_count, uint8_t *out, size_t len, ts_info *info) {
    query q;
    int32_t code = enter_view(s, view, &q);
    if (code == TS_OK) do
            code = ts_scan_between(tsi_store(s), q.view, relation, from, upto, q.archive, q.len, rows, row_count, out, len, info);
        while (is_lent(s, &q, &code));
    return leave_view(s, &q, code);
}

/* ---- cursors */

static int32_t scan_of(const asked *q, ts_row *rows, size_t row_count, uint8_t *out, size_t len, ts_info *info) {
    if (q->first < q->last) return ts_shared_txn_scan(q->of, q->number, q->relation, rows, row_count, out, len, info);
    int32_t code = ts_shared_txn_get(q->of, q->number, q->relation, q->first, out, len, info);
    return tsi_as_rows(code, q->first, rows, row_count, info);
}

static int32_t scan_at(const asked *q, ts_row *rows, size_t row_count, uint8_t *out, size_t len, ts_info *info) {
    if (q->first < q->last) return ts_shared_scan_at(q->of, q->number, q->relation, q->from, rows, row_count, out, len, info);
    int32_t code = ts_shared_at(q->of, q->number, q->relation, q->first, q->from, out, len, info);
    return tsi_as_rows(code, q->first, rows, row_count, info);
}

static int32_t scan_between(const asked *q, ts_row *rows, size_t row_count, uint8_t *out, size_t len, ts_info *info) {
    if (q->first < q->last)
        return ts_shared_scan_between(q->of, q->number, q->relation, q->from, q->upto, rows, row_count, out, len, info);
    return ts_shared_between(q->of, q->number, q->relation, q->first, q->from, q->upto, rows, row_count, out, len, info);
}

int32_t ts_shared_cursor_of(ts_shared *s, uint64_t txn, uint16_t relation, uint64_t first, uint64_t last, ts_cursor **cursor,
                            ts_info *info) {
    asked q = {.of = s, .number = txn, .relation = relation, .first = first, .last = last};
    return tsi_cursor_make(scan_of, &q, cursor, info);
}

int32_t ts_shared_cursor_at(ts_shared *s, uint64_t view, uint16_t relation, uint64_t first, uint64_t last, uint64_t time,
                            ts_cursor **cursor, ts_info *info) {
    asked q = {.of = s, .number = view, .relation = relation, .first = first, .last = last, .from = time};
    return tsi_cursor_make(scan_at, &q, cursor, info);
}

int32_t ts_shared_cursor_between(ts_shared *s, uint64_t view, uint16_t relation, uint64_t first, uint64_t last, uint64_t from,
                                 uint64_t upto, ts_cursor **cursor, ts_info *info) {
    asked q = {.of = s, .number = view, .relation = relation, .first = first, .last = last, .from = from, .upto = upto};
    return tsi_cursor_make(scan_between, &q, cursor, info);
}

/* ---- the vacuum */

/* Whether the vacuum goes on behind this answer as if nothing had been. */
static bool is_for_later(int32_t code) {
    return code == TS_NOTHING_TO_DO || code == TS_IN_USE || code == TS_JOB_BUSY;
}

static void note_vacuum(ts_shared *s, int32_t code) {
    int state;
    tsi_enter(s, &state);
    if (code == TS_OK) s->vacuum_jobs++;
    if (!is_for_later(code)) s->vacuum_code = code;
    tsi_leave(s, state, TS_OK);
}

/* Archives what ended by a time, and reclaims it; grows where that is asked for and slots are wanted. */
static void look(ts_shared *s, bool needs_slots) {
    ts_info info;
    ts_shared_job(s); /* one that want of memory has stopped */
    if (needs_slots && s->policy.grows) note_vacuum(s, ts_shared_grow(s, &info));
    if (ts_shared_last(s, &info) != TS_OK || info.a <= s->policy.keep) return;
    int32_t code = ts_shared_archive(s, info.a - s->policy.keep, &info);
    if (code == TS_STATUS_FULL && s->policy.grows) {
        note_vacuum(s, ts_shared_grow(s, &info));
        ts_shared_last(s, &info);
        code = ts_shared_archive(s, info.a - s->policy.keep, &info);
    }
    note_vacuum(s, code);
    note_vacuum(s, ts_shared_reclaim(s, &info));
}

/* From one look to the next, of which the policy may say what no clock has. */
static uint64_t pause_of(const ts_policy *policy) {
    enum { LEAST = 1000 };
    const uint64_t most = 1000000000000000;
    return policy->every < LEAST ? LEAST : policy->every > most ? most : policy->every;
}

/* Sleeps until the next look; whether there is one. */
static bool waits(ts_shared *s, bool *needs_slots) {
    struct timespec next = tsi_place(tsi_clock() + pause_of(&s->policy));
    int state, slept = 0;
    tsi_enter(s, &state);
    while (!s->closing && !s->is_full && !s->needs_slots && slept == 0) slept = pthread_cond_timedwait(&s->looks, &s->lock, &next);
    bool goes_on = !s->closing;
    *needs_slots = s->needs_slots;
    s->is_full = s->needs_slots = false;
    tsi_leave(s, state, TS_OK);
    return goes_on;
}

static void *run_vacuum(void *arg) {
    bool needs_slots;
    while (waits(arg, &needs_slots)) look(arg, needs_slots);
    return NULL;
}

/* Starts it, with all signals blocked. */
static int32_t start_vacuum(ts_shared *s) {
    sigset_t all, before;
    sigfillset(&all);
    pthread_sigmask(SIG_SETMASK, &all, &before);
    int why = pthread_create(&s->vacuum, NULL, run_vacuum, s);
    pthread_sigmask(SIG_SETMASK, &before, NULL);
    if (why == 0) return TS_OK;
    *tsi_last_cause() = (ts_cause){"pthread_create", "", why};
    errno = why;
    return TS_SYSTEM;
}

int32_t ts_shared_vacuum(ts_shared *s, const ts_policy *policy) {
    int state;
    int32_t code = tsi_enter(s, &state);
    if (code == TS_OK && s->has_vacuum) code = TS_BUSY;
    if (code != TS_OK) return tsi_leave(s, state, code);
    s->policy = *policy;
    s->is_full = s->needs_slots = false;
    code = start_vacuum(s);
    s->has_vacuum = code == TS_OK;
    return tsi_leave(s, state, code);
}

int32_t ts_shared_vacuumed(ts_shared *s, ts_info *info) {
    int state;
    int32_t code = tsi_enter(s, &state);
    if (code != TS_OK) return tsi_leave(s, state, code);
    info->a = s->vacuum_jobs;
    return tsi_leave(s, state, s->has_vacuum ? s->vacuum_code : TS_NONE);
}
