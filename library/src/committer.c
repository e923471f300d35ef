/* The device calls that one thread makes for all that wait.
 *
 * A request is made at once where no device call stands out; else it is posted, and the thread that makes the call, the
 * leader, makes it behind that. A commit that is submitted, and a job that is begun, then waits for its end. Where
 * nobody leads, one who waits does, until its own is answered; then it wakes the next. */
#define _GNU_SOURCE
#include "committer.h"
#include <limits.h>
#include <linux/futex.h>
#include <stdlib.h>
#include <sys/syscall.h>
#include <time.h>
#include <unistd.h>

enum { GROUP_MOST = 16 }; /* the store has no more commits under one gate */

/* Of the time that a group took, a part is waited for commits: at most so many microseconds, and none where it is less than what
   the waiting takes by itself. */
enum { PATIENCE_PART = 2, PATIENCE_LEAST = 30, PATIENCE_MOST = 2000 };

/* What a thread sleeps on: it is to sleep; it may look whether it is to lead; its request is answered. */
enum { SLEEPS = 0, LOOKS = 1, OVER = 2 };

/* ---- clocks and lists */

uint64_t tsi_clock(void) {
    struct timespec now;
    clock_gettime(CLOCK_MONOTONIC, &now);
    return (uint64_t)now.tv_sec * 1000000 + (uint64_t)now.tv_nsec / 1000;
}

struct timespec tsi_place(uint64_t time) {
    return (struct timespec){(time_t)(time / 1000000), (long)(time % 1000000 * 1000)};
}

static void push(request_list *list, request *r) {
    r->next = NULL;
    if (list->last) list->last->next = r;
    else list->first = r;
    list->last = r;
    list->count++;
}

static request *shift(request_list *list) {
    request *r = list->first;
    if (!r) return NULL;
    list->first = r->next;
    if (!list->first) list->last = NULL;
    list->count--;
    return r;
}

/* ---- sleeping and waking */

/* Sleeps while a word is this, for so many microseconds at most, or UINT64_MAX; it may return sooner. */
static void sleep_on(atomic_uint_least32_t *word, uint_least32_t value, uint64_t most) {
    struct timespec time = tsi_place(most);
    syscall(SYS_futex, word, FUTEX_WAIT_PRIVATE, value, most == UINT64_MAX ? NULL : &time, NULL, 0);
}

/* Behind the store to a request's word it may be gone with its thread's stack: then the address wakes nobody. */
static void wake(atomic_uint_least32_t *word, uint_least32_t why, int most) {
    atomic_store(word, why);
    syscall(SYS_futex, word, FUTEX_WAKE_PRIVATE, most, NULL, NULL, 0);
}

/* Sleeps until it is answered, or is to look whether it leads; whether it is answered. */
static bool sleeps_until_over(request *r) {
    uint_least32_t word;
    while ((word = atomic_load(&r->woken)) == SLEEPS) sleep_on(&r->woken, SLEEPS, UINT64_MAX);
    return word == OVER;
}

/* Behind this nobody names it any more. */
static void wait_for_over(request *r) {
    for (uint_least32_t word; (word = atomic_load(&r->woken)) != OVER;) sleep_on(&r->woken, word, UINT64_MAX);
}

/* ---- the lock. Threads that ask queries without an end would have it again and again before one that has slept is awake.
   So they wait while others come who commit, or lead. The word has twice the number of these, and 1 more where some wait. */

enum { ONE_COMES = 2, AWAITED = 1, SPINS = 200 };

static void spin(void) {
#if defined(__x86_64__) || defined(__i386__)
    __builtin_ia32_pause();
#endif
}

/* Waits while others come first. */
static void let_others_pass(ts_shared *s) {
    for (int i = 0; i < SPINS && atomic_load(&s->comers) >= ONE_COMES; i++) spin();
    for (uint_least32_t word; (word = atomic_load(&s->comers)) >= ONE_COMES;)
        if (word & AWAITED || atomic_compare_exchange_strong(&s->comers, &word, word | AWAITED)) sleep_on(&s->comers, word | AWAITED, UINT64_MAX);
}

static void take_lock(ts_shared *s) {
    if (atomic_load(&s->comers) >= ONE_COMES) let_others_pass(s);
    pthread_mutex_lock(&s->lock);
}

/* Before those who wait; the leader does not sleep unless the lock is held for long. */
static void take_lock_first(ts_shared *s, int spins) {
    atomic_fetch_add(&s->comers, ONE_COMES);
    bool has_it = false;
    for (int i = 0; i < spins && !has_it; i++) {
        has_it = pthread_mutex_trylock(&s->lock) == 0;
        if (!has_it) spin();
    }
    if (!has_it) pthread_mutex_lock(&s->lock);
    uint_least32_t left = atomic_fetch_sub(&s->comers, ONE_COMES) - ONE_COMES;
    if (left == AWAITED && atomic_compare_exchange_strong(&s->comers, &left, 0)) syscall(SYS_futex, &s->comers, FUTEX_WAKE_PRIVATE, INT_MAX, NULL, NULL, 0);
}

/* Wakes those whose requests are answered, without the lock. */
static void wake_all(request *r) {
    for (request *next; r; r = next) {
        next = r->next; /* it is its thread's again */
        wake(&r->woken, OVER, 1);
    }
}

static request *take_answered(ts_shared *s) {
    request *first = s->answered.first;
    s->answered = (request_list){NULL, NULL, 0};
    return first;
}

int32_t tsi_enter(ts_shared *s, int *state) {
    pthread_setcancelstate(PTHREAD_CANCEL_DISABLE, state);
    take_lock(s);
    return s->closing ? TS_CLOSED : TS_OK;
}

static int32_t enter_first(ts_shared *s, int *state) {
    pthread_setcancelstate(PTHREAD_CANCEL_DISABLE, state);
    take_lock_first(s, 0);
    return s->closing ? TS_CLOSED : TS_OK;
}

int32_t tsi_leave(ts_shared *s, int state, int32_t code) {
    request *answered = take_answered(s);
    pthread_mutex_unlock(&s->lock);
    wake_all(answered);
    pthread_setcancelstate(state, NULL);
    return code;
}

ts *tsi_store(ts_shared *s) { return &tsi_file_host(s->file)->store; }

/* ---- what is published now */

void tsi_forget(ts_shared *s, moment *of) {
    if (!of || --of->users > 0) return;
    if (s->file) ts_end(tsi_store(s), of->view);
    free(of);
}

int32_t tsi_renew(ts_shared *s) {
    ts_info times = {0, 0}, info = {0, 0};
    int32_t code = ts_last(tsi_store(s), &times);
    if (code == TS_OK) code = ts_view(tsi_store(s), &info);
    if (code != TS_OK) return code;
    moment *now = malloc(sizeof *now);
    if (!now) {
        ts_end(tsi_store(s), info.a);
        return TS_NO_MEMORY;
    }
    *now = (moment){info.a, times.a, times.b, 1};
    tsi_forget(s, s->latest);
    s->latest = now;
    return TS_OK;
}

/* The last moment is over. Where there is no memory for a new one, it is taken when it is asked for. */
static void renew(ts_shared *s) {
    if (tsi_renew(s) == TS_OK) return;
    tsi_forget(s, s->latest);
    s->latest = NULL;
}

/* ---- answers */

static void answer(ts_shared *s, request *r, int32_t code) {
    r->code = code;
    r->over = true;
    s->within--;
    if (r->sleeps) push(&s->answered, r);
    else atomic_store(&r->woken, OVER);
    if (s->within == 0) pthread_cond_broadcast(&s->quiet);
}

/* Answers the commits that are published; where `all`, the others too, as far as they came. */
static void redeem(ts_shared *s, bool all) {
    while (s->commits.first) {
        request *r = s->commits.first;
        int32_t code = ts_redeem(tsi_store(s), r->info.a, &r->info);
        if (code == TS_WAITING && !all) return;
        shift(&s->commits);
        answer(s, r, code);
    }
}

static void end_job(ts_shared *s, int32_t code) {
    request *r = s->job;
    s->job = NULL;
    if (r) answer(s, r, code);
}

/* The vacuum looks where a commit was refused for want of room. */
static void note_refusal(ts_shared *s, int32_t code) {
    if (code != TS_HEAP_FULL && code != TS_STATUS_FULL) return;
    *(code == TS_HEAP_FULL ? &s->is_full : &s->needs_slots) = true;
    if (s->has_vacuum) pthread_cond_signal(&s->looks);
}

/* So many commits are waited for before a group begins. */
static size_t wanted(const ts_shared *s) { return s->expected < GROUP_MOST ? s->expected : GROUP_MOST; }

static void end_gathering(ts_shared *s) {
    if (s->gathering) wake(&s->gathered, 1, 1);
    s->gathering = false;
}

/* Makes a request, while no device call stands out. */
static void make_request(ts_shared *s, request *r) {
    int32_t code = r->kind == JOBS && s->job ? TS_JOB_BUSY : r->call(tsi_store(s), &r->words, &r->info);
    bool waits = r->kind == COMMITS && (code == TS_OK || code == TS_WAITING);
    if (waits) {
        push(&s->commits, r);
        if (s->commits.count >= wanted(s)) end_gathering(s);
    } else if (r->kind == JOBS && code == TS_OK) {
        s->job = r;
        end_gathering(s);
    } else if (code == TS_CONFLICT && s->commits.first) {
        push(&s->conflicts, r);
    } else {
        note_refusal(s, code);
        answer(s, r, code);
    }
}

/* A group has ended: what conflicted may see now what was ahead of it. */
static void settle_conflicts(ts_shared *s) {
    request_list conflicts = s->conflicts;
    s->conflicts = (request_list){NULL, NULL, 0};
    for (request *r; (r = shift(&conflicts));)
        if (r->again) make_request(s, r);
        else answer(s, r, TS_CONFLICT);
}

/* ---- the leader */

/* Makes the device call that is due, without the lock. */
static int32_t make_call(ts_shared *s, ts_info *info) {
    tsi_host *host = tsi_file_host(s->file);
    ts_device call;
    int32_t code = ts_call(&host->store, &call, host->bytes, sizeof host->bytes);
    if (code != TS_OK) return code;
    request *answered = take_answered(s);
    s->calling = true;
    pthread_mutex_unlock(&s->lock);
    wake_all(answered);
    int32_t made = tsi_file_make(s->file, &call);
    take_lock_first(s, SPINS);
    s->calling = false;
    tsi_file_made(s->file, &call, made);
    return ts_called(&host->store, made == TS_OK, info);
}

/* A step of the group did this. */
static void settle_group(ts_shared *s, int32_t code, const ts_info *info) {
    s->in_group = code == TS_OK && info->a != TS_IDLE && info->a != TS_PUBLISHED;
    if (s->in_group) return;
    if (code == TS_OK && info->a == TS_PUBLISHED) {
        s->group_took = tsi_clock() - s->group_began;
        renew(s);
        s->expected = s->commits.count;
        redeem(s, false);
    } else {
        redeem(s, true);
    }
    settle_conflicts(s);
}

/* A step of the job did this. */
static void settle_job(ts_shared *s, int32_t code, const ts_info *info) {
    if (code == TS_OK && info->a != TS_IDLE && info->a != TS_PUBLISHED) return;
    if (code == TS_OK) renew(s);
    end_job(s, code);
}

/* One step, of the group or of the job, with its device call. */
static void take_step(ts_shared *s) {
    ts *store = tsi_store(s);
    ts_info info = {0, 0};
    bool of_job = s->job && (s->job_turn || !s->commits.first);
    if (!of_job && !s->in_group) s->group_began = tsi_clock();
    int32_t code = of_job ? ts_job_pump(store, &info) : ts_pump(store, &info);
    if (code == TS_BUSY) {
        of_job = !of_job;
        code = of_job ? ts_job_pump(store, &info) : ts_pump(store, &info);
    }
    s->job_turn = !of_job;
    if (code == TS_OK && info.a == TS_CALL_DUE) code = make_call(s, &info);
    if (of_job) settle_job(s, code, &info);
    else settle_group(s, code, &info);
    if (code == TS_FAILED) { /* nothing is written any more */
        renew(s);
        redeem(s, true);
        settle_conflicts(s);
        end_job(s, code);
    }
    for (request *r; (r = shift(&s->posted));) make_request(s, r);
}

/* Before a group begins: waits a part of what a group takes for those who are likely to commit again. */
static void gather(ts_shared *s) {
    uint64_t now = tsi_clock(), patience = s->group_took / PATIENCE_PART;
    if (s->in_group || s->job || s->commits.count >= wanted(s) || patience < PATIENCE_LEAST) return;
    uint64_t end = now + (patience < PATIENCE_MOST ? patience : PATIENCE_MOST);
    request *answered = take_answered(s);
    s->gathering = true;
    atomic_store(&s->gathered, 0);
    pthread_mutex_unlock(&s->lock);
    wake_all(answered);
    for (; atomic_load(&s->gathered) == 0 && now < end; now = tsi_clock()) sleep_on(&s->gathered, 0, end - now);
    take_lock_first(s, SPINS);
    s->gathering = false;
}

/* Makes the device calls of all until its own request is answered, and then wakes the next that waits. */
static void lead(ts_shared *s, const request *own) {
    s->leading = true;
    while (!own->over) {
        gather(s);
        take_step(s);
    }
    s->leading = false;
    request *next = s->commits.first ? s->commits.first : s->job;
    if (next) wake(&next->woken, LOOKS, 1);
}

/* Waits while another thread leads; the lock is given up meanwhile. Whether the request is answered, and the lock free. */
static bool follows(ts_shared *s, request *r) {
    while (!r->over && s->leading) {
        r->sleeps = true;
        tsi_leave(s, PTHREAD_CANCEL_DISABLE, TS_OK);
        if (sleeps_until_over(r)) return true;
        take_lock_first(s, 0);
        if (r->over) break;
        r->sleeps = false;
        atomic_store(&r->woken, SLEEPS);
    }
    return false;
}

int32_t tsi_complete(ts_shared *s, request *r, ts_info *info) {
    int state;
    int32_t code = enter_first(s, &state);
    if (code != TS_OK) return tsi_leave(s, state, code);
    s->within++;
    if (s->calling) push(&s->posted, r);
    else make_request(s, r);
    if (!follows(s, r)) {
        if (!r->over) lead(s, r);
        tsi_leave(s, PTHREAD_CANCEL_DISABLE, TS_OK);
        wait_for_over(r);
    }
    pthread_setcancelstate(state, NULL);
    *info = r->info;
    return r->code;
}
