/* The queue by which threads bring their commits to the thread that owns the store, which commits together all that stand in it. */
#ifndef BENCH_QUEUE_H
#define BENCH_QUEUE_H
#include "../../tests/check.h"
#include "timestore_rados.h"
#include <pthread.h>

/* A commit of one record that a thread waits for. */
typedef struct request {
    struct request *next;
    uint64_t record, ticket;
    bool answered;
} request;

typedef struct queue {
    pthread_mutex_t lock;
    pthread_cond_t asked, answered;
    request *first, **end;
    unsigned asking; /* threads that may still ask */
} queue;

static void queue_init(queue *q, unsigned threads) {
    *q = (queue){.lock = PTHREAD_MUTEX_INITIALIZER, .asked = PTHREAD_COND_INITIALIZER, .answered = PTHREAD_COND_INITIALIZER, .asking = threads};
    q->end = &q->first;
}

/* ---- the owner's side */

/* All that stand in the queue, once one does; NULL once no thread asks any more. */
static request *queue_take(queue *q) {
    pthread_mutex_lock(&q->lock);
    while (!q->first && q->asking > 0) pthread_cond_wait(&q->asked, &q->lock);
    request *taken = q->first;
    q->first = NULL;
    q->end = &q->first;
    pthread_mutex_unlock(&q->lock);
    return taken;
}

static void queue_answer(queue *q, request *taken) {
    pthread_mutex_lock(&q->lock);
    for (request *r = taken, *next; r; r = next) {
        next = r->next; /* an answered request is its thread's again */
        r->answered = true;
    }
    pthread_cond_broadcast(&q->answered);
    pthread_mutex_unlock(&q->lock);
}

/* Commits what is asked until no thread asks any more; how many times it took what stood in the queue. */
static uint64_t queue_own(queue *q, ts_rados *host) {
    ts *h = ts_rados_store(host);
    uint64_t times = 0;
    ts_info info;
    for (request *taken; (taken = queue_take(q)); times++) {
        for (request *r = taken; r; r = r->next) r->ticket = submit_text(h, r->record, "abcdefgh", 1, 0);
        CHECK(TS_OK, ts_rados_flush(host));
        for (request *r = taken; r; r = r->next) CHECK(TS_OK, ts_redeem(h, r->ticket, &info));
        queue_answer(q, taken);
    }
    return times;
}

/* ---- the other threads' side */

/* Returns once the commit of a record is published. */
static void queue_ask(queue *q, uint64_t record) {
    request r = {.record = record};
    pthread_mutex_lock(&q->lock);
    *q->end = &r;
    q->end = &r.next;
    pthread_cond_signal(&q->asked);
    while (!r.answered) pthread_cond_wait(&q->answered, &q->lock);
    pthread_mutex_unlock(&q->lock);
}

/* This thread asks no more. */
static void queue_leave(queue *q) {
    pthread_mutex_lock(&q->lock);
    q->asking--;
    pthread_cond_signal(&q->asked);
    pthread_mutex_unlock(&q->lock);
}
#endif
