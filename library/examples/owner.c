/* One store and several threads: `owner FOLDER`, a folder that is there. One thread opens the store, makes all
   of its calls and closes it. The others put what they want into a queue and wait for the answer; what waits
   in the queue together is committed with the syncs of one.
   cc -pthread owner.c $(pkg-config --cflags --libs timestore) */
#include <inttypes.h>
#include <pthread.h>
#include <stdio.h>
#include <stdlib.h>
#include <timestore_file.h>

enum { THREADS = 4, COMMITS = 25 };

/* A commit of one record that a thread waits for. */
typedef struct request {
    struct request *next;
    uint64_t record;
    bool answered;
    int32_t code; /* once it is answered */
    ts_info info; /* a: of the commit its time; of what waits its ticket */
} request;

typedef struct queue {
    const char *folder;
    pthread_mutex_t lock;
    pthread_cond_t asked, answered;
    request *first, **end;
    bool over;
} queue;

static void stop(const char *what, int32_t code) {
    fprintf(stderr, "%s: %s\n", what, ts_text(code));
    exit(1);
}

/* ---- the owner's side */

/* All that waits in the queue, once something does; NULL at its end. */
static request *take(queue *q) {
    pthread_mutex_lock(&q->lock);
    while (!q->first && !q->over) pthread_cond_wait(&q->asked, &q->lock);
    request *taken = q->first;
    q->first = NULL;
    q->end = &q->first;
    pthread_mutex_unlock(&q->lock);
    return taken;
}

static void submit(ts *store, request *r) {
    const uint8_t value[] = {1, 1, (uint8_t)r->record};
    r->code = ts_begin(store, &r->info);
    if (r->code != TS_OK) return;
    uint64_t txn = r->info.a;
    r->code = ts_put(store, txn, 1, r->record, value, sizeof value);
    if (r->code == TS_OK) r->code = ts_submit(store, txn, 0, 0, &r->info);
    else ts_abort(store, txn);
}

static void answer(queue *q, ts *store, request *taken) {
    for (request *r = taken; r; r = r->next)
        if (r->code == TS_OK) r->code = ts_redeem(store, r->info.a, &r->info);
    pthread_mutex_lock(&q->lock);
    for (request *r = taken, *next; r; r = next) {
        next = r->next; /* an answered request is its thread's again */
        r->answered = true;
    }
    pthread_cond_broadcast(&q->answered);
    pthread_mutex_unlock(&q->lock);
}

static void *own(void *arg) {
    queue *q = arg;
    ts_file *file;
    ts_info info;
    int32_t code = ts_file_open(q->folder, &file, &info);
    if (code != TS_OK) stop("open", code);
    for (request *taken; (taken = take(q));) {
        for (request *r = taken; r; r = r->next) submit(ts_file_store(file), r);
        ts_file_flush(file); /* where it is refused, the tickets say what became of the commits */
        answer(q, ts_file_store(file), taken);
    }
    ts_file_close(file);
    return NULL;
}

/* ---- the other threads' side */

/* Commits a record; its time. */
static uint64_t commit(queue *q, uint64_t record) {
    request r = {.record = record};
    pthread_mutex_lock(&q->lock);
    *q->end = &r;
    q->end = &r.next;
    pthread_cond_signal(&q->asked);
    while (!r.answered) pthread_cond_wait(&q->answered, &q->lock);
    pthread_mutex_unlock(&q->lock);
    if (r.code != TS_OK) stop("commit", r.code);
    return r.info.a;
}

static void *work(void *arg) {
    static uint64_t records;
    for (int n = 0; n < COMMITS; n++) commit(arg, __atomic_fetch_add(&records, 1, __ATOMIC_SEQ_CST));
    return NULL;
}

int main(int argc, char **argv) {
    pthread_t owner, others[THREADS];
    if (argc != 2) return 2;
    queue q = {.folder = argv[1], .lock = PTHREAD_MUTEX_INITIALIZER, .asked = PTHREAD_COND_INITIALIZER, .answered = PTHREAD_COND_INITIALIZER};
    q.end = &q.first;
    int32_t code = ts_file_format(argv[1], 1024);
    if (code != TS_OK) stop("format", code);
    pthread_create(&owner, NULL, own, &q);
    for (int i = 0; i < THREADS; i++) pthread_create(&others[i], NULL, work, &q);
    for (int i = 0; i < THREADS; i++) pthread_join(others[i], NULL);
    printf("%d threads, %d commits; the next one came at %" PRIu64 "\n", THREADS, THREADS * COMMITS, commit(&q, THREADS * COMMITS));
    pthread_mutex_lock(&q.lock);
    q.over = true;
    pthread_cond_signal(&q.asked);
    pthread_mutex_unlock(&q.lock);
    pthread_join(owner, NULL);
    return 0;
}
