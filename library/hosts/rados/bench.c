/* What a store in a pool costs, beside raw calls of librados of the same bytes on the same pool: bench CONF ROUNDS. All lie in namespaces
 * of this run. Store and raw calls take turns, since a cluster's speed varies. */
#define _GNU_SOURCE
#include "bench_queue.h"
#include <rados/librados.h>
#include <time.h>
#include <unistd.h>

enum {
    EXTENT = 8192,
    PIECE = 4 << 20,
    BLOCK = 64 << 10,
    GROUP = 16,
    COMMITS_A_ROUND = 60,
    GROUPS_A_ROUND = 20,
    THREADS = 16,
    COMMITS_OF_THREAD = 20, /* in a round */
    QUERIES_A_ROUND = 200,
    RECORDS = 1024,
    ARCHIVED = 8,    /* versions of each record that go to the archive */
    FIELDS = 4,
    FIELD_LEN = 250,
    SAMPLES_MOST = 20000,
};

/* ---- times */

typedef struct samples {
    const char *name;
    double seconds[SAMPLES_MOST];
    size_t count;
} samples;

static double now(void) {
    struct timespec time;
    clock_gettime(CLOCK_MONOTONIC, &time);
    return (double)time.tv_sec + 1e-9 * (double)time.tv_nsec;
}

/* Adds the time since then, on whichever thread. */
static void add(samples *of, double start) {
    static pthread_mutex_t lock = PTHREAD_MUTEX_INITIALIZER;
    double seconds = now() - start;
    pthread_mutex_lock(&lock);
    HOLDS(of->count < SAMPLES_MOST);
    of->seconds[of->count++] = seconds;
    pthread_mutex_unlock(&lock);
}

static int by_size(const void *left, const void *right) {
    double a = *(const double *)left, b = *(const double *)right;
    return (a > b) - (a < b);
}

/* The time that so many hundredths of all samples do not exceed. */
static double share(samples *of, size_t hundredths) {
    HOLDS(of->count > 0);
    qsort(of->seconds, of->count, sizeof *of->seconds, by_size);
    return of->seconds[(of->count - 1) * hundredths / 100];
}

/* A row: median and ninth tenth in milliseconds, and how many times the median of the raw calls that is. */
static void row(samples *of, samples *raw) {
    double middle = share(of, 50);
    printf("%-58s %9.3f %9.3f", of->name, 1e3 * middle, 1e3 * share(of, 90));
    if (raw) printf(" %8.2f", middle / share(raw, 50));
    printf("\n");
    fflush(stdout);
}

/* ---- the store, and raw calls */

static ts_rados_place place = {.user = "store", .pool = "store", .cache = 64 << 20};
static ts_info info;
static rados_ioctx_t pool;

static ts_rados *opened(void) {
    ts_rados *host;
    ts_rados_cause cause;
    int32_t code = ts_rados_open(&place, &host, &info);
    if (code != TS_OK && ts_rados_error(NULL, &cause) == TS_OK) fprintf(stderr, "%s\n", cause.text);
    CHECK(TS_OK, code);
    return host;
}

static void connect_raw(void) {
    rados_t cluster;
    HOLDS(rados_create(&cluster, "store") == 0 && rados_conf_read_file(cluster, place.conf) == 0 && rados_connect(cluster) == 0);
    HOLDS(rados_ioctx_create(cluster, "store", &pool) == 0);
    rados_ioctx_set_namespace(pool, "raw");
}

/* Writes so many extents side by side and waits, then a slot's body, then its gate. */
static void raw_group(uint64_t number, size_t extents) {
    char bytes[EXTENT];
    rados_completion_t done[GROUP];
    char name[32];
    memset(bytes, (int)(number % 251), sizeof bytes);
    for (size_t n = 0; n < extents; n++) {
        uint64_t at = (number * extents + n) * EXTENT;
        snprintf(name, sizeof name, "heap.%08x", (unsigned)(at / PIECE));
        HOLDS(rados_aio_create_completion2(NULL, NULL, &done[n]) == 0);
        HOLDS(rados_aio_write(pool, name, done[n], bytes, EXTENT, at % PIECE) == 0);
    }
    for (size_t n = 0; n < extents; n++) {
        rados_aio_wait_for_complete(done[n]);
        HOLDS(rados_aio_get_return_value(done[n]) == 0);
        rados_aio_release(done[n]);
    }
    HOLDS(rados_write(pool, "status.00000000", bytes, 511, number * 512 % PIECE + 1) == 0);
    HOLDS(rados_write(pool, "status.00000000", bytes, 1, number * 512 % PIECE) == 0);
}

static void put_value(ts *h, uint64_t txn, uint64_t record, uint64_t version) {
    uint8_t value[1 + FIELDS * (1 + FIELD_LEN)] = {FIELDS};
    for (size_t field = 0; field < FIELDS; field++) {
        uint8_t *at = value + 1 + field * (1 + FIELD_LEN);
        at[0] = FIELD_LEN;
        for (size_t i = 0; i < FIELD_LEN; i++) at[1 + i] = (uint8_t)(record * 31 + version * 17 + field * 7 + i * i);
    }
    CHECK(TS_OK, ts_put(h, txn, 1, record, value, sizeof value));
}

/* ---- commits */

static void one_commit(ts_rados *host, uint64_t record) {
    ts *h = ts_rados_store(host);
    CHECK(TS_OK, ts_begin(h, &info));
    uint64_t txn = info.a;
    put_text(h, txn, record, "abcdefgh");
    CHECK(TS_OK, ts_rados_commit(host, txn, 1, 0, &info));
}

/* What 16 callers bring to the thread that owns the store, which commits them together. */
static void one_group(ts_rados *host, uint64_t number) {
    ts *h = ts_rados_store(host);
    uint64_t tickets[GROUP];
    for (uint64_t n = 0; n < GROUP; n++) tickets[n] = submit_text(h, number * GROUP + n, "abcdefgh", 1, 0);
    CHECK(TS_OK, ts_rados_flush(host));
    for (uint64_t n = 0; n < GROUP; n++) CHECK(TS_OK, ts_redeem(h, tickets[n], &info));
}

static samples raw_commit = {.name = "raw: an extent, a slot's body, its gate"};
static samples commit = {.name = "a commit alone"};
static samples raw_sixteen = {.name = "raw: 16 extents, a slot's body, its gate"};
static samples sixteen = {.name = "16 commits in a group"};

static void commits_round(ts_rados *host) {
    static uint64_t number;
    for (int n = 0; n < COMMITS_A_ROUND; n++, number++) {
        double start = now();
        raw_group(number, 1);
        add(&raw_commit, start);
        start = now();
        one_commit(host, number);
        add(&commit, start);
    }
    for (int n = 0; n < GROUPS_A_ROUND; n++, number++) {
        double start = now();
        raw_group(number, GROUP);
        add(&raw_sixteen, start);
        start = now();
        one_group(host, number);
        add(&sixteen, start);
    }
}

/* ---- commits by 16 threads: all that wait are committed together by the thread that owns the store */

static samples raw_threads = {.name = "raw, by each of 16 threads: an extent, a body, its gate"};
static samples by_threads = {.name = "a commit by each of 16 threads"};
static double threads_seconds;
static uint64_t threads_groups;

/* What a thread does in a round: raw calls where there is no queue. */
typedef struct work {
    queue *queue;
    uint64_t first; /* of its records */
} work;

static void *work_of_thread(void *argument) {
    const work *w = argument;
    for (uint64_t n = 0; n < COMMITS_OF_THREAD; n++) {
        double start = now();
        if (w->queue) queue_ask(w->queue, w->first + n);
        else raw_group(w->first + n, 1);
        add(w->queue ? &by_threads : &raw_threads, start);
    }
    if (w->queue) queue_leave(w->queue);
    return NULL;
}

/* The threads and, where there is a queue, its owner, which is this one. */
static void run_threads(ts_rados *host, queue *q, uint64_t first) {
    pthread_t threads[THREADS];
    work works[THREADS];
    for (uint64_t n = 0; n < THREADS; n++) {
        works[n] = (work){.queue = q, .first = first + n * COMMITS_OF_THREAD};
        HOLDS(pthread_create(&threads[n], NULL, work_of_thread, &works[n]) == 0);
    }
    if (q) threads_groups += queue_own(q, host);
    for (int n = 0; n < THREADS; n++) HOLDS(pthread_join(threads[n], NULL) == 0);
}

static void threads_round(ts_rados *host, uint64_t round) {
    queue q;
    uint64_t first = round * THREADS * COMMITS_OF_THREAD;
    run_threads(host, NULL, first);
    queue_init(&q, THREADS);
    double start = now();
    run_threads(host, &q, first);
    threads_seconds += now() - start;
}

/* ---- opening */

static samples raw_read = {.name = "raw: the same bytes read, a piece after the other"};
static samples opening = {.name = "opening"};
static samples taking_over = {.name = "opening, and the former owner is shut out"};

static void read_area(const char *area) {
    static char bytes[PIECE];
    char name[32];
    int got = PIECE;
    for (unsigned n = 0; got == PIECE; n++) {
        snprintf(name, sizeof name, "%s.%08x", area, n);
        got = rados_read(pool, name, bytes, PIECE, 0);
    }
}

static void read_raw(const char *store) {
    rados_ioctx_set_namespace(pool, store);
    read_area("status");
    read_area("heap");
    rados_ioctx_set_namespace(pool, "raw");
}

/* Closes a store and opens it again, once when it was given back and once while it is open. */
static ts_rados *opening_round(ts_rados *host) {
    double start = now();
    read_raw(place.store);
    add(&raw_read, start);
    ts_rados_close(host);
    start = now();
    host = opened();
    add(&opening, start);
    place.take_over = true;
    start = now();
    ts_rados *next = opened();
    add(&taking_over, start);
    place.take_over = false;
    ts_rados_close(host);
    return next;
}

/* ---- queries */

static samples raw_block = {.name = "raw: 64 KiB of the archive read"};
static samples in_memory = {.name = "a value that memory has"};
static samples first_archived = {.name = "a value that the archive has, at first"};
static samples archived = {.name = "a value that the archive has, its blocks kept"};

static void fill_archive(ts_rados *host) {
    ts *h = ts_rados_store(host);
    for (uint64_t version = 0; version <= ARCHIVED; version++) {
        CHECK(TS_OK, ts_begin(h, &info));
        uint64_t txn = info.a;
        for (uint64_t record = 0; record < RECORDS; record++) put_value(h, txn, record, version);
        CHECK(TS_OK, ts_rados_commit(host, txn, 1, 100 * (version + 1), &info));
    }
    CHECK(TS_OK, ts_archive(h, 100 * (ARCHIVED + 1), &info));
    CHECK(TS_OK, ts_rados_job(host));
    CHECK(TS_OK, ts_reclaim(h, &info));
    CHECK(TS_OK, ts_rados_job(host));
}

static void ask(ts_rados *host, uint64_t record, uint64_t time, samples *of) {
    static uint8_t out[TS_VALUE_MOST];
    ts_info view;
    CHECK(TS_OK, ts_view(ts_rados_store(host), &view));
    double start = now();
    CHECK(TS_OK, ts_rados_at(host, view.a, 1, record, time, out, sizeof out, &info));
    if (of) add(of, start);
    CHECK(TS_OK, ts_end(ts_rados_store(host), view.a));
}

static void queries_round(uint64_t round) {
    static char bytes[BLOCK];
    ts_rados *host = opened();
    rados_ioctx_set_namespace(pool, place.store);
    for (uint64_t n = 0; n < QUERIES_A_ROUND; n++) {
        double start = now();
        HOLDS(rados_read(pool, "archive.00000000", bytes, BLOCK, n % (PIECE / BLOCK) * BLOCK) == BLOCK);
        add(&raw_block, start);
    }
    rados_ioctx_set_namespace(pool, "raw");
    ask(host, round * 97 % RECORDS, 150, &first_archived);
    for (uint64_t version = 1; version <= ARCHIVED; version++)
        for (uint64_t record = 0; record < RECORDS; record++) ask(host, record, 100 * version, NULL);
    for (uint64_t n = 0; n < QUERIES_A_ROUND; n++) {
        ask(host, n * 31 % RECORDS, 100 * (1 + n % ARCHIVED), &archived);
        ask(host, n * 31 % RECORDS, 100 * (ARCHIVED + 1), &in_memory);
    }
    ts_rados_close(host);
}

static void make(const char *name) {
    place.store = name;
    CHECK(TS_OK, ts_rados_format(&place, 65536));
}

int main(int argc, char **argv) {
    if (argc != 3) return 2;
    place.conf = argv[1];
    uint64_t rounds = strtoull(argv[2], NULL, 10);
    connect_raw();
    make("bench-commits");
    ts_rados *host = opened();
    for (uint64_t round = 0; round < rounds; round++) {
        commits_round(host);
        threads_round(host, round);
        host = opening_round(host);
    }
    CHECK(TS_OK, ts_last(ts_rados_store(host), &info));
    printf("%-58s %9s %9s %8s\n", "ms", "median", "90 of 100", "to raw");
    row(&raw_commit, NULL);
    row(&commit, &raw_commit);
    row(&raw_sixteen, NULL);
    row(&sixteen, &raw_sixteen);
    row(&raw_threads, NULL);
    row(&by_threads, &raw_threads);
    double commits = (double)by_threads.count;
    printf("commits a second: alone %.0f, 16 in a group %.0f, by 16 threads %.0f, of which %.1f are taken together\n", 1 / share(&commit, 50),
           GROUP / share(&sixteen, 50), commits / threads_seconds, commits / (double)threads_groups);
    row(&raw_read, NULL);
    row(&opening, &raw_read);
    row(&taking_over, &raw_read);
    printf("of %" PRIu64 " commits at the last opening\n", rounds * (COMMITS_A_ROUND + GROUP * GROUPS_A_ROUND + THREADS * COMMITS_OF_THREAD));
    ts_rados_close(host);
    make("bench-archive");
    host = opened();
    fill_archive(host);
    ts_rados_close(host);
    for (uint64_t round = 0; round < rounds; round++) queries_round(round);
    row(&raw_block, NULL);
    row(&first_archived, &raw_block);
    row(&archived, NULL);
    row(&in_memory, NULL);
    return 0;
}
