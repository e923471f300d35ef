/* Threads over one store: threads FOLDER WRITERS READERS SECONDS, a folder that is there and empty. Each writer commits one
 * record at a time, each reader asks for one that stands now. It ends sooner where there were as many commits as the
 * smallest store has room for. One line: commits a second, values a second. */
#define _GNU_SOURCE
#include "threads.h"
#include <pthread.h>
#include <stdarg.h>
#include <stdatomic.h>
#include <stdio.h>
#include <stdlib.h>
#include <time.h>
#include <unistd.h>

enum { THREADS_MOST = 128, COMMITS_MOST = 50000, RECORDS = 1024, STEP = 64 };

static atomic_uint_fast64_t commits, values;
static atomic_bool over;
static pthread_barrier_t all_there;

void die(const char *format, ...) {
    va_list words;
    va_start(words, format);
    vfprintf(stderr, format, words);
    va_end(words);
    fputc('\n', stderr);
    exit(1);
}

static double seconds(void) {
    struct timespec now;
    clock_gettime(CLOCK_MONOTONIC, &now);
    return (double)now.tv_sec + 1e-9 * (double)now.tv_nsec;
}

static void *write_on(void *arg) {
    static const uint8_t value[LEN] = "abcdefgh";
    void *own = thread_begin();
    uint64_t record = (uintptr_t)arg;
    pthread_barrier_wait(&all_there);
    while (!atomic_load(&over)) {
        uint64_t number = atomic_fetch_add(&commits, 1);
        if (number >= COMMITS_MOST) {
            atomic_store(&over, true);
            break;
        }
        store_put(own, record = (record + STEP) % RECORDS, RECORDS + number + 1, value); /* no other thread's */
    }
    thread_end(own);
    return NULL;
}

static void *read_on(void *arg) {
    uint8_t value[LEN];
    void *own = thread_begin();
    uint64_t count = 0, record = (uintptr_t)arg;
    pthread_barrier_wait(&all_there);
    for (; !atomic_load(&over); count++)
        if (!store_get(own, record = (record * 7 + 1) % RECORDS, value)) die("no value of %d", (int)record);
    atomic_fetch_add(&values, count);
    thread_end(own);
    return NULL;
}

/* Each record has a value, where some are read. */
static void fill(void) {
    static const uint8_t value[LEN] = "12345678";
    void *own = thread_begin();
    for (uint64_t record = 0; record < RECORDS; record++) store_put(own, record, record + 1, value);
    thread_end(own);
}

int main(int argc, char **argv) {
    pthread_t threads[THREADS_MOST];
    if (argc != 5) return 2;
    int writers = atoi(argv[2]), readers = atoi(argv[3]);
    if (writers < 1 || readers < 0 || writers + readers > THREADS_MOST) return 2;
    store_open(argv[1]);
    if (readers > 0) fill();
    pthread_barrier_init(&all_there, NULL, (unsigned)(writers + readers) + 1);
    for (int i = 0; i < writers + readers; i++)
        if (pthread_create(&threads[i], NULL, i < writers ? write_on : read_on, (void *)(uintptr_t)i)) die("no thread");
    pthread_barrier_wait(&all_there);
    double start = seconds(), end = start + atof(argv[4]);
    while (!atomic_load(&over) && seconds() < end) usleep(1000);
    atomic_store(&over, true);
    for (int i = 0; i < writers + readers; i++) pthread_join(threads[i], NULL);
    double took = seconds() - start;
    uint64_t done = atomic_load(&commits) < COMMITS_MOST ? atomic_load(&commits) : COMMITS_MOST;
    printf("%.0f %.0f\n", (double)done / took, (double)atomic_load(&values) / took);
    store_close();
    return 0;
}
