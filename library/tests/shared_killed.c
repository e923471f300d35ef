/* A process that is killed amid the commits of sixteen threads: shared_killed FOLDER ROUNDS, one that is there. Each
 * commit that was answered as done is there when the store is opened again. */
#define _GNU_SOURCE
#include "check.h"
#include <pthread.h>
#include <signal.h>
#include <sys/wait.h>
#include <timestore_shared.h>
#include <unistd.h>

enum { THREADS = 16, DONE_MOST = 100000 };

/* What a thread tells of a commit, in one write to a pipe. */
typedef struct done {
    uint64_t record, number, time;
} done;

static ts_shared *s;
static int told;
static uint64_t first; /* the numbers of a round go on behind those of the last one */

static void *write_on(void *arg) {
    uint8_t value[258];
    char text[24];
    ts_info info;
    done it = {.record = (uint64_t)(uintptr_t)arg};
    for (it.number = first;; it.number++) {
        snprintf(text, sizeof text, "%" PRIu64, it.number);
        size_t len = value_of(text, value);
        CHECK(TS_OK, ts_shared_put(s, 1, it.record, value, len, it.record, 0, &info));
        it.time = info.a;
        if (write(told, &it, sizeof it) != sizeof it) return NULL;
    }
}

/* Makes commits until it is killed. */
static void be_killed(const char *folder) {
    ts_policy policy = {.every = 20000, .keep = 100, .grows = true};
    pthread_t threads[THREADS];
    ts_info info;
    CHECK(TS_OK, ts_shared_open(folder, &s, &info));
    CHECK(TS_OK, ts_shared_vacuum(s, &policy));
    for (uintptr_t i = 0; i < THREADS; i++) HOLDS(pthread_create(&threads[i], NULL, write_on, (void *)i) == 0);
    for (int i = 0; i < THREADS; i++) pthread_join(threads[i], NULL);
    _exit(1);
}

/* What the process told until it was killed. */
static size_t killed_after(const char *folder, unsigned wait, done *all) {
    int ends[2], state;
    HOLDS(pipe(ends) == 0);
    pid_t child = fork();
    if (child == 0) {
        close(ends[0]);
        told = ends[1];
        be_killed(folder);
    }
    close(ends[1]);
    size_t count = 0;
    HOLDS(child > 0 && read(ends[0], &all[count++], sizeof *all) == sizeof *all);
    usleep(wait);
    HOLDS(kill(child, SIGKILL) == 0 && waitpid(child, &state, 0) == child && WIFSIGNALED(state));
    while (count < DONE_MOST && read(ends[0], &all[count], sizeof *all) == sizeof *all) count++;
    close(ends[0]);
    return count;
}

static void compare(const char *folder, const done *all, size_t count) {
    char text[24];
    uint8_t value[TS_VALUE_MOST], wanted[258];
    ts_info info;
    CHECK(TS_OK, ts_shared_open(folder, &s, &info));
    CHECK(TS_OK, ts_shared_view(s, &info));
    uint64_t view = info.a;
    for (const done *it = all; it < all + count; it++) {
        snprintf(text, sizeof text, "%" PRIu64, it->number);
        size_t len = value_of(text, wanted);
        CHECK(TS_OK, ts_shared_at(s, view, 1, it->record, it->time, value, sizeof value, &info));
        HOLDS(info.a == len && memcmp(value, wanted, len) == 0);
    }
    ts_shared_free(s);
}

int main(int argc, char **argv) {
    if (argc != 3) return 2;
    done *all = calloc(DONE_MOST, sizeof *all);
    HOLDS(all != NULL);
    CHECK(TS_OK, ts_file_format(argv[1], 1024));
    size_t count = 0;
    for (unsigned round = 0; round < strtoul(argv[2], NULL, 10); round++) {
        size_t before = count;
        first = 1000000 * (round + 1);
        count += killed_after(argv[1], 3000 + 17000 * round % 90000, all + count);
        HOLDS(count > before && count < DONE_MOST - 20000);
        compare(argv[1], all, count);
    }
    printf("%zu commits were done", count);
    free(all);
    return 0;
}
