/* An owner that is suspended with many writes under way, in areas without a store: fence CONF ROUNDS. Another one takes the areas over,
 * and once the first goes on it is refused, and no byte changes. The first is this program again: fence CONF write NAME. */
#define _GNU_SOURCE
#include "../../../tests/check.h"
#include "../rados_parts.h"
#include <fcntl.h>
#include <signal.h>
#include <spawn.h>
#include <sys/wait.h>
#include <unistd.h>

enum { EXTENT = 8192, EXTENTS = 3072, UNSYNCED = 300, TAKEN_OVER = 7 };

const char *ts_text(int32_t code) { return code == TS_OK ? "ok" : "a refusal"; } /* of the library, which is not linked */

extern char **environ;
static ts_rados_place place = {.user = "store", .pool = "store"};
static owner own;
static area heap;

static void open_heap(bool take_over) {
    memset(&own, 0, sizeof own);
    CHECK(TS_OK, tsr_owner_connect(&own, &place));
    CHECK(TS_OK, tsr_owner_take(&own, take_over));
    CHECK(TS_OK, tsr_area_of_objects(&heap, &own, "heap"));
}

/* Writes extents at places all over the area, and a sync for many of them, until it is refused; then no sync says that all is well. */
static int write_without_end(void) {
    uint8_t bytes[EXTENT];
    int32_t code = TS_OK;
    open_heap(true);
    for (uint64_t n = 0; code == TS_OK; n++) {
        memset(bytes, (int)(n % 255) + 1, sizeof bytes);
        code = tsr_area_write(&heap, n * 1103 % EXTENTS * EXTENT, bytes, sizeof bytes);
        if (code == TS_OK && n % UNSYNCED == 0) code = tsr_area_sync(&heap);
        if (n == UNSYNCED) HOLDS(write(STDOUT_FILENO, "begun\n", 6) == 6);
    }
    CHECK(TS_FENCED, code);
    CHECK(TS_FENCED, tsr_area_sync(&heap));
    tsr_area_close(&heap);
    tsr_owner_close(&own, false);
    return TAKEN_OVER;
}

/* The first owner, in a process of its own, once it writes. */
static pid_t start_first(const char *program, const char *name) {
    char *words[] = {(char *)program, (char *)place.conf, (char *)"write", (char *)name, NULL};
    posix_spawn_file_actions_t actions;
    int ends[2];
    char begun[6];
    pid_t child;
    HOLDS(pipe2(ends, O_CLOEXEC) == 0);
    posix_spawn_file_actions_init(&actions);
    posix_spawn_file_actions_adddup2(&actions, ends[1], STDOUT_FILENO);
    HOLDS(posix_spawn(&child, program, &actions, NULL, words, environ) == 0);
    posix_spawn_file_actions_destroy(&actions);
    close(ends[1]);
    HOLDS(read(ends[0], begun, sizeof begun) == sizeof begun);
    close(ends[0]);
    return child;
}

static uint8_t *read_heap(void) {
    uint8_t *bytes = malloc(heap.len);
    HOLDS(bytes != NULL);
    CHECK(TS_OK, tsr_area_read(&heap, 0, bytes, heap.len));
    return bytes;
}

static void one_round(const char *program, const char *name, unsigned wait_ms) {
    uint8_t ours[EXTENT] = {0};
    int state;
    pid_t first = start_first(program, name);
    usleep(1000 * wait_ms);
    HOLDS(kill(first, SIGSTOP) == 0);
    open_heap(true);
    HOLDS(own.former[0] && heap.len > 0);
    uint8_t *before = read_heap();
    for (uint64_t at = 0; at + EXTENT <= heap.len; at += 5 * EXTENT) {
        CHECK(TS_OK, tsr_area_write(&heap, at, ours, EXTENT));
        memcpy(before + at, ours, EXTENT);
    }
    CHECK(TS_OK, tsr_area_sync(&heap));
    HOLDS(kill(first, SIGCONT) == 0);
    HOLDS(waitpid(first, &state, 0) == first && WIFEXITED(state) && WEXITSTATUS(state) == TAKEN_OVER);
    usleep(300000);
    uint8_t *after = read_heap();
    HOLDS(memcmp(before, after, heap.len) == 0);
    uint64_t len = heap.len;
    free(before);
    free(after);
    tsr_area_close(&heap);
    tsr_owner_close(&own, true);
    open_heap(false); /* nothing was added to it */
    HOLDS(heap.len == len);
    tsr_area_close(&heap);
    tsr_owner_close(&own, true);
}

int main(int argc, char **argv) {
    char name[33];
    if (argc < 3) return 2;
    place.conf = argv[1];
    if (argc == 4) {
        place.store = argv[3];
        return write_without_end();
    }
    int rounds = atoi(argv[2]);
    for (int round = 0; round < rounds; round++) {
        CHECK(TS_OK, tsr_random_name(name));
        place.store = name;
        one_round(argv[0], name, 50 + 130 * (unsigned)round);
    }
    printf("%d rounds\n", rounds);
    return 0;
}
