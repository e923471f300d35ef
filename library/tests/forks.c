/* Forks under an open store: forks FOLDER, one that is there. The store is its parent's alone, and may be opened again. */
#define _GNU_SOURCE
#include "check.h"
#include <sys/stat.h>
#include <sys/syscall.h>
#include <sys/wait.h>
#include <unistd.h>

static const char *folder;
static ts_file *file;
static ts_info info;

static void open_it(void) { CHECK(TS_OK, ts_file_open(folder, &file, &info)); }

/* A child that does this; whether it went well. */
static void child_does(void (*what)(void)) {
    int state;
    pid_t child = fork();
    if (child == 0) {
        what();
        _exit(0);
    }
    HOLDS(child > 0 && waitpid(child, &state, 0) == child && WIFEXITED(state) && WEXITSTATUS(state) == 0);
}

static void is_locked(void) {
    ts_file *other;
    CHECK(TS_LOCKED, ts_file_open(folder, &other, &info));
    CHECK(TS_LOCKED, ts_file_format_endless(folder, 64));
}

static void has_no_store(void) {
    const uint8_t *archive;
    size_t len;
    ts *h = ts_file_store(file);
    CHECK(TS_CLOSED, ts_begin(h, &info));
    CHECK(TS_CLOSED, ts_last(h, &info));
    CHECK(TS_CLOSED, ts_file_flush(file));
    CHECK(TS_CLOSED, ts_file_pump(file, &info));
    CHECK(TS_CLOSED, ts_file_archive(file, &archive, &len));
    is_locked();
    ts_file_close(file);
    is_locked();
}

/* A process that a fork leaves behind, as long as the pipe is open; by the system's own call it runs none of the
   handlers of a fork, and has the descriptors. */
static pid_t left_behind(bool handled, int *pipe_end) {
    int ends[2];
    char byte;
    HOLDS(pipe(ends) == 0);
    pid_t child = handled ? fork() : (pid_t)syscall(SYS_fork);
    if (child == 0) {
        close(ends[1]);
        _exit((int)read(ends[0], &byte, 1));
    }
    close(ends[0]);
    *pipe_end = ends[1];
    return child;
}

static void opens_beside_its_child(bool handled) {
    int end, state;
    open_it();
    pid_t child = left_behind(handled, &end);
    HOLDS(child > 0);
    ts_file_close(file);
    open_it();
    commit_text(file, 7, "beside", 9, 0);
    ts_file_close(file);
    close(end);
    HOLDS(waitpid(child, &state, 0) == child && WIFEXITED(state) && WEXITSTATUS(state) == 0);
}

/* A second opening by the same process is told as such, by whatever name. */
static void opens_twice(void) {
    ts_file *other;
    char path[4200];
    snprintf(path, sizeof path, "%s/other-name", folder);
    HOLDS(symlink(".", path) == 0);
    open_it();
    CHECK(TS_ALREADY_OPEN, ts_file_open(folder, &other, &info));
    CHECK(TS_ALREADY_OPEN, ts_file_open(path, &other, &info));
    CHECK(TS_ALREADY_OPEN, ts_file_format(folder, 16));
    CHECK(TS_ALREADY_OPEN, ts_file_format_endless(folder, 64));
    child_does(is_locked);
    ts_file_close(file);
    CHECK(TS_OK, ts_file_open(path, &file, &info));
    ts_file_close(file);
}

int main(int argc, char **argv) {
    if (argc != 2) return 2;
    folder = argv[1];
    CHECK(TS_OK, ts_file_format(folder, 64));
    open_it();
    child_does(has_no_store);
    child_does(is_locked);
    commit_text(file, 7, "parent", 9, 0);
    ts_file_close(file);
    opens_beside_its_child(true);
    opens_beside_its_child(false);
    opens_twice();
    return 0;
}
