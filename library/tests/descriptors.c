/* Whose the descriptors of a store are: descriptors FOLDER, one that is there. None is left open, none is one that the process
 * writes its messages to, and a child of a fork has none, whenever the fork comes. */
#define _GNU_SOURCE
#include "check.h"
#include "faults.h"
#include <dirent.h>
#include <errno.h>
#include <fcntl.h>
#include <pthread.h>
#include <semaphore.h>
#include <sys/resource.h>
#include <sys/wait.h>
#include <time.h>
#include <unistd.h>

enum { PATIENCE = 300000000 }; /* nanoseconds: another thread has done its work by then, or waits for this one */

static const char *folder;
static ts_info info;

static const char *path_of(const char *name) {
    static _Thread_local char path[4200];
    snprintf(path, sizeof path, "%s/%s", folder, name);
    return path;
}

/* ---- a thread that does something amid a call of another one */

static void (*what)(void);
static sem_t begins, ended;

static void *other_thread(void *none) {
    (void)none;
    HOLDS(sem_wait(&begins) == 0);
    what();
    HOLDS(sem_post(&ended) == 0);
    return NULL;
}

/* Lets the other thread do it; where that waits for this one, it goes on meanwhile. */
static void let_it(void) {
    struct timespec until;
    clock_gettime(CLOCK_REALTIME, &until);
    until.tv_nsec += PATIENCE;
    until.tv_sec += until.tv_nsec / 1000000000;
    until.tv_nsec %= 1000000000;
    HOLDS(sem_post(&begins) == 0);
    HOLDS(sem_timedwait(&ended, &until) == 0 || errno == ETIMEDOUT);
}

/* Makes this call while another thread does that, just before a file of this name is opened, or before the first fsync. */
static int32_t amid_a_call(const char *of, void (*that)(void), int32_t (*call)(void)) {
    pthread_t thread;
    HOLDS(sem_init(&begins, 0, 0) == 0 && sem_init(&ended, 0, 0) == 0);
    what = that;
    faults_before(of, let_it);
    HOLDS(pthread_create(&thread, NULL, other_thread, NULL) == 0);
    int32_t code = call();
    HOLDS(pthread_join(thread, NULL) == 0);
    return code;
}

/* ---- what a process has open */

/* How many descriptors it has, or of these how many are of files of the store. */
static int count_open(bool of_store) {
    char link[300], path[4200];
    int count = 0;
    DIR *all = opendir("/proc/self/fd");
    HOLDS(all != NULL);
    for (struct dirent *it; (it = readdir(all));) {
        snprintf(link, sizeof link, "/proc/self/fd/%s", it->d_name);
        ssize_t len = readlink(link, path, sizeof path - 1);
        if (len < 0) continue;
        path[len] = 0;
        const char *name = strrchr(path, '/');
        bool is = name && (!strcmp(name, "/status") || !strcmp(name, "/heap") || !strcmp(name, "/archive"));
        count += !of_store || is;
    }
    closedir(all);
    return count;
}

static void has_none(void) { HOLDS(count_open(true) == 0); }

/* A child that does this; whether it went well. */
static void child_does(void (*it)(void)) {
    int state;
    pid_t child = fork();
    if (child == 0) {
        it();
        _exit(0);
    }
    HOLDS(child > 0 && waitpid(child, &state, 0) == child && WIFEXITED(state) && WEXITSTATUS(state) == 0);
}

/* ---- none is left open */

static ts_file *file;

static int32_t opens(void) { return ts_file_open(folder, &file, &info); }

static int32_t formats(void) { return ts_file_format(folder, 64); }

static int32_t formats_endless(void) { return ts_file_format_endless(folder, 64); }

static void leaves_none(int32_t code, int32_t (*call)(void)) {
    int count = count_open(false);
    CHECK(code, call());
    HOLDS(count_open(false) == count);
}

static void none_is_left(void) {
    leaves_none(TS_NOT_A_STORE, opens);
    leaves_none(TS_OK, formats);
    leaves_none(TS_OCCUPIED, formats);
    leaves_none(TS_OCCUPIED, formats_endless);
    faults_refuse_reads(EIO);
    leaves_none(TS_SYSTEM, opens);
    faults_refuse_reads(0);
    faults_refuse(1, EIO);
    leaves_none(TS_SYSTEM, opens);
    faults_refuse(0, 0);
}

static void none_is_left_of_a_part(void) {
    char away[4300];
    snprintf(away, sizeof away, "%s-away", path_of("archive"));
    HOLDS(rename(path_of("archive"), away) == 0);
    leaves_none(TS_NOT_A_STORE, opens);
    HOLDS(mkdir(path_of("archive"), 0777) == 0);
    leaves_none(TS_SYSTEM, opens);
    HOLDS(was_caused(NULL, "openat", "archive", EISDIR));
    HOLDS(rmdir(path_of("archive")) == 0 && rename(away, path_of("archive")) == 0);
    CHECK(TS_OK, opens());
    leaves_none(TS_ALREADY_OPEN, opens);
    HOLDS(count_open(true) == 3);
    ts_file_close(file);
    HOLDS(count_open(true) == 0);
}

/* A process that may have only so many more: the folder, and each of the three files, is refused in its turn. */
static void none_is_left_where_there_are_few(void) {
    struct rlimit old, few;
    HOLDS(getrlimit(RLIMIT_NOFILE, &old) == 0);
    int next = dup(STDERR_FILENO); /* the lowest that is free */
    HOLDS(next > STDERR_FILENO && close(next) == 0);
    few = old;
    for (int more = 0; more < 4; more++) {
        few.rlim_cur = (rlim_t)(next + more);
        HOLDS(setrlimit(RLIMIT_NOFILE, &few) == 0);
        int32_t opened = opens();
        bool is_told = was_caused(NULL, more == 0 ? "open" : "openat", (const char *[]){"", "status", "heap", "archive"}[more], EMFILE);
        int32_t formatted = formats();
        HOLDS(setrlimit(RLIMIT_NOFILE, &old) == 0);
        CHECK(TS_SYSTEM, opened);
        CHECK(TS_SYSTEM, formatted);
        HOLDS(is_told);
        has_none();
    }
}

/* ---- none is one that messages are written to */

static bool writes_messages(void) {
    bool all = true;
    for (int fd = 0; fd <= STDERR_FILENO; fd++) all = write(fd, "a message\n", 10) < 0 && errno == EBADF && all;
    return all;
}

/* In a child that has closed its standard streams; it can tell what was wrong by its status alone. */
static void opens_without_streams(void) {
    for (int fd = 0; fd <= STDERR_FILENO; fd++) close(fd);
    if (opens() != TS_OK || !writes_messages()) _exit(2);
    commit_text(file, 7, "kept", 9, 100);
    if (!writes_messages()) _exit(3);
    ts_file_close(file);
    for (int fd = 0; fd <= STDERR_FILENO; fd++)
        if (fcntl(fd, F_GETFD) >= 0) _exit(4);
}

static void none_is_a_stream(void) {
    child_does(opens_without_streams);
    CHECK(TS_OK, opens());
    HOLDS(info.a == 100 && now_has(ts_file_store(file), 7, 100, "kept"));
    ts_file_close(file);
}

/* ---- a child has none */

static void forks(void) { child_does(has_none); }

static ts_file *second;
static int32_t second_code;

static void opens_second(void) { second_code = ts_file_open(folder, &second, &info); }

static void a_child_has_none(void) {
    CHECK(TS_OK, opens());
    forks();
    ts_file_close(file);
    static const char *const names[] = {"status", "heap", "archive"};
    for (int i = 0; i < 3; i++) {
        CHECK(TS_OK, amid_a_call(names[i], forks, opens));
        HOLDS(count_open(true) == 3);
        ts_file_close(file);
        CHECK(TS_OCCUPIED, amid_a_call(names[i], forks, formats));
    }
    CHECK(TS_OCCUPIED, amid_a_call("fsync", forks, formats));
}

/* The second of two openings by one process is told as such, though the first has not ended. */
static void opens_at_once(void) {
    CHECK(TS_OK, amid_a_call("archive", opens_second, opens));
    CHECK(TS_ALREADY_OPEN, second_code);
    ts_file_close(file);
}

int main(int argc, char **argv) {
    if (argc != 2) return 2;
    folder = argv[1];
    none_is_left();
    none_is_left_of_a_part();
    none_is_left_where_there_are_few();
    none_is_a_stream();
    a_child_has_none();
    opens_at_once();
    return 0;
}
