/* Calls of the system that go wrong: see faults.h. It stands between the library and the C library, linked into a test
 * or preloaded. Of pages that are not on the disk it keeps what the disk has instead. */
#define _GNU_SOURCE
#include "faults.h"
#include <dlfcn.h>
#include <errno.h>
#include <fcntl.h>
#include <stdarg.h>
#include <stdatomic.h>
#include <stdlib.h>
#include <string.h>
#include <sys/mman.h>
#include <sys/stat.h>
#include <sys/vfs.h>
#include <unistd.h>

enum { PAGE = 4096, PAGES_MOST = 4096, FDS_MOST = 1024, EXT4 = 0xEF53 };

/* A page of a file that the system has in memory and the disk has not. */
typedef struct page {
    dev_t device;
    ino_t number;
    uint64_t at;
    bool dirty; /* a sync will write it; else the system takes it for written */
    uint8_t disk[PAGE];
} page;

static _Thread_local uint64_t made, refused_call;
static _Thread_local int call_errno, read_errno;
static atomic_uint_fast64_t made_by_all, refused_of_all; /* before the call that is refused of all threads' */
static atomic_int errno_of_all;
static const char *before_name;
static void (*before_what)(void);
static bool loses, keeps, has_direct, is_direct[FDS_MOST];
static page *pages[PAGES_MOST];

#define REAL(name) ((__typeof__(name) *)dlsym(RTLD_NEXT, #name))

void faults_refuse(uint64_t call, int number) {
    made = 0;
    refused_call = call;
    call_errno = number;
}

void faults_refuse_of_all(uint64_t call, int number) {
    atomic_store(&made_by_all, 0);
    atomic_store(&errno_of_all, number);
    atomic_store(&refused_of_all, call);
}

void faults_refuse_reads(int number) { read_errno = number; }

void faults_lose(void) { loses = true; }

void faults_keep(bool direct) {
    keeps = true;
    has_direct = direct;
}

void faults_before(const char *name, void (*what)(void)) {
    before_name = name;
    before_what = what;
}

static void do_before(const char *name) {
    if (!before_name || strcmp(before_name, name) != 0) return;
    before_name = NULL;
    before_what();
}

static bool is_refused(void) {
    bool is_of_all = atomic_fetch_add(&made_by_all, 1) + 1 == atomic_load(&refused_of_all);
    bool is_of_thread = ++made == refused_call;
    if (is_of_thread || is_of_all) errno = is_of_thread ? call_errno : atomic_load(&errno_of_all);
    return is_of_thread || is_of_all;
}

/* ---- pages that the disk lacks */

static bool is_of(const page *it, const struct stat *file) {
    return it && it->device == file->st_dev && it->number == file->st_ino;
}

static page *find(const struct stat *file, uint64_t at) {
    for (int i = 0; i < PAGES_MOST; i++)
        if (is_of(pages[i], file) && pages[i]->at == at) return pages[i];
    return NULL;
}

static page *add(int fd, const struct stat *file, uint64_t at) {
    int i = 0;
    while (i < PAGES_MOST && pages[i]) i++;
    if (i == PAGES_MOST || !(pages[i] = calloc(1, sizeof(page)))) abort();
    *pages[i] = (page){.device = file->st_dev, .number = file->st_ino, .at = at};
    if (REAL(pread)(fd, pages[i]->disk, PAGE, (off_t)at) < 0) abort();
    return pages[i];
}

static void soil(int fd, off_t from, size_t len) {
    struct stat file;
    if (fstat(fd, &file)) abort();
    for (uint64_t at = (uint64_t)from / PAGE * PAGE; at < (uint64_t)from + len; at += PAGE) {
        page *it = find(&file, at);
        if (!it) it = add(fd, &file, at);
        it->dirty = true;
    }
}

/* What a sync leaves: the disk has the dirty pages, or the system takes them for written. */
static void clean(int fd, bool written) {
    struct stat file;
    if (fstat(fd, &file)) abort();
    for (int i = 0; i < PAGES_MOST; i++) {
        if (!is_of(pages[i], &file) || !pages[i]->dirty) continue;
        pages[i]->dirty = false;
        if (!written) continue;
        free(pages[i]);
        pages[i] = NULL;
    }
}

/* The file has of a page what the disk has; nothing behind its end. */
static void put_back(int fd, const page *it, const struct stat *file) {
    uint64_t left = it->at < (uint64_t)file->st_size ? (uint64_t)file->st_size - it->at : 0;
    if (REAL(pwrite)(fd, it->disk, left < PAGE ? left : PAGE, (off_t)it->at) < 0) abort();
}

/* The system forgets the clean pages of a file, or after a stop all. */
static void forget(int fd, bool all) {
    struct stat file;
    if (fstat(fd, &file)) abort();
    for (int i = 0; i < PAGES_MOST; i++) {
        if (!is_of(pages[i], &file) || (pages[i]->dirty && !all)) continue;
        put_back(fd, pages[i], &file);
        free(pages[i]);
        pages[i] = NULL;
    }
}

static void forget_folder(const char *folder) {
    static const char *const names[] = {"status", "heap", "archive"};
    char path[4096];
    for (int i = 0; i < 3; i++) {
        strcat(strcat(strcpy(path, folder), "/"), names[i]);
        int fd = open(path, O_RDWR | O_CLOEXEC);
        if (fd < 0 && errno == ENOENT) continue;
        if (fd < 0) abort();
        forget(fd, true);
        close(fd);
    }
}

void faults_stop(const char *folder) {
    loses = keeps = false;
    forget_folder(folder);
}

/* ---- the calls */

ssize_t pwrite(int fd, const void *bytes, size_t len, off_t at) {
    if (is_refused()) return -1;
    if (loses) soil(fd, at, len);
    return REAL(pwrite)(fd, bytes, len, at);
}

int fdatasync(int fd) {
    bool is = is_refused();
    if (loses) clean(fd, !is);
    return is ? -1 : REAL(fdatasync)(fd);
}

ssize_t pread(int fd, void *bytes, size_t len, off_t at) {
    struct stat file;
    do_before("pread");
    if (read_errno) {
        errno = read_errno;
        return -1;
    }
    ssize_t count = REAL(pread)(fd, bytes, len, at);
    if (count <= 0 || !is_direct[fd] || fstat(fd, &file)) return count;
    for (int i = 0; i < PAGES_MOST; i++) {
        if (!is_of(pages[i], &file) || pages[i]->at < (uint64_t)at || pages[i]->at >= (uint64_t)at + (uint64_t)count) continue;
        size_t from = (size_t)(pages[i]->at - (uint64_t)at), left = (size_t)count - from;
        memcpy((uint8_t *)bytes + from, pages[i]->disk, left < PAGE ? left : PAGE);
    }
    return count;
}

int posix_fadvise(int fd, off_t at, off_t len, int advice) {
    if (loses && !keeps && advice == POSIX_FADV_DONTNEED) forget(fd, false);
    return keeps ? 0 : REAL(posix_fadvise)(fd, at, len, advice);
}

int mincore(void *at, size_t len, unsigned char *resident) {
    if (!loses && !keeps) return REAL(mincore)(at, len, resident);
    memset(resident, keeps, (len + PAGE - 1) / PAGE);
    return 0;
}

/* So that what the library does on a disk is seen on each file system. */
int fstatfs(int fd, struct statfs *system) {
    int code = REAL(fstatfs)(fd, system);
    if (loses || keeps) system->f_type = EXT4;
    return code;
}

int openat(int dir, const char *name, int flags, ...) {
    va_list words;
    va_start(words, flags);
    mode_t mode = flags & O_CREAT ? va_arg(words, mode_t) : 0;
    va_end(words);
    do_before(name);
    return REAL(openat)(dir, name, flags, mode);
}

int fsync(int fd) {
    do_before("fsync");
    return REAL(fsync)(fd);
}

int fcntl(int fd, int command, ...) {
    va_list words;
    va_start(words, command);
    void *word = va_arg(words, void *);
    va_end(words);
    if (!keeps || command != F_SETFL) return REAL(fcntl)(fd, command, word);
    if (((intptr_t)word & O_DIRECT) && !has_direct) {
        errno = EINVAL;
        return -1;
    }
    is_direct[fd] = (intptr_t)word & O_DIRECT;
    return 0;
}
