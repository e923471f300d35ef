/* The calls of the system on the three files of a store. */
#define _GNU_SOURCE
#include "files.h"
#include <errno.h>
#include <fcntl.h>
#include <pthread.h>
#include <stdlib.h>
#include <string.h>
#include <sys/file.h>
#include <sys/mman.h>
#include <sys/stat.h>
#include <sys/vfs.h>
#include <unistd.h>

/* So much of a file is looked at together: whether the system has it in memory, and whether that is what the disk has. */
#define WINDOW ((size_t)1 << 20)
#define LEAST_PAGE 4096
/* What a direct read has its memory, place and length aligned to. */
#define ALIGNMENT 4096
/* File systems without a disk, by the type that fstatfs tells: their files are in memory alone. */
#define TMPFS 0x01021994
#define RAMFS 0x858458f6

static const char *const NAMES[AREAS] = {"status", "heap", "archive"};

/* ---- why the system refused a call */

ts_cause *tsi_last_cause(void) {
    static _Thread_local ts_cause last;
    return &last;
}

/* Notes the call that was refused, of which errno says why. */
static int32_t refused(const char *call, const char *file) {
    *tsi_last_cause() = (ts_cause){call, file, errno};
    return TS_SYSTEM;
}

static int32_t refused_on(const char *call, int area) { return refused(call, NAMES[area]); }

/* ---- the files that this process has open. A fork waits while some are opened or closed. */

static pthread_mutex_t open_lock = PTHREAD_MUTEX_INITIALIZER;
static store_files *open_files;

static void close_all(store_files *files) {
    for (int area = 0; area < AREAS; area++) {
        if (files->fd[area] >= 0) close(files->fd[area]);
        files->fd[area] = -1;
    }
}

static void before_fork(void) { pthread_mutex_lock(&open_lock); }

static void in_parent(void) { pthread_mutex_unlock(&open_lock); }

/* The parent's stores are not the child's: it has none of their files, whose lock its parent keeps, and no handle that
   answers. */
static void in_child(void) {
    for (store_files *files = open_files; files; files = files->next) {
        close_all(files);
        if (files->store) *files->store = (ts)TS_EMPTY;
    }
    open_files = NULL;
    pthread_mutex_unlock(&open_lock);
}

static void watch_forks(void) { pthread_atfork(before_fork, in_parent, in_child); }

static void remove_open(const store_files *files) {
    for (store_files **at = &open_files; *at; at = &(*at)->next)
        if (*at == files) {
            *at = files->next;
            return;
        }
}

/* Whether this process has them open already. */
static bool are_open_here(const store_files *files) {
    for (const store_files *it = open_files; it; it = it->next)
        if (it->device == files->device && it->number == files->number) return true;
    return false;
}

/* ---- opening and closing */

enum { STREAMS = STDERR_FILENO + 1 };

/* A folder that is open, and descriptors of it in the places of the standard streams that the process has closed: what is
   written to one of these is refused, and does not go to a file of the store. */
typedef struct open_folder {
    int fd, held[STREAMS], count;
} open_folder;

static int32_t folder_open(const char *path, open_folder *folder) {
    folder->count = 0;
    while ((folder->fd = open(path, O_RDONLY | O_DIRECTORY | O_CLOEXEC)) >= 0 && folder->fd < STREAMS)
        folder->held[folder->count++] = folder->fd;
    return folder->fd < 0 ? refused("open", "") : TS_OK;
}

static void folder_close(open_folder *folder) {
    for (int i = 0; i < folder->count; i++) close(folder->held[i]);
    if (folder->fd >= 0) close(folder->fd);
}

static int32_t note_identity(store_files *files) {
    struct stat state;
    if (fstat(files->fd[TS_STATUS], &state)) return refused_on("fstat", TS_STATUS);
    files->device = state.st_dev;
    files->number = state.st_ino;
    return TS_OK;
}

/* Locks the status file; says of a lock who has it. */
static int32_t lock(const store_files *files) {
    if (flock(files->fd[TS_STATUS], LOCK_EX | LOCK_NB) == 0) return TS_OK;
    if (errno != EWOULDBLOCK) return refused_on("flock", TS_STATUS);
    return are_open_here(files) ? TS_ALREADY_OPEN : TS_LOCKED;
}

static int32_t open_one(int dir, int area, bool make, store_files *files) {
    int fd = openat(dir, NAMES[area], O_RDWR | O_CLOEXEC | (make ? O_CREAT : 0), 0666);
    if (fd < 0) return errno == ENOENT && !make ? TS_NOT_A_STORE : refused_on("openat", area);
    files->fd[area] = fd;
    if (area != TS_STATUS) return TS_OK;
    int32_t code = note_identity(files);
    return code == TS_OK ? lock(files) : code;
}

/* Opens them all, or none. */
static int32_t open_all(int dir, bool make, store_files *files) {
    int32_t code = TS_OK;
    pthread_mutex_lock(&open_lock);
    for (int area = 0; area < AREAS && code == TS_OK; area++) code = open_one(dir, area, make, files);
    if (code == TS_OK) {
        files->next = open_files;
        open_files = files;
    } else {
        close_all(files);
    }
    pthread_mutex_unlock(&open_lock);
    return code;
}

/* Makes new files and their names outlast a stop. */
static int32_t keep_names(int dir, const store_files *files) {
    for (int area = 0; area < AREAS; area++)
        if (fsync(files->fd[area])) return refused_on("fsync", area);
    return fsync(dir) ? refused("fsync", "") : TS_OK;
}

int32_t tsi_files_open(const char *path, bool make, store_files *files) {
    static pthread_once_t once = PTHREAD_ONCE_INIT;
    open_folder folder;
    pthread_once(&once, watch_forks);
    int32_t code = folder_open(path, &folder);
    if (code == TS_OK) code = open_all(folder.fd, make, files);
    if (code == TS_OK && make) {
        code = keep_names(folder.fd, files);
        if (code != TS_OK) tsi_files_close(files);
    }
    folder_close(&folder);
    return code;
}

void tsi_files_close(store_files *files) {
    pthread_mutex_lock(&open_lock);
    remove_open(files);
    if (files->fd[TS_STATUS] >= 0) flock(files->fd[TS_STATUS], LOCK_UN);
    close_all(files);
    pthread_mutex_unlock(&open_lock);
}

/* ---- reading and writing */

int32_t tsi_length(const store_files *files, int area, uint64_t *len) {
    struct stat state;
    if (fstat(files->fd[area], &state)) return refused_on("fstat", area);
    *len = (uint64_t)state.st_size;
    return TS_OK;
}

int32_t tsi_read(const store_files *files, int area, uint8_t *bytes, size_t len, uint64_t at) {
    while (len > 0) {
        ssize_t count = pread(files->fd[area], bytes, len, (off_t)at);
        if (count < 0 && errno == EINTR) continue;
        if (count == 0) errno = ENODATA; /* the file was cut */
        if (count <= 0) return refused_on("pread", area);
        bytes += count;
        len -= (size_t)count;
        at += (uint64_t)count;
    }
    return TS_OK;
}

int32_t tsi_write(const store_files *files, int area, const uint8_t *bytes, size_t len, uint64_t at) {
    while (len > 0) {
        ssize_t count = pwrite(files->fd[area], bytes, len, (off_t)at);
        if (count < 0 && errno == EINTR) continue;
        if (count == 0) errno = EIO;
        if (count <= 0) return refused_on("pwrite", area);
        bytes += count;
        len -= (size_t)count;
        at += (uint64_t)count;
    }
    return TS_OK;
}

int32_t tsi_sync(const store_files *files, int area) { return fdatasync(files->fd[area]) ? refused_on("fdatasync", area) : TS_OK; }

const uint8_t *tsi_zeros(size_t len) {
    void *zeros = mmap(NULL, len, PROT_READ, MAP_PRIVATE | MAP_ANONYMOUS | MAP_NORESERVE, -1, 0);
    return zeros == MAP_FAILED ? NULL : zeros;
}

void tsi_drop_zeros(const uint8_t *zeros, size_t len) { munmap((void *)(uintptr_t)zeros, len); }

/* ---- what the disk has */

static bool is_in_memory(int fd) {
    struct statfs system;
    return fstatfs(fd, &system) == 0 && (system.f_type == TMPFS || system.f_type == RAMFS);
}

/* Reads a window past the system's memory; its length, or -1. */
static ssize_t read_direct(int fd, uint8_t *bytes, uint64_t at) {
    int flags = fcntl(fd, F_GETFL);
    if (flags < 0 || fcntl(fd, F_SETFL, flags | O_DIRECT)) return -1;
    ssize_t count = pread(fd, bytes, WINDOW, (off_t)at);
    int why = errno;
    if (fcntl(fd, F_SETFL, flags)) return -1;
    errno = why;
    return count;
}

/* Whether the system has of a window in memory what the disk has. `bytes` has room for two of them. */
static int32_t compare(const store_files *files, int area, uint8_t *bytes, size_t len, uint64_t at) {
    int32_t code = tsi_read(files, area, bytes, len, at);
    if (code != TS_OK) return code;
    ssize_t count = read_direct(files->fd[area], bytes + WINDOW, at);
    if (count < 0 && errno == EIO) return refused_on("pread", area);
    if (count >= 0 && (size_t)count >= len && memcmp(bytes, bytes + WINDOW, len) == 0) return TS_OK;
    errno = EBUSY;
    refused_on("posix_fadvise", area);
    return TS_CACHED;
}

/* Whether the system has a page of a window in memory. Of a file that can't be mapped nobody knows. */
static bool has_pages(const uint8_t *map, uint64_t at, size_t len, int *fault) {
    unsigned char pages[WINDOW / LEAST_PAGE];
    size_t page_len = (size_t)sysconf(_SC_PAGESIZE);
    *fault = 0;
    if (!map) return true;
    *fault = mincore((void *)(uintptr_t)(map + at), len, pages);
    for (size_t page = 0; *fault == 0 && page * page_len < len; page++)
        if (pages[page] & 1) return true;
    return false;
}

/* Compares each window of which the system has something in memory. */
static int32_t compare_kept(const store_files *files, int area, const uint8_t *map, uint64_t len) {
    uint8_t *bytes = NULL;
    int32_t code = TS_OK;
    for (uint64_t at = 0; at < len && code == TS_OK; at += WINDOW) {
        size_t part = len - at < WINDOW ? (size_t)(len - at) : WINDOW;
        int fault;
        bool kept = has_pages(map, at, part, &fault);
        if (fault) code = refused_on("mincore", area);
        else if (kept && !bytes && !(bytes = aligned_alloc(ALIGNMENT, 2 * WINDOW))) code = TS_NO_MEMORY;
        else if (kept) code = compare(files, area, bytes, part, at);
    }
    free(bytes);
    return code;
}

int32_t tsi_settle(const store_files *files, int area) {
    uint64_t len;
    int32_t code = tsi_sync(files, area);
    if (code == TS_OK) code = tsi_length(files, area, &len);
    if (code != TS_OK || len == 0 || is_in_memory(files->fd[area])) return code;
    posix_fadvise(files->fd[area], 0, 0, POSIX_FADV_DONTNEED); /* what it leaves is compared */
    /* Private, since some file systems have no other mappings of a file that can be written; and not to be read, since else a
       process that locks its memory would have all of it read. */
    void *map = mmap(NULL, (size_t)len, PROT_NONE, MAP_PRIVATE, files->fd[area], 0);
    code = compare_kept(files, area, map == MAP_FAILED ? NULL : map, len);
    if (map != MAP_FAILED) munmap(map, (size_t)len);
    return code;
}
