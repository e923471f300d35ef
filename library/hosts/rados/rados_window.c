/* The archive as a query sees it: one range of memory, as timestore.h asks for it, of which only what is read comes from the pool.
 *
 * The range is anonymous memory. A read of a block that is not there stops its thread until a thread of the window, the server, has
 * read the block from the pool (userfaultfd). The oldest blocks go again where there are too many. Where all is kept instead, the
 * owner's thread reads what is missing before it lends the range. */
#define _GNU_SOURCE
#include "rados_parts.h"
#include <errno.h>
#include <fcntl.h>
#include <inttypes.h>
#include <linux/userfaultfd.h>
#include <poll.h>
#include <stdlib.h>
#include <string.h>
#include <sys/eventfd.h>
#include <sys/ioctl.h>
#include <sys/mman.h>
#include <sys/syscall.h>
#include <unistd.h>

#define ROOM_LEAST ((size_t)64 << 20) /* of addresses, not of memory */
#define CACHE_LEAST ((uint64_t)1 << 20)

static const uint8_t nothing[1];

static bool keeps_all(const window *w) { return w->faults < 0; }

/* ---- the server, which holds the mutex in all of these */

/* Gives the memory of a block back; the next read of it stops again. */
static void drop(window *w, uint64_t block) { madvise(w->at + block * BLOCK, BLOCK, MADV_DONTNEED); }

/* Notes that a block is in memory, and drops the oldest one where there are too many. */
static void note(window *w, uint64_t block) {
    if (w->count == w->most && w->blocks[w->next] != block) drop(w, w->blocks[w->next]);
    w->blocks[w->next] = block;
    w->next = (w->next + 1) % w->most;
    if (w->count < w->most) w->count++;
}

/* Reads a block; behind the archive's end it is zeros. Where it can't be read it is zeros too, and what is read counts for nothing. */
static void read_block(window *w, uint64_t start) {
    uint64_t left = start < w->from->len ? w->from->len - start : 0;
    size_t len = left < BLOCK ? (size_t)left : BLOCK;
    memset(w->block + len, 0, BLOCK - len);
    if (len == 0 || tsr_area_read(w->from, start, w->block, len) == TS_OK) return;
    w->failed = *tsr_last_cause();
    memset(w->block, 0, BLOCK);
}

/* Fills the block of an address, and lets the thread go on that stopped there. */
static void serve(window *w, uint64_t address) {
    uint64_t start = (address - (uintptr_t)w->at) / BLOCK * BLOCK;
    struct uffdio_copy copy = {.dst = (uintptr_t)w->at + start, .src = (uintptr_t)w->block, .len = BLOCK};
    read_block(w, start);
    note(w, start / BLOCK);
    if (ioctl(w->faults, UFFDIO_COPY, &copy) == 0) return;
    struct uffdio_range range = {.start = copy.dst, .len = BLOCK}; /* another read of it was served already */
    ioctl(w->faults, UFFDIO_WAKE, &range);
}

static void *serve_all(void *argument) {
    window *w = argument;
    struct pollfd ready[2] = {{.fd = w->faults, .events = POLLIN}, {.fd = w->stop, .events = POLLIN}};
    while (ready[1].revents == 0) {
        struct uffd_msg told;
        if (poll(ready, 2, -1) < 0 || !(ready[0].revents & POLLIN)) continue;
        if (read(w->faults, &told, sizeof told) != sizeof told || told.event != UFFD_EVENT_PAGEFAULT) continue;
        pthread_mutex_lock(&w->mutex);
        serve(w, told.arg.pagefault.address);
        pthread_mutex_unlock(&w->mutex);
    }
    return NULL;
}

/* ---- the range */

static int32_t tell_of_reads(window *w) {
    struct uffdio_register range = {.range = {(uintptr_t)w->at, w->room}, .mode = UFFDIO_REGISTER_MODE_MISSING};
    if (keeps_all(w) || ioctl(w->faults, UFFDIO_REGISTER, &range) == 0) return TS_OK;
    return tsr_refuse(TS_SYSTEM, errno, "be told of reads of the archive");
}

static void forget_all(window *w) {
    if (w->at) munmap(w->at, w->room);
    w->at = NULL;
    w->room = w->filled = w->count = w->next = 0;
}

/* Addresses for so many bytes and as many again. The archive only grows, and what was lent before ends here. */
static int32_t make_room(window *w, uint64_t len) {
    size_t room = ROOM_LEAST;
    while (room < len) room *= 2;
    if (room <= w->room) return TS_OK;
    forget_all(w);
    void *at = mmap(NULL, room, PROT_READ | PROT_WRITE, MAP_PRIVATE | MAP_ANONYMOUS | MAP_NORESERVE, -1, 0);
    if (at == MAP_FAILED) return tsr_refuse(TS_NO_MEMORY, errno, "get %zu bytes of addresses", room);
    madvise(at, room, MADV_NOHUGEPAGE);
    w->at = at;
    w->room = room;
    int32_t code = tell_of_reads(w);
    if (code != TS_OK) forget_all(w);
    return code;
}

/* Reads what is missing, where all is kept. */
static int32_t fill(window *w) {
    uint64_t len = w->from->len;
    if (!keeps_all(w) || w->filled >= len) return TS_OK;
    int32_t code = tsr_area_read(w->from, w->filled, w->at + w->filled, len - w->filled);
    if (code == TS_OK) w->filled = len;
    return code;
}

int32_t tsr_window_lend(window *w, const uint8_t **at, size_t *len) {
    pthread_mutex_lock(&w->mutex);
    int32_t code = w->from->len > 0 ? make_room(w, w->from->len) : TS_OK;
    if (code == TS_OK) code = fill(w);
    if (code == TS_OK) {
        *at = w->at ? w->at : nothing;
        *len = w->from->len;
    }
    pthread_mutex_unlock(&w->mutex);
    return code;
}

int32_t tsr_window_lent(window *w) {
    pthread_mutex_lock(&w->mutex);
    ts_rados_cause failed = w->failed;
    w->failed.code = TS_OK;
    if (failed.code != TS_OK) {
        madvise(w->at, w->room, MADV_DONTNEED);
        w->count = w->next = 0;
    }
    pthread_mutex_unlock(&w->mutex);
    return failed.code == TS_OK ? TS_OK : tsr_refuse(failed.code, failed.error, "read the archive for a query");
}

void tsr_window_changed(window *w, uint64_t at, size_t len) {
    pthread_mutex_lock(&w->mutex);
    if (w->filled > at) w->filled = (size_t)at;
    if (!keeps_all(w) && at < w->room)
        for (uint64_t block = at / BLOCK; block * BLOCK < at + len && block * BLOCK < w->room; block++) drop(w, block);
    pthread_mutex_unlock(&w->mutex);
}

/* ---- opening and closing */

/* A descriptor that tells of the first read of each page; of this process's own reads alone, which needs no right. */
static int32_t open_faults(window *w) {
    struct uffdio_api api = {.api = UFFD_API};
    w->faults = (int)syscall(SYS_userfaultfd, O_CLOEXEC | O_NONBLOCK | UFFD_USER_MODE_ONLY);
    if (w->faults < 0 || ioctl(w->faults, UFFDIO_API, &api)) {
        return tsr_refuse(TS_SYSTEM, errno, "read the archive by blocks, for which the system has to allow userfaultfd (a cache of 0 does not need it)");
    }
    w->stop = eventfd(0, EFD_CLOEXEC);
    return w->stop >= 0 ? TS_OK : tsr_refuse(TS_SYSTEM, errno, "make an eventfd");
}

static int32_t start_serving(window *w, uint64_t cache) {
    w->most = (size_t)(cache / BLOCK);
    w->blocks = calloc(w->most, sizeof *w->blocks);
    w->block = aligned_alloc(BLOCK, BLOCK);
    if (!w->blocks || !w->block) return TS_NO_MEMORY;
    int error = tsr_start_thread(&w->server, serve_all, w);
    w->serves = error == 0;
    return w->serves ? TS_OK : tsr_refuse(TS_SYSTEM, error, "start a thread");
}

int32_t tsr_window_open(window *w, area *from, uint64_t cache) {
    *w = (window){.from = from, .faults = -1, .stop = -1};
    if (cache > 0 && cache < CACHE_LEAST) return tsr_refuse(TS_SYSTEM, EINVAL, "a cache of %" PRIu64 " bytes", cache);
    pthread_mutex_init(&w->mutex, NULL);
    if (cache == 0) return TS_OK;
    int32_t code = open_faults(w);
    if (code == TS_OK) code = start_serving(w, cache);
    if (code != TS_OK) tsr_window_close(w);
    return code;
}

void tsr_window_close(window *w) {
    uint64_t one = 1;
    if (w->serves && write(w->stop, &one, sizeof one) == sizeof one) pthread_join(w->server, NULL);
    forget_all(w);
    if (w->faults >= 0) close(w->faults);
    if (w->stop >= 0) close(w->stop);
    free(w->blocks);
    free(w->block);
    pthread_mutex_destroy(&w->mutex);
    *w = (window){.faults = -1, .stop = -1};
}
