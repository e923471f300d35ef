/* The areas: objects of a pool, a piece each, or a file.
 *
 * An area of objects ends where its last object ends. An object's size changes in one step with its bytes, so what was acknowledged is
 * never behind the end, and no write costs a second call. How many objects an area may have stands in the head: that number is raised,
 * and kept, before the first byte of a new object is written. So whoever takes the store over knows each object that a former owner may
 * be writing. */
#define _GNU_SOURCE
#include "rados_parts.h"
#include <errno.h>
#include <inttypes.h>
#include <stdio.h>
#include <stdlib.h>
#include <string.h>
#include <unistd.h>

#define WAITING_MOST 512 /* writes under way in an area, of 8,192 bytes at most but where a store is made */
#define ASKED_MOST 128   /* objects that are asked side by side */
#define READS_MOST 16    /* pieces that are read side by side */

typedef struct under_way {
    rados_completion_t done;
    struct under_way *next;
} under_way;

static void object_name(char name[VALUE_ROOM], const area *a, uint64_t number) {
    snprintf(name, VALUE_ROOM, "%s.%08" PRIx64, a->name, number);
}

/* What of so many bytes from a place on lies in the same object. */
static size_t within_piece(uint64_t at, size_t len) {
    uint64_t left = PIECE - at % PIECE;
    return left < len ? (size_t)left : len;
}

/* Waits until a call is answered; its answer. */
static int await(rados_completion_t done) {
    rados_aio_wait_for_complete(done);
    int answer = rados_aio_get_return_value(done);
    rados_aio_release(done);
    return answer;
}

/* Notes the first refusal. */
static int32_t area_refused(area *a, int32_t code) {
    if (a->refused == TS_OK) a->refused = code;
    return a->refused;
}

/* ---- what the pool has of an area */

typedef struct asked {
    rados_completion_t done;
    uint64_t size;
    time_t changed;
} asked;

static int ask_size(area *a, uint64_t number, asked *it) {
    char name[VALUE_ROOM];
    int answer = rados_aio_create_completion2(NULL, NULL, &it->done);
    if (answer < 0) return answer;
    object_name(name, a, number);
    answer = rados_aio_stat(a->own->pool, name, it->done, &it->size, &it->changed);
    if (answer < 0) rados_aio_release(it->done);
    return answer;
}

/* Asks some objects side by side for their sizes; the area ends with the last one that is there. */
static int32_t ask_sizes(area *a, uint64_t from, uint64_t upto) {
    asked them[ASKED_MOST];
    int failed = 0;
    uint64_t number = from;
    while (number < upto && (failed = ask_size(a, number, &them[number - from])) == 0) number++;
    for (uint64_t n = from; n < number; n++) {
        int answer = await(them[n - from].done);
        if (answer == 0) a->len = n * PIECE + them[n - from].size;
        else if (answer != -ENOENT) failed = answer;
    }
    return failed < 0 ? tsr_failed(failed, "ask the size of %s", a->name) : TS_OK;
}

/* Asks each object that there may be. A server answers only once it knows that the former owner is shut out, and after what it had
   taken of it before; so from here on no byte of the area changes but by us. */
static int32_t find_all(area *a) {
    int32_t code = TS_OK;
    for (uint64_t from = 0; from < a->objects && code == TS_OK; from += ASKED_MOST)
        code = ask_sizes(a, from, a->objects - from < ASKED_MOST ? a->objects : from + ASKED_MOST);
    return code;
}

/* The last object that is there, where nobody has a write under way. */
static int32_t find_last(area *a) {
    int32_t code = TS_OK;
    for (uint64_t upto = a->objects; upto > 0 && a->len == 0 && code == TS_OK; upto--) code = ask_sizes(a, upto - 1, upto);
    return code;
}

int32_t tsr_area_of_objects(area *a, owner *own, const char *name) {
    char value[VALUE_ROOM], key[VALUE_ROOM];
    *a = (area){.name = name, .fd = -1, .own = own};
    a->last = &a->first;
    snprintf(key, sizeof key, "objects.%s", name);
    int32_t code = tsr_head_get(own, key, value);
    if (code != TS_OK) return code;
    a->objects = strtoull(value, NULL, 10);
    return own->former[0] ? find_all(a) : find_last(a);
}

/* ---- reading objects */

typedef struct reading {
    rados_completion_t done;
    uint8_t *to;
    size_t len;
    bool started;
} reading;

static int start_reading(area *a, uint64_t at, uint8_t *to, size_t len, reading *it) {
    char name[VALUE_ROOM];
    int answer = rados_aio_create_completion2(NULL, NULL, &it->done);
    if (answer < 0) return answer;
    object_name(name, a, at / PIECE);
    it->to = to;
    it->len = len;
    answer = rados_aio_read(a->own->pool, name, it->done, (char *)to, len, at % PIECE);
    it->started = answer == 0;
    if (answer < 0) rados_aio_release(it->done);
    return answer;
}

/* Where there is no object, or a shorter one, is a gap, which reads as zeros. */
static int end_reading(reading *it) {
    if (!it->started) return 0;
    it->started = false;
    int answer = await(it->done);
    if (answer < 0 && answer != -ENOENT) return answer;
    size_t got = answer < 0 ? 0 : (size_t)answer;
    memset(it->to + got, 0, it->len - got);
    return 0;
}

static int32_t objects_read(area *a, uint64_t at, uint8_t *out, size_t len) {
    reading ring[READS_MOST] = {{0}};
    int failed = 0;
    for (size_t n = 0; len > 0 && failed == 0; n++) {
        reading *next = &ring[n % READS_MOST];
        size_t part = within_piece(at, len);
        failed = end_reading(next);
        if (failed == 0) failed = start_reading(a, at, out, part, next);
        at += part;
        out += part;
        len -= part;
    }
    for (size_t n = 0; n < READS_MOST; n++) {
        int answer = end_reading(&ring[n]);
        if (failed == 0) failed = answer;
    }
    return failed < 0 ? tsr_failed(failed, "read %s before byte %" PRIu64, a->name, at) : TS_OK;
}

/* ---- writing objects */

/* Waits for the oldest write. Complete means: kept by all servers that now have the object. */
static void await_oldest(area *a) {
    under_way *oldest = a->first;
    int answer = await(oldest->done);
    if (answer < 0) area_refused(a, tsr_failed(answer, "write %s", a->name));
    a->first = oldest->next;
    if (!a->first) a->last = &a->first;
    a->waiting--;
    free(oldest);
}

/* Says in the head that there may be an object of this number, before a byte of it is written. */
static int32_t announce(area *a, uint64_t number) {
    char key[VALUE_ROOM], value[VALUE_ROOM];
    if (number < a->objects) return TS_OK;
    snprintf(key, sizeof key, "objects.%s", a->name);
    snprintf(value, sizeof value, "%" PRIu64, number + 1);
    int32_t code = tsr_head_set(a->own, key, value);
    if (code == TS_OK) a->objects = number + 1;
    return code;
}

static int start_writing(area *a, uint64_t at, const uint8_t *bytes, size_t len, rados_completion_t *done) {
    char name[VALUE_ROOM];
    int answer = rados_aio_create_completion2(NULL, NULL, done);
    if (answer < 0) return answer;
    object_name(name, a, at / PIECE);
    answer = rados_aio_write(a->own->pool, name, *done, (const char *)bytes, len, at % PIECE); /* copies the bytes */
    if (answer < 0) rados_aio_release(*done);
    return answer;
}

/* A write within one object, under way. */
static int32_t write_piece(area *a, uint64_t at, const uint8_t *bytes, size_t len) {
    under_way *newest;
    while (a->waiting >= WAITING_MOST || (a->first && rados_aio_is_complete(a->first->done))) await_oldest(a);
    int32_t code = announce(a, at / PIECE);
    if (code != TS_OK) return code;
    newest = malloc(sizeof *newest);
    if (!newest) return tsr_refuse(TS_SYSTEM, ENOMEM, "write %s", a->name);
    int answer = start_writing(a, at, bytes, len, &newest->done);
    if (answer < 0) {
        free(newest);
        return tsr_failed(answer, "write %s", a->name);
    }
    newest->next = NULL;
    *a->last = newest;
    a->last = &newest->next;
    a->waiting++;
    return TS_OK;
}

static int32_t objects_write(area *a, uint64_t at, const uint8_t *bytes, size_t len) {
    if (a->refused == TS_OK) area_refused(a, tsr_owner_asked(a->own));
    while (len > 0 && a->refused == TS_OK) {
        size_t part = within_piece(at, len);
        area_refused(a, write_piece(a, at, bytes, part));
        at += part;
        bytes += part;
        len -= part;
    }
    return a->refused;
}

static int32_t objects_sync(area *a) {
    while (a->first) await_oldest(a);
    if (a->refused == TS_OK) area_refused(a, tsr_owner_asked(a->own));
    return a->refused;
}

/* ---- files */

int32_t tsr_area_of_file(area *a, int fd, const char *name) {
    *a = (area){.name = name, .fd = fd};
    off_t end = lseek(fd, 0, SEEK_END);
    if (end < 0) return tsr_refuse(TS_SYSTEM, errno, "ask the length of the file %s", name);
    a->len = (uint64_t)end;
    return TS_OK;
}

static int32_t file_read(area *a, uint64_t at, uint8_t *out, size_t len) {
    while (len > 0) {
        ssize_t count = pread(a->fd, out, len, (off_t)at);
        if (count < 0 && errno == EINTR) continue;
        if (count <= 0) return tsr_refuse(TS_SYSTEM, count < 0 ? errno : EIO, "read the file %s at byte %" PRIu64, a->name, at);
        out += count;
        len -= (size_t)count;
        at += (uint64_t)count;
    }
    return TS_OK;
}

static int32_t file_write(area *a, uint64_t at, const uint8_t *bytes, size_t len) {
    while (len > 0 && a->refused == TS_OK) {
        ssize_t count = pwrite(a->fd, bytes, len, (off_t)at);
        if (count < 0 && errno == EINTR) continue;
        if (count <= 0) return area_refused(a, tsr_refuse(TS_SYSTEM, count < 0 ? errno : ENOSPC, "write the file %s", a->name));
        bytes += count;
        len -= (size_t)count;
        at += (uint64_t)count;
    }
    return a->refused;
}

static int32_t file_sync(area *a) {
    if (a->refused == TS_OK && fdatasync(a->fd)) area_refused(a, tsr_refuse(TS_SYSTEM, errno, "sync the file %s", a->name));
    return a->refused;
}

/* ---- both */

int32_t tsr_area_read(area *a, uint64_t at, uint8_t *out, size_t len) {
    return a->fd >= 0 ? file_read(a, at, out, len) : objects_read(a, at, out, len);
}

int32_t tsr_area_write(area *a, uint64_t at, const uint8_t *bytes, size_t len) {
    int32_t code = a->fd >= 0 ? file_write(a, at, bytes, len) : objects_write(a, at, bytes, len);
    if (code == TS_OK && at + len > a->len) a->len = at + len;
    return code;
}

int32_t tsr_area_sync(area *a) { return a->fd >= 0 ? file_sync(a) : objects_sync(a); }

void tsr_area_close(area *a) {
    while (a->first) await_oldest(a);
    if (a->fd >= 0) close(a->fd);
    a->fd = -1;
}
