/* A host of timestore for three files of a folder. */
#define _GNU_SOURCE
#include "file_host.h"
#include "files.h"
#include "steps.h"
#include <errno.h>
#include <stdlib.h>
#include <time.h>

#define FRONT 512 /* the bytes before the first slot */

struct ts_file {
    tsi_host host;
    store_files files;
    ts_cause cause; /* the device call that was refused */
    uint8_t *archive; /* its first bytes, as far as they were read; NULL for none */
    size_t archive_read, archive_room;
    uint64_t archive_len; /* all that was written to it */
    uint64_t reading;     /* up to here it is being read, and was not written since */
};

static const uint8_t nothing[1];

/* A code that is given out; where the system refused a call, with the errno of that, whatever was called since. */
static int32_t told(int32_t code) {
    if (code == TS_SYSTEM || code == TS_CACHED) errno = tsi_last_cause()->number;
    return code;
}

/* ---- a new store */

/* From now on the files read as the disk has them; their lengths. */
static int32_t settle(const store_files *files, uint64_t *len) {
    int32_t code = TS_OK;
    for (int area = 0; area < AREAS && code == TS_OK; area++) {
        code = tsi_settle(files, area);
        if (code == TS_OK) code = tsi_length(files, area, &len[area]);
    }
    return code;
}

static bool are_zeros(const uint8_t *bytes, size_t len) {
    for (size_t i = 0; i < len; i++)
        if (bytes[i] != 0) return false;
    return true;
}

/* Whether the heap has no byte but zeros, and of these no more than a new store begins with: so a format leaves it that
   was stopped. */
static int32_t is_heap_free(const store_files *files, uint64_t len, size_t zeros) {
    if (len == 0) return TS_OK;
    if (len > zeros) return TS_OCCUPIED;
    uint8_t *bytes = malloc((size_t)len);
    if (!bytes) return TS_NO_MEMORY;
    int32_t code = tsi_read(files, TS_HEAP, bytes, (size_t)len, 0);
    if (code == TS_OK && !are_zeros(bytes, (size_t)len)) code = TS_OCCUPIED;
    free(bytes);
    return code;
}

/* Whether nothing stands in the files: no header, no byte of the archive, and of the heap at most these zeros. */
static int32_t is_free(const store_files *files, size_t zeros) {
    uint8_t front[FRONT];
    uint64_t len[AREAS];
    int32_t code = settle(files, len);
    if (code != TS_OK) return code;
    size_t count = len[TS_STATUS] < FRONT ? (size_t)len[TS_STATUS] : FRONT;
    code = tsi_read(files, TS_STATUS, front, count, 0);
    if (code == TS_OK && (!are_zeros(front, count) || len[TS_ARCHIVE] > 0)) code = TS_OCCUPIED;
    return code == TS_OK ? is_heap_free(files, len[TS_HEAP], zeros) : code;
}

/* Writes the zeros that the heap begins with. */
static int32_t write_zeros(const store_files *files, size_t len) {
    if (len == 0) return TS_OK;
    const uint8_t *zeros = tsi_zeros(len);
    if (!zeros) return TS_NO_MEMORY;
    int32_t code = tsi_write(files, TS_HEAP, zeros, len, 0);
    tsi_drop_zeros(zeros, len);
    return code == TS_OK ? tsi_sync(files, TS_HEAP) : code;
}

/* Writes the status area, its front last. */
static int32_t write_status(const store_files *files, const uint8_t *bytes, size_t len) {
    int32_t code = TS_OK;
    if (len > FRONT) {
        code = tsi_write(files, TS_STATUS, bytes + FRONT, len - FRONT, FRONT);
        if (code == TS_OK) code = tsi_sync(files, TS_STATUS);
    }
    if (code == TS_OK) code = tsi_write(files, TS_STATUS, bytes, FRONT, 0);
    return code == TS_OK ? tsi_sync(files, TS_STATUS) : code;
}

/* Makes a store of what a format told: these bytes are its status area. */
static int32_t make_store(const char *folder, const uint8_t *bytes, const ts_info *told) {
    store_files files = NO_FILES;
    int32_t code = tsi_files_open(folder, true, &files);
    if (code != TS_OK) return code;
    code = is_free(&files, (size_t)told->b);
    if (code == TS_OK) code = write_zeros(&files, (size_t)told->b);
    if (code == TS_OK) code = write_status(&files, bytes, (size_t)told->a);
    tsi_files_close(&files);
    return code;
}

/* Makes the store that this function formats, of this size. */
static int32_t format_by(int32_t (*format)(uint32_t, uint8_t *, size_t, ts_info *), const char *folder, uint32_t size) {
    ts_info info = {0, 0};
    uint8_t none[1];
    int32_t code = format(size, none, 0, &info);
    if (code != TS_SMALL) return code;
    uint8_t *bytes = malloc((size_t)info.a);
    if (!bytes) return TS_NO_MEMORY;
    code = format(size, bytes, (size_t)info.a, &info);
    if (code == TS_OK) code = make_store(folder, bytes, &info);
    free(bytes);
    return told(code);
}

int32_t ts_file_format(const char *folder, uint32_t slots) { return format_by(ts_format, folder, slots); }

int32_t ts_file_format_endless(const char *folder, uint32_t extents) { return format_by(ts_format_endless, folder, extents); }

/* ---- opening and closing */

static bool make(tsi_host *host, const ts_device *call);

/* All bytes of an area, in memory that is the caller's to free; NULL where there are none. */
static int32_t read_area(const store_files *files, int area, uint64_t len, uint8_t **bytes) {
    if (len == 0) return TS_OK;
    *bytes = malloc((size_t)len);
    return *bytes ? tsi_read(files, area, *bytes, (size_t)len, 0) : TS_NO_MEMORY;
}

/* Opens the store on these bytes. Of the archive opening asks its length alone: nothing of it is in memory yet, and
   what stands for it reads as zeros. */
static int32_t open_on(ts_file *file, uint8_t *const *bytes, const uint64_t *len, ts_info *info) {
    const uint8_t *archive = nothing;
    if (len[TS_ARCHIVE] > 0) archive = tsi_zeros((size_t)len[TS_ARCHIVE]);
    if (!archive) return TS_NO_MEMORY;
    int32_t code = ts_open(&file->host.store, bytes[TS_STATUS] ? bytes[TS_STATUS] : nothing, (size_t)len[TS_STATUS],
                           bytes[TS_HEAP] ? bytes[TS_HEAP] : nothing, (size_t)len[TS_HEAP], archive,
                           (size_t)len[TS_ARCHIVE], tsi_next_mark(TSI_FILES), info);
    if (archive != nothing) tsi_drop_zeros(archive, (size_t)len[TS_ARCHIVE]);
    return code;
}

/* Reads what the disk has of the files, and opens the store on it. */
static int32_t open_read(ts_file *file, ts_info *info) {
    uint8_t *bytes[AREAS] = {NULL, NULL, NULL};
    uint64_t len[AREAS] = {0, 0, 0};
    int32_t code = settle(&file->files, len);
    if (code == TS_OK) code = read_area(&file->files, TS_STATUS, len[TS_STATUS], &bytes[TS_STATUS]);
    if (code == TS_OK) code = read_area(&file->files, TS_HEAP, len[TS_HEAP], &bytes[TS_HEAP]);
    if (code == TS_OK) code = open_on(file, bytes, len, info);
    free(bytes[TS_STATUS]);
    free(bytes[TS_HEAP]);
    file->archive_len = len[TS_ARCHIVE];
    return code;
}

int32_t ts_file_open(const char *folder, ts_file **out, ts_info *info) {
    ts_file *file = calloc(1, sizeof *file);
    if (!file) return TS_NO_MEMORY;
    file->host.make = make;
    file->files = (store_files)NO_FILES;
    file->files.store = &file->host.store;
    int32_t code = tsi_files_open(folder, false, &file->files);
    if (code == TS_OK) {
        code = open_read(file, info);
        if (code != TS_OK) tsi_files_close(&file->files);
    }
    if (code == TS_OK) {
        *out = file;
        return TS_OK;
    }
    free(file);
    return told(code);
}

void ts_file_close(ts_file *file) {
    ts_close(&file->host.store);
    tsi_files_close(&file->files);
    free(file->archive);
    free(file);
}

ts *ts_file_store(ts_file *file) { return &file->host.store; }

int32_t ts_file_error(const ts_file *file, ts_cause *cause) {
    const ts_cause *told = file ? &file->cause : tsi_last_cause();
    if (!told->call) return TS_NONE;
    *cause = *told;
    return TS_OK;
}

/* ---- the archive */

/* Room for so many bytes of the archive, and an eighth more. */
static bool has_room(ts_file *file, size_t len) {
    if (len <= file->archive_room) return true;
    uint8_t *bytes = realloc(file->archive, len + len / 8);
    if (!bytes) return false;
    file->archive = bytes;
    file->archive_room = len + len / 8;
    return true;
}

/* Reads what was written to it since it was read last. */
int32_t ts_file_archive(ts_file *file, const uint8_t **at, size_t *len) {
    size_t wanted = (size_t)file->archive_len;
    if (file->files.fd[TS_ARCHIVE] < 0) return TS_CLOSED;
    if (file->archive_read < wanted) {
        if (!has_room(file, wanted)) return TS_NO_MEMORY;
        int32_t code = tsi_read(&file->files, TS_ARCHIVE, file->archive + file->archive_read,
                                wanted - file->archive_read, file->archive_read);
        if (code != TS_OK) return code;
        file->archive_read = wanted;
    }
    *at = wanted > 0 ? file->archive : nothing;
    *len = wanted;
    return TS_OK;
}

uint64_t tsi_file_unread(const ts_file *file) { return file->archive_len - file->archive_read; }

int32_t tsi_file_begin_read(ts_file *file, archive_part *part) {
    if (!has_room(file, (size_t)file->archive_len)) return TS_NO_MEMORY;
    file->reading = file->archive_len;
    *part = (archive_part){file->archive + file->archive_read, (size_t)tsi_file_unread(file), file->archive_read};
    return TS_OK;
}

int32_t tsi_file_read(const ts_file *file, const archive_part *part) {
    return tsi_read(&file->files, TS_ARCHIVE, part->at, part->len, part->from);
}

void tsi_file_end_read(ts_file *file, int32_t code) {
    if (code == TS_OK && file->reading > file->archive_read) file->archive_read = (size_t)file->reading;
    file->reading = 0;
}

/* What a write to the archive leaves to be read. */
static void wrote_archive(ts_file *file, const ts_device *call) {
    if (call->at < file->archive_read) file->archive_read = (size_t)call->at;
    if (call->at < file->reading) file->reading = call->at;
    if (call->at + call->len > file->archive_len) file->archive_len = call->at + call->len;
}

/* ---- device calls and steps */

int32_t tsi_file_make(const ts_file *file, const ts_device *call) {
    if (call->kind == TS_SYNC) return tsi_sync(&file->files, (int)call->area);
    return tsi_write(&file->files, (int)call->area, file->host.bytes, (size_t)call->len, call->at);
}

void tsi_file_made(ts_file *file, const ts_device *call, int32_t code) {
    if (code != TS_OK) file->cause = *tsi_last_cause();
    else if (call->kind == TS_WRITE && call->area == TS_ARCHIVE) wrote_archive(file, call);
}

tsi_host *tsi_file_host(ts_file *file) { return &file->host; }

/* Makes a device call of the file that this is the host of. */
static bool make(tsi_host *host, const ts_device *call) {
    ts_file *file = (ts_file *)host;
    int32_t code = tsi_file_make(file, call);
    tsi_file_made(file, call, code);
    return code == TS_OK;
}

int32_t ts_file_pump(ts_file *file, ts_info *info) { return tsi_pump(&file->host, info); }

int32_t ts_file_job_pump(ts_file *file, ts_info *info) { return tsi_job_pump(&file->host, info); }

int32_t ts_file_flush(ts_file *file) { return tsi_flush(&file->host); }

int32_t ts_file_job(ts_file *file) { return tsi_job(&file->host); }

int32_t ts_file_commit(ts_file *file, uint64_t txn, uint64_t label, uint64_t now, ts_info *info) {
    return tsi_commit(&file->host, txn, label, now, info);
}

/* ---- one call for what is asked most */

uint64_t ts_now(void) {
    struct timespec now;
    if (clock_gettime(CLOCK_REALTIME, &now) || now.tv_sec < 0) return 0;
    return (uint64_t)now.tv_sec * 1000000 + (uint64_t)now.tv_nsec / 1000;
}

int32_t ts_file_put(ts_file *file, uint16_t relation, uint64_t record, const uint8_t *value, size_t value_len,
                    uint64_t label, uint64_t now, ts_info *info) {
    return tsi_put(&file->host, relation, record, value, value_len, label, now, info);
}

int32_t ts_file_delete(ts_file *file, uint16_t relation, uint64_t record, uint64_t label, uint64_t now, ts_info *info) {
    return tsi_delete(&file->host, relation, record, label, now, info);
}

int32_t ts_file_get(ts_file *file, uint16_t relation, uint64_t record, uint8_t *out, size_t len, ts_info *info) {
    return tsi_get(&file->host.store, relation, record, out, len, info);
}

int32_t ts_file_scan(ts_file *file, uint16_t relation, ts_row *rows, size_t row_count, uint8_t *out, size_t len,
                     ts_info *info) {
    return tsi_scan(&file->host.store, relation, rows, row_count, out, len, info);
}
