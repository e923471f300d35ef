/* What the tests share. */
#ifndef CHECK_H
#define CHECK_H
#include <inttypes.h>
#include <stdio.h>
#include <stdlib.h>
#include <string.h>
#include <sys/stat.h>
#include <timestore_file.h>

/* Ends the test unless a call gives this code. */
#define CHECK(want, call) check_((want), (call), #call, __FILE__, __LINE__)
/* Ends the test unless this holds. */
#define HOLDS(what) holds_((what), #what, __FILE__, __LINE__)

static inline void check_(int32_t want, int32_t got, const char *call, const char *file, int line) {
    if (got == want) return;
    fprintf(stderr, "%s:%d: %s: %s (%d), not %s (%d)\n", file, line, call, ts_text(got), got, ts_text(want), want);
    exit(1);
}

static inline void holds_(int holds, const char *what, const char *file, int line) {
    if (holds) return;
    fprintf(stderr, "%s:%d: not so: %s\n", file, line, what);
    exit(1);
}

/* No archive is lent. */
#define NONE (const uint8_t *)"", 0

/* A file of these bytes. */
static inline void write_file(const char *folder, const char *name, const uint8_t *bytes, size_t len) {
    char path[4300];
    snprintf(path, sizeof path, "%s/%s", folder, name);
    FILE *file = fopen(path, "wb");
    HOLDS(file && fwrite(bytes, 1, len, file) == len && fclose(file) == 0);
}

/* A new store whose log lies in the heap, of 64 extents, in a new folder. */
static inline void endless_format(const char *folder) {
    HOLDS(mkdir(folder, 0777) == 0);
    CHECK(TS_OK, ts_file_format_endless(folder, 64));
}

/* A value of one field that is this text. */
static inline size_t value_of(const char *text, uint8_t *value) {
    size_t len = strlen(text);
    value[0] = 1;
    value[1] = (uint8_t)len;
    memcpy(value + 2, text, len);
    return len + 2;
}

static inline void put_text(ts *h, uint64_t txn, uint64_t record, const char *text) {
    uint8_t value[258];
    size_t len = value_of(text, value);
    CHECK(TS_OK, ts_put(h, txn, 1, record, value, len));
}

/* Submits a commit of one record; its ticket. */
static inline uint64_t submit_text(ts *h, uint64_t record, const char *text, uint64_t label, uint64_t now) {
    ts_info info;
    CHECK(TS_OK, ts_begin(h, &info));
    uint64_t txn = info.a;
    put_text(h, txn, record, text);
    CHECK(TS_OK, ts_submit(h, txn, label, now, &info));
    return info.a;
}

/* Whether a record has this text at a time, none for NULL. */
static inline int has_text(ts *h, uint64_t view, uint64_t record, uint64_t time, const char *text) {
    uint8_t value[TS_VALUE_MOST], wanted[258];
    ts_info info;
    int32_t code = ts_at(h, view, 1, record, time, NONE, value, sizeof value, &info);
    if (!text) return code == TS_NONE;
    size_t len = value_of(text, wanted);
    return code == TS_OK && info.a == len && memcmp(value, wanted, len) == 0;
}

/* The same of what is published now. */
static inline int now_has(ts *h, uint64_t record, uint64_t time, const char *text) {
    ts_info info;
    CHECK(TS_OK, ts_view(h, &info));
    int has = has_text(h, info.a, record, time, text);
    CHECK(TS_OK, ts_end(h, info.a));
    return has;
}

/* Commits one record; its time. */
static inline uint64_t commit_text(ts_file *file, uint64_t record, const char *text, uint64_t label, uint64_t now) {
    ts *h = ts_file_store(file);
    ts_info info;
    CHECK(TS_OK, ts_begin(h, &info));
    uint64_t txn = info.a;
    put_text(h, txn, record, text);
    CHECK(TS_OK, ts_file_commit(file, txn, label, now, &info));
    return info.a;
}

/* Whether this is what the system refused: of a file, or for NULL last of all. */
static inline int was_caused(const ts_file *file, const char *call, const char *name, int number) {
    ts_cause cause;
    CHECK(TS_OK, ts_file_error(file, &cause));
    int is_so = strcmp(cause.call, call) == 0 && strcmp(cause.file, name) == 0 && cause.number == number;
    if (!is_so) fprintf(stderr, "%s of %s: %s\n", cause.call, cause.file, strerror(cause.number));
    return is_so;
}

/* The floor of relation 1, which a query before it tells. */
static inline uint64_t floor_now(ts *h) {
    uint8_t value[TS_VALUE_MOST];
    ts_info view, info;
    CHECK(TS_OK, ts_view(h, &view));
    int32_t code = ts_at(h, view.a, 1, 7, 0, NONE, value, sizeof value, &info);
    CHECK(TS_OK, ts_end(h, view.a));
    return code == TS_BEFORE_KEPT ? info.a : 0;
}
#endif
