/* Refuses a growth of memory: what a test is linked with by --wrap of malloc, calloc and realloc, and what the tests of
 * refused growths share. Their stores have the value TEXTS[time / 100] of one record, committed at 100, 200 and 300. */
#ifndef REFUSED_MEMORY_H
#define REFUSED_MEMORY_H
#include "check.h"
#include <stdatomic.h>
#include <stdbool.h>
#include <sys/stat.h>

void *__real_malloc(size_t size);
void *__real_calloc(size_t count, size_t size);
void *__real_realloc(void *at, size_t size);
void *__wrap_malloc(size_t size);
void *__wrap_calloc(size_t count, size_t size);
void *__wrap_realloc(void *at, size_t size);

static atomic_uint_fast64_t grown, refused_growth; /* of all threads */

static bool is_refused(void) { return atomic_fetch_add(&grown, 1) + 1 == atomic_load(&refused_growth); }

void *__wrap_malloc(size_t size) { return is_refused() ? NULL : __real_malloc(size); }
void *__wrap_calloc(size_t count, size_t size) { return is_refused() ? NULL : __real_calloc(count, size); }
void *__wrap_realloc(void *at, size_t size) { return is_refused() ? NULL : __real_realloc(at, size); }

/* Makes a call again where memory was refused. */
#define ASK(code, call)                      \
    do (code) = (call);                      \
    while ((code) == TS_NO_MEMORY)
#define DOES(call)                           \
    do {                                     \
        int32_t code_;                       \
        ASK(code_, call);                    \
        CHECK(TS_OK, code_);                 \
    } while (0)

static const char *const TEXTS[] = {NULL, "a", "b", "c"};

/* Whether a value is the text of a time. */
static inline bool is_text_of(uint64_t time, const uint8_t *value, size_t len) {
    uint8_t wanted[258];
    size_t wanted_len = value_of(TEXTS[time / 100], wanted);
    return len == wanted_len && memcmp(value, wanted, wanted_len) == 0;
}

/* Whether so many times are those of the commits up to the last one. */
static inline bool are_times(const uint64_t *found, uint64_t count, uint64_t last) {
    for (uint64_t i = 0; i < count; i++)
        if (found[i] != 100 * (i + 1)) return false;
    return count == last / 100;
}

/* A folder of its own for a trial, in one that is there. */
static inline void new_folder(char *path, const char *top, const char *kind, uint64_t growth) {
    snprintf(path, 4096, "%s/%s%" PRIu64, top, kind, growth);
    HOLDS(mkdir(path, 0777) == 0);
}
#endif
