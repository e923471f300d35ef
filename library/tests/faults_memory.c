/* Growths of memory that are refused, in a library that is preloaded: see faults.h. */
#include "faults.h"
#include <stddef.h>

void *__libc_malloc(size_t size);
void *__libc_calloc(size_t count, size_t size);
void *__libc_realloc(void *at, size_t size);

/* Of each thread from its start on, since what else has to be made for it would be made by these. */
static _Thread_local uint64_t grown __attribute__((tls_model("initial-exec")));
static _Thread_local uint64_t refused __attribute__((tls_model("initial-exec")));

void faults_refuse_memory(uint64_t growth) {
    grown = 0;
    refused = growth;
}

static bool is_refused(void) { return ++grown == refused; }

void *malloc(size_t size) { return is_refused() ? NULL : __libc_malloc(size); }
void *calloc(size_t count, size_t size) { return is_refused() ? NULL : __libc_calloc(count, size); }
void *realloc(void *at, size_t size) { return is_refused() ? NULL : __libc_realloc(at, size); }
