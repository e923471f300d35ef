/* What all parts use: the causes of refusals, one for each thread, and threads of the host's own. */
#define _GNU_SOURCE
#include "rados_parts.h"
#include <signal.h>
#include <stdarg.h>
#include <stdio.h>
#include <string.h>

static _Thread_local ts_rados_cause last;

const ts_rados_cause *tsr_last_cause(void) { return &last; }

int32_t tsr_refuse_(int32_t code, int error, const char *format, ...) {
    char room[96];
    va_list values;
    last = (ts_rados_cause){.code = code, .error = error};
    va_start(values, format);
    int len = vsnprintf(last.text, sizeof last.text, format, values);
    va_end(values);
    if (error == 0 || len < 0 || (size_t)len >= sizeof last.text) return code;
    snprintf(last.text + len, sizeof last.text - (size_t)len, ": %s", strerror_r(error, room, sizeof room));
    return code;
}

int tsr_start_thread(pthread_t *thread, void *(*run)(void *), void *argument) {
    sigset_t all, before;
    sigfillset(&all);
    pthread_sigmask(SIG_SETMASK, &all, &before);
    int error = pthread_create(thread, NULL, run, argument);
    pthread_sigmask(SIG_SETMASK, &before, NULL);
    return error;
}
