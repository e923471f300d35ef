/* A store that threads share: timestore_shared.h. */
#include "threads.h"
#include <string.h>
#include <timestore_shared.h>

static ts_shared *store;

static int32_t asked(const char *what, int32_t code) {
    if (code < 0 || code == TS_IN_DOUBT || code == TS_WAITING) die("timestore %s: %s", what, ts_text(code));
    return code;
}

void store_open(const char *folder) {
    ts_info info;
    asked("format", ts_file_format(folder, 65536));
    asked("open", ts_shared_open(folder, &store, &info));
}

void store_close(void) { ts_shared_free(store); }

void *thread_begin(void) { return NULL; }

void thread_end(void *own) { (void)own; }

void store_put(void *own, uint64_t record, uint64_t time, const uint8_t *value) {
    uint8_t bytes[LEN + 2] = {1, LEN};
    ts_info info;
    (void)own;
    (void)time;
    memcpy(bytes + 2, value, LEN);
    asked("put", ts_shared_put(store, 1, record, bytes, sizeof bytes, 0, 0, &info));
}

bool store_get(void *own, uint64_t record, uint8_t *value) {
    uint8_t bytes[TS_VALUE_MOST];
    ts_info info;
    (void)own;
    if (asked("get", ts_shared_get(store, 1, record, bytes, sizeof bytes, &info)) == TS_NONE) return false;
    memcpy(value, bytes + 2, LEN);
    return true;
}
