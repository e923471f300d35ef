/* The areas of worked.c as objects of a pool, which the host for RADOS opens in the place of the one for files. The environment's
 * RADOS_CONF names the cluster. With COLD the archive alone is in the pool, and the others are files of the folder. */
#include "../rados_parts.h"
#include <errno.h>

#ifdef COLD
enum { IS_COLD = 1 };
#else
enum { IS_COLD = 0 };
#endif

static ts_rados_place place_of_folder(void) {
    return (ts_rados_place){.conf = getenv("RADOS_CONF"), .user = "store", .pool = "store", .store = folder, .cache = 1 << 20,
                            .folder = IS_COLD ? folder : NULL};
}

static int32_t format_place(uint32_t slots) {
    ts_rados_place place = place_of_folder();
    return ts_rados_format(&place, slots);
}

static int32_t open_place(ts_rados **host, ts_info *told) {
    ts_rados_place place = place_of_folder();
    return ts_rados_open(&place, host, told);
}

#define ts_file ts_rados
#define ts_file_format(path, slots) format_place(slots)
#define ts_file_open(path, host, told) open_place(host, told)
#define ts_file_store ts_rados_store
#define ts_file_pump ts_rados_pump
#define ts_file_job_pump ts_rados_job_pump
#define ts_file_archive ts_rados_archive
#define ts_file_flush ts_rados_flush
#define ts_file_job ts_rados_job
#define ts_file_commit ts_rados_commit
#define ts_file_put ts_rados_put
#define ts_file_delete ts_rados_delete
#define ts_file_get ts_rados_get
#define ts_file_scan ts_rados_scan
#define ts_file_refuse tsr_refuse_call
#define faults_refuse(call, error) tsr_refuse_call(file, call)
#define ts_file_close ts_rados_close

/* The host lends the archive itself. */
#define ts_at(store, view, relation, record, time, at, len, ...) \
    ((void)(at), (void)(len), ts_rados_at(file, view, relation, record, time, __VA_ARGS__))
#define ts_scan_at(store, view, relation, time, at, len, ...) \
    ((void)(at), (void)(len), ts_rados_scan_at(file, view, relation, time, __VA_ARGS__))
#define ts_between(store, view, relation, record, from, upto, at, len, ...) \
    ((void)(at), (void)(len), ts_rados_between(file, view, relation, record, from, upto, __VA_ARGS__))
#define ts_times_of(store, label, at, len, ...) ((void)(at), (void)(len), ts_rados_times_of(file, label, __VA_ARGS__))
#define ts_scan_between(store, view, relation, from, upto, at, len, ...) \
    ((void)(at), (void)(len), ts_rados_scan_between(file, view, relation, from, upto, __VA_ARGS__))

/* Whether the host tells which device call was refused. */
static bool tells_a_refusal(const ts_rados *host) {
    ts_rados_cause cause;
    return ts_rados_error(host, &cause) == TS_OK && cause.code == TS_SYSTEM && strcmp(cause.text, "refused for a test") == 0;
}

static void make_place(void) { HOLDS(mkdir(folder, 0777) == 0); }

/* ---- the bytes of an area, which lie in one object, seen by a client of their own */

static rados_ioctx_t objects(void) {
    static rados_t cluster;
    static rados_ioctx_t pool;
    if (!cluster) {
        HOLDS(rados_create(&cluster, "store") == 0 && rados_conf_read_file(cluster, getenv("RADOS_CONF")) == 0);
        HOLDS(rados_connect(cluster) == 0 && rados_ioctx_create(cluster, "store", &pool) == 0);
    }
    rados_ioctx_set_namespace(pool, folder);
    return pool;
}

static const char *object_of(const char *name) {
    static char object[64];
    snprintf(object, sizeof object, "%s.00000000", name);
    return object;
}

static bool is_file(const char *name) { return IS_COLD && strcmp(name, "archive") != 0; }

static const char *path_of(const char *name) {
    static char path[4200];
    snprintf(path, sizeof path, "%s/%s", folder, name);
    return path;
}

static int64_t size_of(const char *name) {
    struct stat state;
    uint64_t size = 0;
    time_t when;
    if (is_file(name)) {
        HOLDS(stat(path_of(name), &state) == 0);
        return state.st_size;
    }
    int answer = rados_stat(objects(), object_of(name), &size, &when);
    HOLDS(answer == 0 || answer == -ENOENT);
    return (int64_t)size;
}

static void read_bytes(const char *name, int64_t at, uint8_t *bytes, size_t len) {
    int fd = is_file(name) ? open(path_of(name), O_RDONLY) : -1;
    if (is_file(name)) HOLDS(fd >= 0 && pread(fd, bytes, len, at) == (ssize_t)len && close(fd) == 0);
    else HOLDS(rados_read(objects(), object_of(name), (char *)bytes, len, (uint64_t)at) == (int)len);
}

static void write_byte(const char *name, int64_t at, uint8_t byte) {
    int fd = is_file(name) ? open(path_of(name), O_WRONLY) : -1;
    if (is_file(name)) HOLDS(fd >= 0 && pwrite(fd, &byte, 1, at) == 1 && close(fd) == 0);
    else HOLDS(rados_write(objects(), object_of(name), (const char *)&byte, 1, (uint64_t)at) == 0);
}

static void cut(const char *name, int64_t len) {
    if (is_file(name)) HOLDS(truncate(path_of(name), len) == 0);
    else HOLDS(rados_trunc(objects(), object_of(name), (uint64_t)len) == 0);
}
