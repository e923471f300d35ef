/* The folder of a store whose archive alone is in a pool: the files status and heap, and a file that names the archive, so that no
 * folder is opened with the archive of another. There is no file `archive`: what opens stores in files does not take it for one. */
#define _GNU_SOURCE
#include "files.h"
#include "rados_parts.h"
#include <errno.h>
#include <fcntl.h>
#include <stdio.h>
#include <string.h>
#include <sys/file.h>
#include <sys/random.h>
#include <unistd.h>

#define NAME_FILE "archive.id"
#define NAME_LEN 32

int32_t tsr_random_name(char name[33]) {
    unsigned char chance[NAME_LEN / 2];
    if (getrandom(chance, sizeof chance, 0) != sizeof chance) return tsr_refuse(TS_SYSTEM, errno, "draw a random name");
    for (size_t n = 0; n < sizeof chance; n++) snprintf(name + 2 * n, 3, "%02x", chance[n]);
    return TS_OK;
}

static int32_t open_file(int dir, const char *name, bool make, int *fd) {
    *fd = openat(dir, name, O_RDWR | O_CLOEXEC | (make ? O_CREAT : 0), 0666);
    if (*fd >= 0) return TS_OK;
    return tsr_refuse(errno == ENOENT ? TS_NOT_A_STORE : TS_SYSTEM, errno, "open the file %s", name);
}

static int32_t lock_file(int fd) {
    if (flock(fd, LOCK_EX | LOCK_NB) == 0) return TS_OK;
    return tsr_refuse(errno == EWOULDBLOCK ? TS_LOCKED : TS_SYSTEM, errno, "lock the file status");
}

/* A new name, in the file that is still empty. */
static int32_t write_name(int fd, char *name) {
    int32_t code = tsr_random_name(name);
    if (code != TS_OK) return code;
    if (pwrite(fd, name, NAME_LEN, 0) == NAME_LEN && fsync(fd) == 0) return TS_OK;
    return tsr_refuse(TS_SYSTEM, errno, "write the file %s", NAME_FILE);
}

/* The name in the file; one is made where a store is made and that was not done before. */
static int32_t find_name(int dir, bool make, char *name) {
    int fd;
    int32_t code = open_file(dir, NAME_FILE, make, &fd);
    if (code != TS_OK) return code;
    ssize_t count = pread(fd, name, NAME_LEN, 0);
    name[NAME_LEN] = 0;
    if (count < 0) code = tsr_refuse(TS_SYSTEM, errno, "read the file %s", NAME_FILE);
    else if (count != NAME_LEN && make) code = write_name(fd, name);
    else if (count != NAME_LEN) code = tsr_refuse(TS_NOT_A_STORE, 0, "a name of %zd bytes in the file %s", count, NAME_FILE);
    close(fd);
    return code;
}

static int32_t sync_made(int dir, const local_files *local) {
    if (fsync(local->status) == 0 && fsync(local->heap) == 0 && fsync(dir) == 0) return TS_OK;
    return tsr_refuse(TS_SYSTEM, errno, "sync the folder");
}

/* From now on the files read as the disk has them: after a sync that failed the system may have more of them in memory. */
static int32_t settle(const local_files *local) {
    const store_files files = {.fd = {[TS_STATUS] = local->status, [TS_HEAP] = local->heap, [TS_ARCHIVE] = -1}};
    int32_t code = tsi_settle(&files, TS_STATUS);
    if (code == TS_OK) code = tsi_settle(&files, TS_HEAP);
    if (code == TS_OK) return TS_OK;
    if (code == TS_NO_MEMORY) return tsr_refuse(code, ENOMEM, "read what the disk has");
    const ts_cause *why = tsi_last_cause();
    return tsr_refuse(code, why->number, "read what the disk has of the file %s: %s", why->file, why->call);
}

static void close_files(local_files *local) {
    if (local->status >= 0) close(local->status);
    if (local->heap >= 0) close(local->heap);
    local->status = local->heap = -1;
}

int32_t tsr_folder_open(local_files *local, const char *path, bool make) {
    local->status = local->heap = -1;
    int dir = open(path, O_RDONLY | O_DIRECTORY | O_CLOEXEC);
    if (dir < 0) return tsr_refuse(TS_SYSTEM, errno, "open the folder %s", path);
    int32_t code = open_file(dir, "status", make, &local->status);
    if (code == TS_OK) code = lock_file(local->status);
    if (code == TS_OK) code = open_file(dir, "heap", make, &local->heap);
    if (code == TS_OK) code = find_name(dir, make, local->archive);
    if (code == TS_OK && make) code = sync_made(dir, local);
    if (code == TS_OK) code = settle(local);
    if (code != TS_OK) close_files(local);
    close(dir);
    return code;
}
