/* The folder of a store whose archive alone is in a pool: folder FOLDER, one that is there. A device loses what a refused sync was to
 * keep, while the system has it in memory: what is opened again is what the disk has. It needs no cluster. */
#define _GNU_SOURCE
#include "../../../tests/check.h"
#include "../../../tests/faults.h"
#include "../rados_parts.h"
#include <errno.h>
#include <fcntl.h>
#include <unistd.h>

const char *ts_text(int32_t code) { return code == TS_OK ? "ok" : "a refusal"; } /* of the library, which is not linked */

static const char *folder;
static local_files local;

static void close_them(void) { HOLDS(close(local.status) == 0 && close(local.heap) == 0); }

static char byte_of(int fd) {
    char byte;
    HOLDS(pread(fd, &byte, 1, 0) == 1);
    return byte;
}

/* The file of an area has 'a' on the disk and 'b' in the system's memory. */
static void lose(int32_t area) {
    CHECK(TS_OK, tsr_folder_open(&local, folder, false));
    int fd = area == TS_STATUS ? local.status : local.heap;
    HOLDS(pwrite(fd, "a", 1, 0) == 1 && fdatasync(fd) == 0);
    faults_lose();
    HOLDS(pwrite(fd, "b", 1, 0) == 1);
    faults_refuse(1, EIO);
    HOLDS(fdatasync(fd) < 0 && errno == EIO);
    faults_refuse(0, 0);
    HOLDS(byte_of(fd) == 'b');
    close_them();
}

static void reads_what_the_disk_has(int32_t area) {
    lose(area);
    CHECK(TS_OK, tsr_folder_open(&local, folder, false));
    HOLDS(byte_of(area == TS_STATUS ? local.status : local.heap) == 'a');
    close_them();
}

/* Where it can't be read, nothing is opened, and the refusal says why. */
static void or_is_refused(void) {
    lose(TS_STATUS);
    faults_keep(false);
    CHECK(TS_CACHED, tsr_folder_open(&local, folder, false));
    HOLDS(tsr_last_cause()->code == TS_CACHED && tsr_last_cause()->error == EBUSY);
    HOLDS(strstr(tsr_last_cause()->text, "status") != NULL);
    HOLDS(local.status < 0 && local.heap < 0);
    faults_stop(folder);
}

int main(int argc, char **argv) {
    if (argc != 2) return 2;
    folder = argv[1];
    CHECK(TS_OK, tsr_folder_open(&local, folder, true));
    HOLDS(pwrite(local.status, "a", 1, 0) == 1 && pwrite(local.heap, "a", 1, 0) == 1);
    HOLDS(fdatasync(local.status) == 0 && fdatasync(local.heap) == 0);
    close_them();
    for (int32_t area = TS_STATUS; area <= TS_HEAP; area++) reads_what_the_disk_has(area);
    or_is_refused();
    return 0;
}
