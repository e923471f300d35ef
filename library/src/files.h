/* The three files of a store, and the calls of the system on them. */
#ifndef FILES_H
#define FILES_H
#include "timestore_file.h"
#include <sys/types.h>

#define AREAS 3

/* Descriptors of the three files, -1 where there is none; the first of them has the lock. */
typedef struct store_files {
    int fd[AREAS];
    ts *store; /* the store over them, or NULL: it is empty in the child of a fork, which has none of the files */
    dev_t device;
    ino_t number; /* of the status file, by whatever name it was opened */
    struct store_files *next; /* of those that this process has open */
} store_files;
#define NO_FILES {.fd = {-1, -1, -1}}

/* Opens the files of a folder and locks them; makes those that are missing where `make` says so. The struct stays where
   it is until they are closed. Where it is refused none is open. */
int32_t tsi_files_open(const char *folder, bool make, store_files *files);

/* Gives the lock back, also where the child of a fork has the descriptors, and closes the files. */
void tsi_files_close(store_files *files);

int32_t tsi_length(const store_files *files, int area, uint64_t *len);

/* Reads so many bytes, all of which the file has to have. */
int32_t tsi_read(const store_files *files, int area, uint8_t *bytes, size_t len, uint64_t at);
int32_t tsi_write(const store_files *files, int area, const uint8_t *bytes, size_t len, uint64_t at);
int32_t tsi_sync(const store_files *files, int area);

/* Syncs a file and lets the system forget what it has of it in memory, so that the next reads tell what the disk has:
   after a sync that failed that may be less. TS_CACHED where the system keeps what can't be compared with the disk. */
int32_t tsi_settle(const store_files *files, int area);

/* So many bytes that read as zeros and take no memory, until they are dropped; NULL where there is no place for them. */
const uint8_t *tsi_zeros(size_t len);
void tsi_drop_zeros(const uint8_t *zeros, size_t len);

/* What the system refused last on this thread; its call is NULL where it has refused nothing. */
ts_cause *tsi_last_cause(void);
#endif
