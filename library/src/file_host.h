/* What the host for files has for a store that threads share: a device call in two halves. */
#ifndef FILE_HOST_H
#define FILE_HOST_H
#include "steps.h"
#include "timestore_file.h"

/* The store, and the bytes of the write that is due. */
tsi_host *tsi_file_host(ts_file *file);

/* Makes a device call. It reads what stays the same while the file is open, and those bytes, so other threads may make
   all else meanwhile. Where it is refused tsi_last_cause of this thread says why. */
int32_t tsi_file_make(const ts_file *file, const ts_device *call);

/* Notes that it was made, or refused; on the same thread. */
void tsi_file_made(ts_file *file, const ts_device *call, int32_t code);

/* How many bytes of the archive were written, and not read yet. */
uint64_t tsi_file_unread(const ts_file *file);

/* A part of the archive, and where it goes. */
typedef struct archive_part {
    uint8_t *at;
    size_t len;
    uint64_t from;
} archive_part;

/* Makes room for all that was not read. Nobody asks for the archive until that has ended. */
int32_t tsi_file_begin_read(ts_file *file, archive_part *part);

/* Reads it. Other threads may make all else meanwhile, device calls too. */
int32_t tsi_file_read(const ts_file *file, const archive_part *part);

/* Notes that it was read, or refused. */
void tsi_file_end_read(ts_file *file, int32_t code);
#endif
