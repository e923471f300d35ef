/* What the parts of the host share: the owner, the areas, and the archive as a query sees it. Calls answer a code, and note the cause
 * of a refusal for ts_rados_error. */
#ifndef RADOS_PARTS_H
#define RADOS_PARTS_H
#include "timestore_rados.h"
#include <pthread.h>
#include <rados/librados.h>
#include <stdatomic.h>

#ifndef AREAS
#define AREAS 3
#endif
#define PIECE ((uint64_t)4 << 20)      /* bytes of an object */
#define BLOCK ((size_t)64 << 10)       /* bytes of the archive that are read at a time; a piece is so many whole ones */
#define HEAD "head"                    /* the object with the lock, the owner, the layout and how many objects an area may have */
#define VALUE_ROOM 256                 /* of a value of the head, with its end */

/* Notes a refusal: what was asked, and the error that came, as errno has it. */
#define tsr_refuse(code, error, ...) tsr_refuse_((code), (error), __VA_ARGS__)
int32_t tsr_refuse_(int32_t code, int error, const char *format, ...) __attribute__((format(printf, 3, 4)));

/* What was refused last on this thread; its code is TS_OK where nothing was. */
const ts_rados_cause *tsr_last_cause(void);

/* The same of an answer of librados, a negative errno: TS_FENCED where it says that this client is shut out. */
#define tsr_failed(answer, ...) tsr_refuse_((answer) == -ESHUTDOWN ? TS_FENCED : TS_SYSTEM, -(answer), __VA_ARGS__)

/* Starts a thread that takes no signals; 0, or an errno. */
int tsr_start_thread(pthread_t *thread, void *(*run)(void *), void *argument);

/* ---- the owner: a client of the cluster that alone may write a store's objects */

typedef struct owner {
    rados_t cluster;
    rados_ioctx_t pool;
    char self[VALUE_ROOM];   /* our addresses, as the cluster shuts clients out by them */
    char former[VALUE_ROOM]; /* those that were shut out last, whose writes may be under way; "" where none were */
    char cookie[33];
    uint32_t lease;
    bool locked, owns;
    atomic_int lost; /* the answer that told that we own it no more */
    pthread_t renewer;
    pthread_mutex_t mutex; /* of `stop` */
    pthread_cond_t wake;
    bool stop, renews;
} owner;

/* Connects to the cluster, and asks nothing of the store yet. Closed also where it is refused. */
int32_t tsr_owner_connect(owner *own, const ts_rados_place *place);

/* Becomes the owner; of another one, whose lease has not ended, only where it may be replaced. */
int32_t tsr_owner_take(owner *own, bool take_over);

/* Gives the store back. Where not all that was written came well, the next owner is to shut this one out. */
void tsr_owner_close(owner *own, bool well);

/* TS_FENCED once it is known that another owns the store. */
int32_t tsr_owner_asked(owner *own);

/* A value of the head; "" where it has none. */
int32_t tsr_head_get(owner *own, const char *name, char *value);

/* Sets a value of the head, durably, as long as this is the owner. */
int32_t tsr_head_set(owner *own, const char *name, const char *value);

/* ---- an area: objects NAME.00000000, NAME.00000001, .. of a piece each, or a file */

typedef struct area {
    const char *name;
    uint64_t len;
    int32_t refused; /* the first refusal: from then on no sync may say that all is well */
    int fd;          /* of the file, -1 where it is objects */
    owner *own;
    uint64_t objects; /* how many it may have, as the head says */
    struct under_way *first, **last;
    unsigned waiting;
} area;

/* An area of objects, as the pool has it: what a former owner has under way is in it, or will never be. */
int32_t tsr_area_of_objects(area *a, owner *own, const char *name);

/* An area in a file, which the area closes. */
int32_t tsr_area_of_file(area *a, int fd, const char *name);

/* Reads so many bytes, all before the area's end. What was written is read, whether it is synced or not. */
int32_t tsr_area_read(area *a, uint64_t at, uint8_t *out, size_t len);
int32_t tsr_area_write(area *a, uint64_t at, const uint8_t *bytes, size_t len);

/* Returns once all that was written outlasts a stop. */
int32_t tsr_area_sync(area *a);

/* Waits for what is under way; nothing more is asked of the area. */
void tsr_area_close(area *a);

/* ---- the folder with status and heap of a store whose archive alone is in the pool */

typedef struct local_files {
    int status, heap; /* descriptors, -1 where there is none */
    char archive[33]; /* the name that folder and archive have for each other */
} local_files;

/* Opens the files and locks them; makes those that are missing where `make` says so. Where it is refused nothing is left open. */
int32_t tsr_folder_open(local_files *local, const char *path, bool make);

/* So many random digits, and the end of the text. */
int32_t tsr_random_name(char name[33]);

/* ---- the archive as a query sees it: memory that fills by blocks as it is read */

typedef struct window {
    area *from;
    uint8_t *at; /* `room` bytes of addresses, NULL where there are none yet */
    size_t room;
    size_t filled;     /* how many are filled, where all are kept */
    int faults, stop;  /* a descriptor that tells of reads of what is not filled, and one that ends the server; -1 where all are kept */
    uint64_t *blocks;  /* those that are filled, the oldest at `next` once there are `most` */
    size_t most, count, next;
    uint8_t *block;    /* the one that is being filled */
    pthread_t server;
    bool serves;
    pthread_mutex_t mutex; /* of all of this, between the server and the owner's thread */
    ts_rados_cause failed;
} window;

/* A window on an area, of at most so many bytes in memory; 0 for all. */
int32_t tsr_window_open(window *w, area *from, uint64_t cache);

/* Its bytes as they are now. */
int32_t tsr_window_lend(window *w, const uint8_t **at, size_t *len);

/* Refused where a block that was read could not be filled; then it is forgotten, and tried again when it is read again. */
int32_t tsr_window_lent(window *w);

/* The area has other bytes from here on, so many. */
void tsr_window_changed(window *w, uint64_t at, size_t len);
void tsr_window_close(window *w);

/* For tests: of the device calls from now on the one of this number, from 1, is refused; 0 for none. */
void tsr_refuse_call(ts_rados *host, uint64_t call);

#endif
