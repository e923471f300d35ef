/* A store under a lock, and the device calls that one thread makes for all that wait. */
#ifndef COMMITTER_H
#define COMMITTER_H
#include "file_host.h"
#include "timestore_shared.h"
#include <pthread.h>
#include <stdatomic.h>

/* The words of a call that is made while no device call stands out. */
typedef struct words {
    uint64_t a, b, c;
    uint16_t relation;
    uint64_t *times;
    const uint8_t *value;
    size_t len;
    struct ts_shared *of; /* of a call that may read the archive: the store, and where it notes why that can't be read */
    ts_cause *cause;
} words;

typedef int32_t asking(ts *store, const words *words, ts_info *info);

/* What becomes of a request that was answered by TS_OK. */
typedef enum kind { ANSWERS, COMMITS, JOBS } kind;

/* A call that a thread waits for; it stands on that thread's stack. */
typedef struct request {
    struct request *next;
    asking *call;
    words words;
    kind kind;
    bool over;   /* it is answered */
    bool sleeps; /* its thread does, or is about to: it is to be woken */
    bool again;  /* it is made again behind a commit that it conflicts with */
    int32_t code;
    ts_info info;            /* of a commit that waits, a: its ticket */
    atomic_uint_least32_t woken; /* what its thread sleeps on: see committer.c */
} request;

typedef struct request_list {
    request *first, *last;
    size_t count;
} request_list;

/* What was published at one moment: the view of the store that views of several threads stand for. */
typedef struct moment {
    uint64_t view, last, floor;
    uint64_t users;
} moment;

/* A view that was given out, or none: then the next free one. */
typedef struct seat {
    uint32_t stamp, next;
    moment *of;
} seat;

struct ts_shared {
    pthread_mutex_t lock; /* over all of this, and over each call of the store */
    atomic_uint_least32_t comers; /* who is to have it next: see committer.c */
    ts_file *file;        /* NULL once it is closed */
    bool closing, is_child;
    struct ts_shared *next; /* of those that are open in this process */

    bool leading;               /* a thread makes the device calls */
    bool calling;               /* one is being made, without the lock */
    request_list posted;        /* requests that came meanwhile */
    request_list commits;       /* those that are submitted, in the order of that */
    request_list conflicts;     /* those that conflict, perhaps with one of these, until the group ends */
    request_list answered;      /* whose threads are to be woken once the lock is free */
    request *job;               /* the one whose job is being made */
    bool job_turn;              /* whether the job has the next step */
    bool in_group;              /* a group is in the writing */
    size_t expected;            /* so many commits are likely to come for the next group */
    bool gathering;             /* the leader waits for them, on this word */
    atomic_uint_least32_t gathered;
    uint64_t group_began, group_took; /* in microseconds */
    size_t within;              /* threads whose requests are not answered yet, and the one that reads */
    bool reading;               /* a thread reads the archive, without the lock */
    pthread_cond_t quiet;       /* these have become fewer, or it has ended */

    moment *latest;             /* what is published now; NULL where there was no memory for it */
    seat *seats;
    uint32_t seat_count, seat_room, free_seat;
    uint64_t mark;

    pthread_t vacuum;
    bool has_vacuum;
    pthread_cond_t looks;
    ts_policy policy;
    bool is_full, needs_slots;  /* a commit was refused so */
    int32_t vacuum_code;
    uint64_t vacuum_jobs;
};

/* Takes the lock, unless the store is closed; from then on the thread is not cancelled. */
int32_t tsi_enter(ts_shared *s, int *state);

/* Gives it up, and wakes whose requests were answered under it; the code is given back. */
int32_t tsi_leave(ts_shared *s, int state, int32_t code);

/* The handle of a store that is open. */
ts *tsi_store(ts_shared *s);

/* Takes a request to its end, as any thread that has not the lock; its code. */
int32_t tsi_complete(ts_shared *s, request *r, ts_info *info);

/* A view of what is published now, with the lock. Where a device call stands out it is the one that was taken before. */
int32_t tsi_renew(ts_shared *s);

/* Gives up the use of a moment. */
void tsi_forget(ts_shared *s, moment *of);

/* Microseconds of a clock that only goes on, and a place of it for pthread_cond_timedwait. */
uint64_t tsi_clock(void);
struct timespec tsi_place(uint64_t time);
#endif
