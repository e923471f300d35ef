/* The owner of a store in a pool: a client of the cluster that alone may write the store's objects.
 *
 * The object `head` has a lock with a lease, which only says when another may try, and the address of the owner, which decides: it is
 * changed in one step from the address of an owner that the cluster has shut out, or from none, to one's own. */
#define _GNU_SOURCE
#include "rados_parts.h"
#include <errno.h>
#include <stdio.h>
#include <stdlib.h>
#include <string.h>
#include <sys/time.h>
#include <time.h>

#define LOCK "owner"
#define OWNER "owner" /* the value with the owner's address */
#define NOBODY "none"
#define TRIES 8
#define LEASE_SECONDS 30
#define SHUT_OUT_SECONDS (10u * 365 * 24 * 3600) /* a former owner may wake at any time, and writes again once this ends */

/* ---- the head's values */

int32_t tsr_head_get(owner *own, const char *name, char *value) {
    int got = rados_getxattr(own->pool, HEAD, name, value, VALUE_ROOM - 1);
    value[got < 0 ? 0 : got] = 0;
    if (got < 0 && got != -ENODATA && got != -ENOENT) return tsr_failed(got, "read %s of the store's head", name);
    return TS_OK;
}

/* Sets a value, and in the same step compares the owner's address. */
static int set_if_owned(owner *own, const char *address, const char *name, const char *value) {
    rados_write_op_t op = rados_create_write_op();
    rados_write_op_cmpxattr(op, OWNER, LIBRADOS_CMPXATTR_OP_EQ, address, strlen(address));
    rados_write_op_setxattr(op, name, value, strlen(value));
    int answer = rados_write_op_operate(op, own->pool, HEAD, NULL, 0);
    rados_release_write_op(op);
    return answer;
}

int32_t tsr_head_set(owner *own, const char *name, const char *value) {
    int answer = set_if_owned(own, own->self, name, value);
    if (answer == -ECANCELED) return tsr_refuse(TS_FENCED, ECANCELED, "write %s of the store's head", name);
    return answer < 0 ? tsr_failed(answer, "write %s of the store's head", name) : TS_OK;
}

/* ---- the lock and its lease */

/* Takes the lock, or prolongs its lease. */
static int take_lock(owner *own) {
    struct timeval lease = {.tv_sec = own->lease};
    return rados_lock_exclusive(own->pool, HEAD, LOCK, own->cookie, "timestore", &lease, LIBRADOS_LOCK_FLAG_MAY_RENEW);
}

/* A third of the lease from now on: where the cluster is slow two more tries are left. */
static struct timespec next_renewal(uint32_t lease) {
    struct timespec when;
    clock_gettime(CLOCK_MONOTONIC, &when);
    when.tv_sec += lease / 3;
    return when;
}

/* Prolongs the lease until the owner closes, or has lost the store. */
static void *renew(void *argument) {
    owner *own = argument;
    pthread_mutex_lock(&own->mutex);
    while (!own->stop && !own->lost) {
        struct timespec when = next_renewal(own->lease);
        if (pthread_cond_timedwait(&own->wake, &own->mutex, &when) != ETIMEDOUT) continue;
        pthread_mutex_unlock(&own->mutex);
        int answer = take_lock(own);
        pthread_mutex_lock(&own->mutex);
        if (answer == -EBUSY || answer == -ESHUTDOWN) own->lost = answer;
    }
    pthread_mutex_unlock(&own->mutex);
    return NULL;
}

static int32_t start_renewing(owner *own) {
    pthread_condattr_t clock;
    pthread_mutex_init(&own->mutex, NULL);
    pthread_condattr_init(&clock);
    pthread_condattr_setclock(&clock, CLOCK_MONOTONIC);
    pthread_cond_init(&own->wake, &clock);
    pthread_condattr_destroy(&clock);
    int error = tsr_start_thread(&own->renewer, renew, own);
    own->renews = error == 0;
    if (own->renews) return TS_OK;
    pthread_cond_destroy(&own->wake);
    pthread_mutex_destroy(&own->mutex);
    return tsr_refuse(TS_SYSTEM, error, "start a thread");
}

static void stop_renewing(owner *own) {
    if (!own->renews) return;
    pthread_mutex_lock(&own->mutex);
    own->stop = true;
    pthread_cond_signal(&own->wake);
    pthread_mutex_unlock(&own->mutex);
    pthread_join(own->renewer, NULL);
    pthread_cond_destroy(&own->wake);
    pthread_mutex_destroy(&own->mutex);
    own->renews = false;
}

int32_t tsr_owner_asked(owner *own) {
    int lost = own->lost;
    return lost ? tsr_refuse(TS_FENCED, -lost, "prolong the lease of the store") : TS_OK;
}

/* ---- a former owner */

/* Has the cluster refuse all that the client of an address writes from now on. Our calls carry the newer map of the cluster from here
   on, and a server answers them only once it has that map too. */
static int32_t shut_out(owner *own, char *address) {
    if (strcmp(address, own->self) == 0 || strcmp(address, own->former) == 0) return TS_OK;
    int answer = rados_blocklist_add(own->cluster, address, SHUT_OUT_SECONDS);
    if (answer == 0) answer = rados_wait_for_latest_osdmap(own->cluster);
    if (answer < 0) return tsr_failed(answer, "shut out the former owner at %s", address);
    snprintf(own->former, sizeof own->former, "%s", address);
    return TS_OK;
}

/* Breaks the lock of whoever has it, who is shut out before. */
static int32_t break_lock(owner *own) {
    char tag[64], client[64], cookie[64], address[VALUE_ROOM];
    size_t tag_room = sizeof tag, client_room = sizeof client, cookie_room = sizeof cookie, address_room = sizeof address;
    int exclusive;
    ssize_t found = rados_list_lockers(own->pool, HEAD, LOCK, &exclusive, tag, &tag_room, client, &client_room, cookie, &cookie_room,
                                       address, &address_room);
    if (found == 0 || found == -ENOENT) return TS_OK; /* its lease ended meanwhile */
    if (found < 0) return tsr_failed((int)found, "ask who has the store's lock");
    int32_t code = shut_out(own, address);
    if (code != TS_OK) return code;
    int answer = rados_break_lock(own->pool, HEAD, LOCK, client, cookie);
    return answer < 0 && answer != -ENOENT ? tsr_failed(answer, "break the lock of %s", client) : TS_OK;
}

static int32_t get_lock(owner *own, bool take_over) {
    int answer = take_lock(own);
    for (int tries = 1; answer == -EBUSY && take_over && tries < TRIES; tries++) {
        int32_t code = break_lock(own);
        if (code != TS_OK) return code;
        answer = take_lock(own);
    }
    if (answer == -EBUSY) return tsr_refuse(TS_LOCKED, EBUSY, "take the store's lock");
    if (answer < 0) return tsr_failed(answer, "take the store's lock");
    own->locked = true;
    return TS_OK;
}

/* Writes our address in the place of the former owner's, who is shut out unless it has given the store back. A lock whose lease has
   ended is gone and names nobody: that is why the address stands in a value of its own. */
static int32_t become_owner(owner *own) {
    char former[VALUE_ROOM];
    int32_t code = tsr_head_get(own, OWNER, former);
    if (code == TS_OK && former[0] && strcmp(former, NOBODY) != 0) code = shut_out(own, former);
    if (code != TS_OK) return code;
    int answer = set_if_owned(own, former, OWNER, own->self);
    if (answer == -ECANCELED) return tsr_refuse(TS_LOCKED, ECANCELED, "become the store's owner");
    if (answer < 0) return tsr_failed(answer, "become the store's owner");
    own->owns = true;
    return TS_OK;
}

/* ---- opening and closing */

static int32_t connect_to(owner *own, const ts_rados_place *place) {
    const char *where = place->conf ? place->conf : "the system's ceph.conf";
    int answer = rados_create(&own->cluster, place->user);
    if (answer < 0) {
        own->cluster = NULL;
        return tsr_failed(answer, "make a client %s", place->user);
    }
    answer = rados_conf_read_file(own->cluster, place->conf);
    if (answer < 0) return tsr_failed(answer, "read %s", where);
    answer = rados_connect(own->cluster);
    return answer < 0 ? tsr_failed(answer, "connect as client.%s by %s", place->user, where) : TS_OK;
}

/* The store's objects, in the pool's namespace of its name. A full pool refuses a write, and does not let it wait. */
static int32_t find_pool(owner *own, const ts_rados_place *place) {
    int answer = rados_ioctx_create(own->cluster, place->pool, &own->pool);
    if (answer < 0) {
        own->pool = NULL;
        return tsr_failed(answer, "find the pool %s", place->pool);
    }
    rados_ioctx_set_namespace(own->pool, place->store);
    rados_set_pool_full_try(own->pool);
    return TS_OK;
}

static int32_t know_oneself(owner *own) {
    char *address = NULL;
    int32_t code = tsr_random_name(own->cookie);
    if (code != TS_OK) return code;
    int answer = rados_getaddrs(own->cluster, &address);
    if (answer < 0) return tsr_failed(answer, "ask for our own address");
    snprintf(own->self, sizeof own->self, "%s", address);
    free(address);
    return TS_OK;
}

static int32_t check_place(const ts_rados_place *place) {
    bool lease = place->lease == 0 || (place->lease >= 3 && place->lease <= 3600);
    if (!lease) return tsr_refuse(TS_SYSTEM, EINVAL, "a lease of %u seconds", place->lease);
    return place->store[0] ? TS_OK : tsr_refuse(TS_SYSTEM, EINVAL, "a store without a name");
}

int32_t tsr_owner_connect(owner *own, const ts_rados_place *place) {
    own->lease = place->lease ? place->lease : LEASE_SECONDS;
    int32_t code = check_place(place);
    if (code == TS_OK) code = connect_to(own, place);
    if (code == TS_OK) code = find_pool(own, place);
    if (code == TS_OK) code = know_oneself(own);
    return code;
}

int32_t tsr_owner_take(owner *own, bool take_over) {
    int32_t code = get_lock(own, take_over);
    if (code == TS_OK) code = become_owner(own);
    if (code == TS_OK) code = start_renewing(own);
    return code;
}

void tsr_owner_close(owner *own, bool well) {
    stop_renewing(own);
    if (own->owns && well && !own->lost) set_if_owned(own, own->self, OWNER, NOBODY);
    if (own->locked) rados_unlock(own->pool, HEAD, LOCK, own->cookie);
    if (own->pool) rados_ioctx_destroy(own->pool);
    if (own->cluster) rados_shutdown(own->cluster);
    own->pool = NULL;
    own->cluster = NULL;
}
