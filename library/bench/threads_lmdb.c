/* LMDB: the key is (record, from) big-endian. Durable with its default flags: two syncs a commit. Its writers wait for each
 * other by a lock of its own; each thread has a read transaction, which it renews. */
#include "threads.h"
#include <endian.h>
#include <lmdb.h>
#include <stdlib.h>
#include <string.h>

typedef struct reader {
    MDB_txn *txn;
    MDB_cursor *cursor;
} reader;

static MDB_env *env;
static MDB_dbi dbi;

#define OK(call)                                                   \
    do {                                                           \
        int code_ = (call);                                        \
        if (code_) die("lmdb %s: %s", #call, mdb_strerror(code_)); \
    } while (0)

enum { KEY = 16 };

static void put_key(uint8_t *key, uint64_t record, uint64_t from) {
    uint64_t words[2] = {htobe64(record), htobe64(from)};
    memcpy(key, words, KEY);
}

void store_open(const char *folder) {
    MDB_txn *txn;
    OK(mdb_env_create(&env));
    OK(mdb_env_set_mapsize(env, 1UL << 30));
    OK(mdb_env_set_maxreaders(env, 256));
    OK(mdb_env_open(env, folder, MDB_NOTLS, 0644));
    OK(mdb_txn_begin(env, 0, 0, &txn));
    OK(mdb_dbi_open(txn, 0, 0, &dbi));
    OK(mdb_txn_commit(txn));
}

void store_close(void) { mdb_env_close(env); }

void *thread_begin(void) {
    reader *r = calloc(1, sizeof *r);
    if (!r) die("no memory");
    OK(mdb_txn_begin(env, 0, MDB_RDONLY, &r->txn));
    OK(mdb_cursor_open(r->txn, dbi, &r->cursor));
    mdb_txn_reset(r->txn);
    return r;
}

void thread_end(void *own) {
    reader *r = own;
    mdb_cursor_close(r->cursor);
    mdb_txn_abort(r->txn);
    free(r);
}

void store_put(void *own, uint64_t record, uint64_t time, const uint8_t *value) {
    MDB_txn *txn;
    uint8_t key[KEY];
    (void)own;
    put_key(key, record, time);
    MDB_val k = {KEY, key}, v = {LEN, (void *)(uintptr_t)value};
    OK(mdb_txn_begin(env, 0, 0, &txn));
    OK(mdb_put(txn, dbi, &k, &v, 0));
    OK(mdb_txn_commit(txn));
}

/* The last key of a record is the one before the first of the next. */
bool store_get(void *own, uint64_t record, uint8_t *value) {
    reader *r = own;
    uint8_t key[KEY];
    put_key(key, record + 1, 0);
    MDB_val k = {KEY, key}, v;
    OK(mdb_txn_renew(r->txn));
    OK(mdb_cursor_renew(r->txn, r->cursor));
    int code = mdb_cursor_get(r->cursor, &k, &v, MDB_SET_RANGE);
    code = mdb_cursor_get(r->cursor, &k, &v, code == MDB_NOTFOUND ? MDB_LAST : MDB_PREV);
    uint64_t found = 0;
    if (code == 0) memcpy(&found, k.mv_data, sizeof found);
    bool is_it = code == 0 && be64toh(found) == record;
    if (is_it) memcpy(value, v.mv_data, LEN);
    mdb_txn_reset(r->txn);
    return is_it;
}
