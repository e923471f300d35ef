/* LMDB: the key is (relation, record, from) big-endian, and a value as of a time is one seek to the first key
   behind it and one step back. Durable with LMDB's default flags: the data's sync, and a meta page that is
   written through a descriptor of its own. Each query renews its read transaction. */
#include "peer.h"
#include <endian.h>
#include <lmdb.h>
#include <stdlib.h>
#include <string.h>

struct conn { MDB_env *env; MDB_dbi dbi; MDB_txn *txn; MDB_cursor *cursor; };
#define OK(x) do { int r_ = (x); if (r_) die("lmdb %s: %s", #x, mdb_strerror(r_)); } while (0)
enum { KEY = 18 };

static void put_key(unsigned char *k, uint64_t record, uint64_t from) {
  uint16_t r = htobe16(RELATION); uint64_t a = htobe64(record), f = htobe64(from);
  memcpy(k, &r, 2); memcpy(k + 2, &a, 8); memcpy(k + 10, &f, 8);
}
static uint64_t number(const MDB_val *k, int at) { uint64_t x; memcpy(&x, (char *)k->mv_data + at, 8); return be64toh(x); }

void peer_create(const char *dir) { (void)dir; }
conn *peer_open(const char *dir) {
  conn *c = calloc(1, sizeof *c); MDB_txn *t;
  OK(mdb_env_create(&c->env)); OK(mdb_env_set_mapsize(c->env, 4UL << 30)); OK(mdb_env_open(c->env, dir, MDB_NOTLS, 0644));
  OK(mdb_txn_begin(c->env, 0, 0, &t)); OK(mdb_dbi_open(t, 0, 0, &c->dbi)); OK(mdb_txn_commit(t));
  OK(mdb_txn_begin(c->env, 0, MDB_RDONLY, &c->txn)); OK(mdb_cursor_open(c->txn, c->dbi, &c->cursor)); mdb_txn_reset(c->txn);
  return c;
}
void peer_close(conn *c) { mdb_cursor_close(c->cursor); mdb_txn_abort(c->txn); mdb_env_close(c->env); free(c); }
void peer_commit(conn *c, int64_t time, const row *rows, int n) {
  MDB_txn *t; MDB_cursor *cursor; unsigned char k[KEY];
  OK(mdb_txn_begin(c->env, 0, 0, &t)); OK(mdb_cursor_open(t, c->dbi, &cursor));
  for (int i = 0; i < n; i++) {
    MDB_val key = { KEY, k }, value = { rows[i].len, (void *)rows[i].value };
    put_key(k, rows[i].record, time); OK(mdb_cursor_put(cursor, &key, &value, 0));
  }
  mdb_cursor_close(cursor); OK(mdb_txn_commit(t));
}
static MDB_cursor *begin(conn *c) { OK(mdb_txn_renew(c->txn)); OK(mdb_cursor_renew(c->txn, c->cursor)); return c->cursor; }
/* the last version of a record that began by a time */
static int seek(MDB_cursor *cursor, uint64_t record, int64_t time, MDB_val *key, MDB_val *value) {
  unsigned char k[KEY]; put_key(k, record, (uint64_t)time + 1); key->mv_size = KEY; key->mv_data = k;
  int e = mdb_cursor_get(cursor, key, value, MDB_SET_RANGE);
  e = mdb_cursor_get(cursor, key, value, e == MDB_NOTFOUND ? MDB_LAST : MDB_PREV);
  if (e == MDB_NOTFOUND) return 0;
  OK(e); return number(key, 2) == record;
}
int peer_as_of(conn *c, uint64_t record, int64_t time, unsigned char *out) {
  MDB_val key, value; int len = -1; MDB_cursor *cursor = begin(c);
  if (seek(cursor, record, time, &key, &value)) { len = value.mv_size; memcpy(out, value.mv_data, len); }
  mdb_txn_reset(c->txn); return len;
}
int peer_history(conn *c, uint64_t record, int64_t a, int64_t b, row_sink sink, void *arg) {
  unsigned char k[KEY]; MDB_val key = { KEY, k }, value; int n = 0; MDB_cursor *cursor = begin(c); put_key(k, record, a);
  for (int e = mdb_cursor_get(cursor, &key, &value, MDB_SET_RANGE); !e && number(&key, 2) == record && number(&key, 10) < (uint64_t)b;
       e = mdb_cursor_get(cursor, &key, &value, MDB_NEXT)) { sink(arg, record, value.mv_data, value.mv_size); n++; }
  mdb_txn_reset(c->txn); return n;
}
int peer_scan(conn *c, int64_t time, row_sink sink, void *arg) {   /* two seeks a record */
  unsigned char k[KEY]; uint64_t record = 0; int n = 0; MDB_val key, value; MDB_cursor *cursor = begin(c);
  for (;; record++) {
    put_key(k, record, 0); key.mv_size = KEY; key.mv_data = k;
    if (mdb_cursor_get(cursor, &key, &value, MDB_SET_RANGE)) break;
    record = number(&key, 2);
    if (seek(cursor, record, time, &key, &value)) { sink(arg, record, value.mv_data, value.mv_size); n++; }
  }
  mdb_txn_reset(c->txn); return n;
}
