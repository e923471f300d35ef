/* SQLite: one table of versions (record, from, to, value) without row numbers, ordered by (record, from), with
   a write-ahead log and synchronous=FULL: one sync a commit. Each query is a transaction of its own. */
#include "peer.h"
#include <sqlite3.h>
#include <stdio.h>
#include <stdlib.h>
#include <string.h>

enum { BEGIN, COMMIT, END_OLD, INSERT, AS_OF, HISTORY, NEXT_RECORD, STATEMENTS };
static const char *const text[STATEMENTS] = {
  [BEGIN] = "BEGIN IMMEDIATE", [COMMIT] = "COMMIT",
  [END_OLD] = "UPDATE v SET upto=?1 WHERE record=?2 AND since=(SELECT max(since) FROM v WHERE record=?2)",
  [INSERT] = "INSERT INTO v VALUES (?2,?1,9223372036854775807,?3)",
  [AS_OF] = "SELECT value,upto FROM v WHERE record=?1 AND since<=?2 ORDER BY since DESC LIMIT 1",
  [HISTORY] = "SELECT value FROM v WHERE record=?1 AND since>=?2 AND since<?3 ORDER BY since",
  [NEXT_RECORD] = "SELECT record FROM v WHERE record>?1 ORDER BY record LIMIT 1",
};
struct conn { sqlite3 *db; sqlite3_stmt *made[STATEMENTS]; };

static void bad(conn *c, const char *what) { die("sqlite %s: %s", what, sqlite3_errmsg(c->db)); }
static void exec(conn *c, const char *s) { if (sqlite3_exec(c->db, s, 0, 0, 0)) bad(c, s); }
static sqlite3_stmt *statement(conn *c, int i) {
  if (!c->made[i] && sqlite3_prepare_v3(c->db, text[i], -1, SQLITE_PREPARE_PERSISTENT, &c->made[i], 0)) bad(c, text[i]);
  return c->made[i];
}
static void run(conn *c, int i) { if (sqlite3_step(statement(c, i)) != SQLITE_DONE) bad(c, text[i]); sqlite3_reset(c->made[i]); }

conn *peer_open(const char *dir) {
  char path[4096]; conn *c = calloc(1, sizeof *c); snprintf(path, sizeof path, "%s/db", dir);
  if (sqlite3_open(path, &c->db)) bad(c, path);
  exec(c, "PRAGMA journal_mode=WAL; PRAGMA synchronous=FULL; PRAGMA cache_size=-65536");
  return c;
}
void peer_close(conn *c) { for (int i = 0; i < STATEMENTS; i++) sqlite3_finalize(c->made[i]); if (sqlite3_close(c->db)) bad(c, "close"); free(c); }
void peer_create(const char *dir) {
  conn *c = peer_open(dir);
  exec(c, "CREATE TABLE v(record INTEGER NOT NULL, since INTEGER NOT NULL, upto INTEGER NOT NULL, value BLOB NOT NULL, PRIMARY KEY(record,since)) WITHOUT ROWID");
  peer_close(c);
}
void peer_commit(conn *c, int64_t time, const row *rows, int n) {
  run(c, BEGIN);
  sqlite3_stmt *end = statement(c, END_OLD), *insert = statement(c, INSERT);
  sqlite3_bind_int64(end, 1, time); sqlite3_bind_int64(insert, 1, time);
  for (int i = 0; i < n; i++) {
    sqlite3_bind_int64(end, 2, rows[i].record); sqlite3_bind_int64(insert, 2, rows[i].record);
    sqlite3_bind_blob(insert, 3, rows[i].value, rows[i].len, SQLITE_STATIC);
    run(c, END_OLD); run(c, INSERT);
  }
  run(c, COMMIT);
}
int peer_as_of(conn *c, uint64_t record, int64_t time, unsigned char *out) {
  sqlite3_stmt *s = statement(c, AS_OF); int len = -1;
  sqlite3_bind_int64(s, 1, record); sqlite3_bind_int64(s, 2, time);
  int e = sqlite3_step(s);
  if (e == SQLITE_ROW && sqlite3_column_int64(s, 1) > time) { len = sqlite3_column_bytes(s, 0); memcpy(out, sqlite3_column_blob(s, 0), len); }
  if (e != SQLITE_ROW && e != SQLITE_DONE) bad(c, "as of");
  sqlite3_reset(s); return len;
}
int peer_history(conn *c, uint64_t record, int64_t a, int64_t b, row_sink sink, void *arg) {
  sqlite3_stmt *s = statement(c, HISTORY); int n = 0, e;
  sqlite3_bind_int64(s, 1, record); sqlite3_bind_int64(s, 2, a); sqlite3_bind_int64(s, 3, b);
  while ((e = sqlite3_step(s)) == SQLITE_ROW) { sink(arg, record, sqlite3_column_blob(s, 0), sqlite3_column_bytes(s, 0)); n++; }
  if (e != SQLITE_DONE) bad(c, "history");
  sqlite3_reset(s); return n;
}
int peer_scan(conn *c, int64_t time, row_sink sink, void *arg) {   /* two statements a record, in one snapshot */
  int64_t record = -1; int n = 0, e; unsigned char value[VALUE_MAX]; exec(c, "BEGIN");
  sqlite3_stmt *s = statement(c, NEXT_RECORD);
  for (;;) {
    sqlite3_bind_int64(s, 1, record); e = sqlite3_step(s);
    if (e == SQLITE_ROW) record = sqlite3_column_int64(s, 0);
    sqlite3_reset(s);
    if (e != SQLITE_ROW) break;
    int len = peer_as_of(c, record, time, value); if (len >= 0) { sink(arg, record, value, len); n++; }
  }
  if (e != SQLITE_DONE) bad(c, "scan");
  exec(c, "COMMIT"); return n;
}
