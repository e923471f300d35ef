/* SQLite: a table of versions, a write-ahead log, synchronous=FULL, which is one sync a commit, and a connection for each
 * thread. Writers take a lock before they begin, since SQLite's own waiting sleeps for milliseconds. */
#include "threads.h"
#include <pthread.h>
#include <sqlite3.h>
#include <stdio.h>
#include <stdlib.h>
#include <string.h>

typedef struct conn {
    sqlite3 *db;
    sqlite3_stmt *insert, *last;
} conn;

static char path[4200];
static pthread_mutex_t writing = PTHREAD_MUTEX_INITIALIZER;

static void bad(conn *c, const char *what) { die("sqlite %s: %s", what, sqlite3_errmsg(c->db)); }

static void execute(conn *c, const char *text) {
    if (sqlite3_exec(c->db, text, 0, 0, 0)) bad(c, text);
}

static sqlite3_stmt *prepared(conn *c, const char *text) {
    sqlite3_stmt *made;
    if (sqlite3_prepare_v3(c->db, text, -1, SQLITE_PREPARE_PERSISTENT, &made, 0)) bad(c, text);
    return made;
}

static conn *open_it(void) {
    conn *c = calloc(1, sizeof *c);
    if (!c || sqlite3_open_v2(path, &c->db, SQLITE_OPEN_READWRITE | SQLITE_OPEN_CREATE | SQLITE_OPEN_NOMUTEX, 0)) die("sqlite open");
    sqlite3_busy_timeout(c->db, 60000);
    execute(c, "PRAGMA journal_mode=WAL; PRAGMA synchronous=FULL; PRAGMA cache_size=-65536");
    return c;
}

void store_open(const char *folder) {
    snprintf(path, sizeof path, "%s/db", folder);
    conn *c = open_it();
    execute(c, "CREATE TABLE v(record INTEGER NOT NULL, since INTEGER NOT NULL, value BLOB NOT NULL, PRIMARY KEY(record,since)) WITHOUT ROWID");
    sqlite3_close(c->db);
    free(c);
}

void store_close(void) {}

void *thread_begin(void) {
    pthread_mutex_lock(&writing);
    conn *c = open_it();
    pthread_mutex_unlock(&writing);
    c->insert = prepared(c, "INSERT INTO v VALUES (?1,?2,?3)");
    c->last = prepared(c, "SELECT value FROM v WHERE record=?1 ORDER BY since DESC LIMIT 1");
    return c;
}

void thread_end(void *own) {
    conn *c = own;
    sqlite3_finalize(c->insert);
    sqlite3_finalize(c->last);
    pthread_mutex_lock(&writing);
    sqlite3_close(c->db);
    pthread_mutex_unlock(&writing);
    free(c);
}

void store_put(void *own, uint64_t record, uint64_t time, const uint8_t *value) {
    conn *c = own;
    sqlite3_bind_int64(c->insert, 1, (int64_t)record);
    sqlite3_bind_int64(c->insert, 2, (int64_t)time);
    sqlite3_bind_blob(c->insert, 3, value, LEN, SQLITE_STATIC);
    pthread_mutex_lock(&writing);
    if (sqlite3_step(c->insert) != SQLITE_DONE) bad(c, "insert");
    sqlite3_reset(c->insert);
    pthread_mutex_unlock(&writing);
}

bool store_get(void *own, uint64_t record, uint8_t *value) {
    conn *c = own;
    sqlite3_bind_int64(c->last, 1, (int64_t)record);
    bool found = sqlite3_step(c->last) == SQLITE_ROW;
    if (found) memcpy(value, sqlite3_column_blob(c->last, 0), LEN);
    sqlite3_reset(c->last);
    return found;
}
