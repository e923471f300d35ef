/* The workloads of crates/bench with one caller, on another store: PEER VERB FOLDER [COUNT [VERSIONS]], with one line of JSON.
   The store is made in FOLDER, which is there and empty. Keys, versions, values and counts are those of crates/bench.

   w1   commits a second of one record, one at a time
   w2g  commits a second of one record, 16 in one transaction, as an application does that gathers its writers
   w3   records a second, in transactions of 1,024
   w4   values a second, each of a key as of a random time       w5   rows a second, of all versions of a key
   w6   scans a second of 1,000 records as of a random time      w7   milliseconds of opening after COUNT commits
   w8   bytes on disk a version */
#define _GNU_SOURCE
#include "peer.h"
#include <dirent.h>
#include <stdarg.h>
#include <stdio.h>
#include <stdlib.h>
#include <string.h>
#include <sys/stat.h>
#include <sys/wait.h>
#include <time.h>
#include <unistd.h>

enum { KEYS = 1000, FIELDS = 4, FIELD = 16, BATCH = 1024, GROUP = 16, VALUE = 1 + FIELDS * (1 + FIELD) };
static const int64_t FIRST = 1700000000LL * 1000000, STEP = 15625;
static long versions = 100; /* of each key, where it is asked */

void die(const char *format, ...) {
  va_list a; va_start(a, format); vfprintf(stderr, format, a); va_end(a); fputc('\n', stderr); exit(1);
}
static double now(void) { struct timespec t; clock_gettime(CLOCK_MONOTONIC, &t); return t.tv_sec + t.tv_nsec * 1e-9; }
static uint64_t state = 88172645463325252ull;
static uint64_t any(void) { state ^= state << 13; state ^= state >> 7; state ^= state << 17; return state; }

/* a count of fields, then each as its length and its bytes; the first field is the record and the version */
static int make_value(unsigned char *b, uint64_t record, uint64_t version) {
  unsigned char *p = b; uint64_t mixed = (record + 1) * 0x9E3779B97F4A7C15ull ^ (version + 1) * 0xD1B54A32D192ED03ull;
  *p++ = FIELDS;
  for (int f = 0; f < FIELDS; f++) {
    uint64_t first = f ? mixed << f : record, second = f ? mixed >> f : version;
    *p++ = FIELD; memcpy(p, &first, 8); memcpy(p + 8, &second, 8); p += FIELD;
  }
  return p - b;
}
static uint64_t version_of(const unsigned char *b, int len, uint64_t record) {
  uint64_t r, v;
  if (len != VALUE) die("a value of %d bytes", len);
  memcpy(&r, b + 2, 8); memcpy(&v, b + 10, 8);
  if (r != record) die("asked for record %lu, got %lu", (unsigned long)record, (unsigned long)r);
  return v;
}
static void commit(conn *c, const uint64_t *records, int n, uint64_t version, int64_t time) {
  static unsigned char values[BATCH][VALUE_MAX]; row rows[BATCH];
  for (int i = 0; i < n; i++) rows[i] = (row){ records[i], values[i], make_value(values[i], records[i], version) };
  peer_commit(c, time, rows, n);
}
static void commit_all(conn *c, int n, uint64_t version, int64_t time) {
  uint64_t records[BATCH]; for (int i = 0; i < n; i++) records[i] = i;
  commit(c, records, n, version, time);
}

/* ---- w1, w2g, w3 ---- */
static int by_size(const void *a, const void *b) { double x = *(const double *)a, y = *(const double *)b; return (x > y) - (x < y); }
static void write_groups(const char *dir, int batch, long count) {
  peer_create(dir); conn *c = peer_open(dir);
  double *each = malloc((count + 1) * sizeof *each), sum = 0;
  for (long n = 0; n < count; n++) {
    uint64_t records[BATCH];
    for (int i = 0; i < batch; i++) records[i] = batch == BATCH ? (uint64_t)i : (uint64_t)i * KEYS + any() % KEYS;
    double start = now(); commit(c, records, batch, n, FIRST + n); each[n] = now() - start; sum += each[n];
  }
  peer_close(c); qsort(each, count, sizeof *each, by_size);
  printf("{\"value\": %.1f, \"groups\": %ld, \"median_us\": %.1f}\n", (double)count * batch / sum, count, each[count / 2] * 1e6);
}

/* ---- w4, w5, w6, w8 ---- */
static void load(conn *c) { for (long v = 0; v < versions; v++) commit_all(c, KEYS, v, FIRST + v * STEP); }
struct seen { uint64_t record, version, count; };
static void see_version(void *a, uint64_t record, const unsigned char *v, int len) {
  struct seen *s = a; if (version_of(v, len, record) != s->count++) die("history of %lu: wrong version", (unsigned long)record);
}
static void see_record(void *a, uint64_t record, const unsigned char *v, int len) {
  struct seen *s = a; if (record != s->count++ || version_of(v, len, record) != s->version) die("scan: wrong record %lu", (unsigned long)record);
}
static void ask(conn *c, char verb) {
  uint64_t record = any() % KEYS; int64_t after = any() % ((versions - 1) * STEP + 1);
  struct seen s = { record, after / STEP, 0 }; unsigned char b[VALUE_MAX];
  if (verb == '4') {
    int len = peer_as_of(c, record, FIRST + after, b);
    if (len < 0 || version_of(b, len, record) != s.version) die("record %lu: wrong value", (unsigned long)record);
  } else if (verb == '5') {
    if (peer_history(c, record, FIRST, FIRST + versions * STEP, see_version, &s) != versions) die("history: wrong count");
  } else if (peer_scan(c, FIRST + after, see_record, &s) != KEYS) die("scan: wrong count");
}
static void ask_often(const char *dir, char verb, long count) {
  peer_create(dir); conn *c = peer_open(dir); load(c); peer_close(c);
  c = peer_open(dir); for (int i = 0; i < 20; i++) ask(c, verb);
  double start = now(); for (long n = 0; n < count; n++) ask(c, verb);
  double time = now() - start; peer_close(c);
  printf("{\"value\": %.1f, \"count\": %ld}\n", (double)count * (verb == '5' ? versions : 1) / time, count);
}
static void size(const char *dir) {
  peer_create(dir); conn *c = peer_open(dir); load(c); peer_close(c);
  DIR *d = opendir(dir); if (!d) die("%s is not read", dir);
  double bytes = 0; struct dirent *e; struct stat s; char path[8192];
  while ((e = readdir(d))) { snprintf(path, sizeof path, "%s/%s", dir, e->d_name); if (!stat(path, &s) && S_ISREG(s.st_mode)) bytes += s.st_blocks * 512.0; }
  closedir(d); printf("{\"value\": %.1f, \"versions\": %ld}\n", bytes / (KEYS * versions), KEYS * versions);
}

/* ---- w7: a child commits and ends; then this process opens and asks ---- */
static void open_after(const char *dir, long count) {
  pid_t child = fork();
  if (!child) {
    peer_create(dir); conn *c = peer_open(dir);
    for (long n = 0; n < count; n++) { uint64_t record = n % KEYS; commit(c, &record, 1, n / KEYS, FIRST + n); }
    _exit(0);
  }
  int status; waitpid(child, &status, 0); if (status) die("the child ended with %d", status);
  unsigned char b[VALUE_MAX]; uint64_t record = (count - 1) % KEYS;
  double start = now(); conn *c = peer_open(dir); int len = peer_as_of(c, record, FIRST + count, b);
  double time = now() - start;
  if (len < 0 || version_of(b, len, record) != (uint64_t)(count - 1) / KEYS) die("the last commit is not there");
  peer_close(c); printf("{\"value\": %.3f, \"commits\": %ld}\n", time * 1e3, count);
}

int main(int argc, char **argv) {
  if (argc < 3 || argc > 5) die("usage: %s VERB FOLDER [COUNT [VERSIONS]]", argv[0]);
  const char *verb = argv[1], *dir = argv[2]; long count = argc > 3 ? atol(argv[3]) : 0;
  if (count < 0) die("a count below 0");
  if (argc > 4 && (versions = atol(argv[4])) < 1) die("fewer versions than 1");
  if (!strcmp(verb, "w1")) write_groups(dir, 1, count ? count : 2000);
  else if (!strcmp(verb, "w2g")) write_groups(dir, GROUP, count ? count : 500);
  else if (!strcmp(verb, "w3")) write_groups(dir, BATCH, count ? count : 200);
  else if (!strcmp(verb, "w4")) ask_often(dir, '4', count ? count : 1000000);
  else if (!strcmp(verb, "w5")) ask_often(dir, '5', count ? count : 50000);
  else if (!strcmp(verb, "w6")) ask_often(dir, '6', count ? count : 3000);
  else if (!strcmp(verb, "w7")) open_after(dir, count ? count : 3000);
  else if (!strcmp(verb, "w8")) size(dir);
  else die("%s is no verb", verb);
  return 0;
}
