/* What a machine allows to callers that sleep: CALLERS FOLDER WRITERS GROUPS LOCKED [posted], with one line of JSON.
   FOLDER is there; two files are made in it. Each writer takes a lock, holds it for LOCKED microseconds, in place
   of what a store does of its commit, gives it up, and sleeps until its group is written. One thread waits until all
   have come, makes the writes and the three syncs of a group, as `raw` of crates/bench does, and wakes one writer,
   each of whom wakes the next. With the word posted no writer takes a lock: it counts itself and sleeps, and the one
   thread works for LOCKED microseconds for each, as they come, and wakes all at once by one call of the system.
   Half of as many raw groups are made before, and half behind.

   value     commits a second      raw      what the raw groups would make of as many writers
   of_raw    how much of it the callers reach     gathering_us   microseconds from the end of a group to the next one's first write */
#define _GNU_SOURCE
#include <errno.h>
#include <fcntl.h>
#include <limits.h>
#include <linux/futex.h>
#include <pthread.h>
#include <stdatomic.h>
#include <stdio.h>
#include <stdlib.h>
#include <string.h>
#include <sys/syscall.h>
#include <time.h>
#include <unistd.h>

enum { EXTENT = 8192, SLOT = 512, MOST_EXTENTS = 60000, MOST_SLOTS = 65000, MOST_WRITERS = 64 };

static int heap, status, writers;
static long groups;
static double locked;
static pthread_mutex_t lock = PTHREAD_MUTEX_INITIALIZER;
static pthread_cond_t settled = PTHREAD_COND_INITIALIZER, queued = PTHREAD_COND_INITIALIZER;
static long ended;        /* groups that were written */
static int waiting, due;  /* writers whose commit is in no group that was written, and those that are to see that theirs was */

static _Atomic int posted, written, idle;  /* writers that count on the next group, groups that were written, whether the one thread sleeps */

static void check(int is_well, const char *what) { if (!is_well) { fprintf(stderr, "%s: %s\n", what, strerror(errno)); exit(1); } }
static double now(void) { struct timespec t; clock_gettime(CLOCK_MONOTONIC, &t); return t.tv_sec + t.tv_nsec * 1e-9; }
static void work(double seconds) { double end = now() + seconds; while (now() < end) { } }
static void put(int file, const void *bytes, long size, long at) { check(pwrite(file, bytes, size, at) == size, "write"); }
static void sync_file(int file) { check(!fdatasync(file), "sync"); }

static void write_group(int members) {
  static char extent[EXTENT]; static long extents, slots;
  for (int i = 0; i < members; i++) put(heap, extent, EXTENT, extents++ % MOST_EXTENTS * EXTENT);
  sync_file(heap);
  long at = SLOT * (1 + slots++ % MOST_SLOTS);
  put(status, extent, SLOT - 1, at + 1); sync_file(status);
  put(status, "\xC7", 1, at); sync_file(status);
}
static double raw_groups(long count) { double start = now(); for (long i = 0; i < count; i++) write_group(writers); return now() - start; }

static void *call(void *unused) {
  (void)unused;
  for (long i = 0; i < groups; i++) {
    pthread_mutex_lock(&lock);
    work(locked);
    long seen = ended;
    if (++waiting == writers) pthread_cond_signal(&queued);
    while (ended == seen) pthread_cond_wait(&settled, &lock);
    int is_last = --due == 0;
    pthread_mutex_unlock(&lock);
    if (!is_last) pthread_cond_signal(&settled);
  }
  return 0;
}

/* the seconds that were spent between groups */
static double write_all(void) {
  double gathering = 0, end = now();
  for (long i = 0; i < groups; i++) {
    pthread_mutex_lock(&lock);
    while (waiting < writers) pthread_cond_wait(&queued, &lock);
    pthread_mutex_unlock(&lock);
    gathering += now() - end;
    write_group(writers);
    end = now();
    pthread_mutex_lock(&lock);
    ended++; due = waiting; waiting = 0;
    pthread_mutex_unlock(&lock);
    pthread_cond_signal(&settled);
  }
  return gathering;
}

static void sleep_while(_Atomic int *word, int value) { while (*word == value) syscall(SYS_futex, word, FUTEX_WAIT_PRIVATE, value, 0, 0, 0); }
static void wake(_Atomic int *word, int most) { syscall(SYS_futex, word, FUTEX_WAKE_PRIVATE, most, 0, 0, 0); }

static void *post(void *unused) {
  (void)unused;
  for (long i = 0; i < groups; i++) {
    int seen = written;
    posted++;
    if (atomic_exchange(&idle, 0)) wake(&idle, 1);
    sleep_while(&written, seen);
  }
  return 0;
}

/* Works for each that has come, and sleeps where none is left but more are to come. */
static void take_all(void) {
  for (int taken = 0; taken < writers;) {
    if (posted > taken) { work(locked); taken++; continue; }
    idle = 1;
    if (posted > taken) { idle = 0; continue; }
    sleep_while(&idle, 1);
  }
  posted -= writers;
}

static double write_posted(void) {
  double gathering = 0, end = now();
  for (long i = 0; i < groups; i++) {
    take_all();
    gathering += now() - end;
    write_group(writers);
    end = now();
    written++; wake(&written, INT_MAX);
  }
  return gathering;
}

static int make(const char *folder, const char *name) {
  char path[4096]; snprintf(path, sizeof path, "%s/%s", folder, name);
  int file = open(path, O_RDWR | O_CREAT | O_TRUNC, 0600); check(file >= 0, path); return file;
}

int main(int count, char **words) {
  pthread_t threads[MOST_WRITERS];
  int posts = count == 6 && !strcmp(words[5], "posted");
  if (count != 5 && !posts) { fprintf(stderr, "callers FOLDER WRITERS GROUPS LOCKED [posted]\n"); return 2; }
  writers = atoi(words[2]); groups = atol(words[3]); locked = atof(words[4]) * 1e-6;
  if (writers < 1 || writers > MOST_WRITERS || groups < 2) { fprintf(stderr, "1 to %d writers, 2 groups or more\n", MOST_WRITERS); return 2; }
  heap = make(words[1], "heap"); status = make(words[1], "status");
  check(!posix_fallocate(status, 0, SLOT * (1L + MOST_SLOTS)), "status"); sync_file(status);
  double raws = raw_groups(groups / 2), start = now();
  for (int i = 0; i < writers; i++) check(!pthread_create(threads + i, 0, posts ? post : call, 0), "thread");
  double gathering = posts ? write_posted() : write_all(), spent = now() - start;
  for (int i = 0; i < writers; i++) pthread_join(threads[i], 0);
  raws += raw_groups(groups / 2);
  double value = writers * groups / spent, raw = writers * (groups / 2 * 2) / raws;
  printf("{\"value\": %.0f, \"raw\": %.0f, \"of_raw\": %.3f, \"gathering_us\": %.1f}\n", value, raw, value / raw, gathering * 1e6 / groups);
  return 0;
}
