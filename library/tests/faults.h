/* Calls of the system that go wrong in a test: faults.c is linked into it, or preloaded. */
#ifndef FAULTS_H
#define FAULTS_H
#include <stdbool.h>
#include <stdint.h>

/* Of the writes and syncs of this thread from now on the one of this number, from 1, is refused, with this errno;
   0 for none. */
void faults_refuse(uint64_t call, int number);

/* The same of all threads together. */
void faults_refuse_of_all(uint64_t call, int number);

/* All reads of this thread from now on are refused with this errno; 0 for none. */
void faults_refuse_reads(int number);

/* Does this before the next opening of a file of this name, or before the next "fsync" or "pread", of whichever thread. */
void faults_before(const char *name, void (*what)(void));

/* Of the growths of memory of this thread from now on the one of this number, from 1, is refused; 0 for none. Only
   what is preloaded has it. */
void faults_refuse_memory(uint64_t growth);

/* A device that loses what a refused sync was to keep: until faults_stop the system has it in memory, as clean pages.
   What is not on the disk is noted from now on. */
void faults_lose(void);

/* The system keeps what it has in memory, whatever it is advised. Direct reads tell what the disk has, or there
   are none. */
void faults_keep(bool direct);

/* A stop of the machine: the files of a folder have what the disk has, and from now on none of it is lost. */
void faults_stop(const char *folder);
#endif
