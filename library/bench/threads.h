/* What threads.c asks of a store: a durable commit of one version of a record, and the value that stands now. A call that
   cannot do its work ends the program. */
#include <stdbool.h>
#include <stddef.h>
#include <stdint.h>

enum { LEN = 8 }; /* the bytes of a value */

void store_open(const char *folder); /* a new one, in a folder that is there and empty */
void store_close(void);
void *thread_begin(void); /* what a thread has of its own */
void thread_end(void *own);
void store_put(void *own, uint64_t record, uint64_t time, const uint8_t *value);
bool store_get(void *own, uint64_t record, uint8_t *value);

void die(const char *format, ...) __attribute__((noreturn, format(printf, 1, 2)));
