/* What the workloads of workloads.c ask of a store that keeps versions. One file implements it for each
   store; a version is (record, from, value), and stands until the record's next version. Times are
   microseconds. A call that cannot do its work ends the program. */
#include <stdint.h>

#define RELATION 1
#define VALUE_MAX 128

typedef struct { uint64_t record; const unsigned char *value; int len; } row;
typedef void (*row_sink)(void *arg, uint64_t record, const unsigned char *value, int len);
typedef struct conn conn;

void  peer_create(const char *dir);            /* an empty store in an empty folder */
conn *peer_open(const char *dir);
void  peer_close(conn *c);
/* n records in one transaction, durable when the call returns */
void  peer_commit(conn *c, int64_t time, const row *rows, int n);
/* the value of a record as of a time: its length, or -1 */
int   peer_as_of(conn *c, uint64_t record, int64_t time, unsigned char *value);
/* its versions that began from a up to b; how many there are */
int   peer_history(conn *c, uint64_t record, int64_t a, int64_t b, row_sink sink, void *arg);
/* all records as of a time, in rising order; how many there are */
int   peer_scan(conn *c, int64_t time, row_sink sink, void *arg);

void  die(const char *format, ...) __attribute__((noreturn, format(printf, 1, 2)));
