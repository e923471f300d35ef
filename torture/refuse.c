/* Stands between the program and the system, in its process (LD_PRELOAD): counts its calls by class, writes down those of
 * a store's files, and lets the Nth of a class go wrong. All this lies in a file of SIZE bytes that is shared with the
 * tests (REFUSE_COUNTS), in words of 8 bytes: a count for each class; whether a call went wrong; how many calls were
 * written down; whether the call that went wrong was made within a traced function; from word FIRST on three for each of
 * the calls: its class and the file (1 status, 2 heap, 3 archive), its place, its length.
 *
 * REFUSE_CLASS  growth, input, output, read, length, write, sync, open, lock
 * REFUSE_AT     which call of the class, from 1; 0 for none
 * REFUSE_HOW    before: nothing is done; made: it is done, and refused; part: half of it is done, and it is refused;
 *               short: one byte is moved; interrupted: nothing is done, and it may be asked again; killed: the process ends
 * REFUSE_TRACED where functions of the program begin, counted from where it is loaded, in hexadecimal: they are traced
 */
#define _GNU_SOURCE
#include <errno.h>
#include <fcntl.h>
#include <link.h>
#include <signal.h>
#include <stdarg.h>
#include <stdint.h>
#include <stdlib.h>
#include <string.h>
#include <sys/mman.h>
#include <sys/stat.h>
#include <sys/syscall.h>
#include <ucontext.h>
#include <unistd.h>

enum { GROWTH, INPUT, OUTPUT, READ, LENGTH, WRITE, SYNC, OPEN, LOCK, CLASSES };
static const char *const NAMES[] = {"growth", "input", "output", "read", "length", "write", "sync", "open", "lock"};

extern void *__libc_malloc(size_t size);
extern void *__libc_realloc(void *old, size_t size);

enum { CAME = CLASSES, CALLS, WITHIN, FIRST = 16, SIZE = 1 << 20, MOST = (SIZE / 8 - FIRST) / 3, FILES = 64 };
static const char *const AREAS[] = {"status", "heap", "archive"};

static volatile uint64_t none[SIZE / 8], *counts = none;
/* by descriptor: which of a store's files it is, 0 for none */
static int area_of[FILES];
static int chosen = -1;
static uint64_t due;
static char how = 'b';

/* ---- functions that are traced: each begins with a breakpoint, and returns to another one */

enum { TRACED = 8, DEEPEST = 64, STEP_FLAG = 0x100 };
static unsigned char *starts[TRACED], firsts[TRACED];
static int traced, depth;
/* where the traced functions that run return to */
static uint64_t backs[DEEPEST];
/* of which the first instruction is made now, its breakpoint being lifted */
static unsigned char *lifted;

void refuse_returns(void);
__asm__(".text\nrefuse_returns:\n int3\n");

static void trapped(int number, siginfo_t *info, void *context)
{
    greg_t *now = ((ucontext_t *)context)->uc_mcontext.gregs;
    unsigned char *at = (unsigned char *)now[REG_RIP] - 1;
    (void)number, (void)info;
    if (lifted) {
        *lifted = 0xCC;
        lifted = NULL;
        now[REG_EFL] &= ~STEP_FLAG;
    } else if (at == (unsigned char *)refuse_returns) {
        now[REG_RIP] = backs[--depth];
    } else {
        uint64_t *back = (uint64_t *)now[REG_RSP];
        int which = 0;
        while (which < traced && starts[which] != at)
            which++;
        if (which == traced || depth == DEEPEST)
            abort();
        backs[depth++] = *back;
        *back = (uint64_t)refuse_returns;
        *at = firsts[which];
        lifted = at;
        now[REG_RIP] = (uint64_t)at;
        now[REG_EFL] |= STEP_FLAG;
    }
}

static int first_loaded(struct dl_phdr_info *info, size_t size, void *base)
{
    (void)size;
    *(uint64_t *)base = info->dlpi_addr;
    return 1;
}

static void trace(const char *places)
{
    struct sigaction by = {.sa_sigaction = trapped, .sa_flags = SA_SIGINFO};
    uint64_t base = 0, page = sysconf(_SC_PAGESIZE);
    char *rest;
    dl_iterate_phdr(first_loaded, &base);
    sigaction(SIGTRAP, &by, NULL);
    for (uint64_t place; traced < TRACED && (place = strtoull(places, &rest, 16)); places = rest) {
        unsigned char *at = (unsigned char *)(base + place);
        if (mprotect((void *)((base + place) & -page), page, PROT_READ | PROT_WRITE | PROT_EXEC))
            abort();
        firsts[traced] = *at;
        starts[traced++] = at;
        *at = 0xCC;
    }
}

__attribute__((constructor)) static void begin(void)
{
    const char *places = getenv("REFUSE_TRACED");
    const char *file = getenv("REFUSE_COUNTS"), *name = getenv("REFUSE_CLASS"), *at = getenv("REFUSE_AT"), *which = getenv("REFUSE_HOW");
    int fd = file ? (int)syscall(SYS_openat, AT_FDCWD, file, O_RDWR) : -1;
    if (fd >= 0) {
        void *place = mmap(NULL, SIZE, PROT_READ | PROT_WRITE, MAP_SHARED, fd, 0);
        if (place != MAP_FAILED)
            counts = place;
        syscall(SYS_close, fd);
    }
    for (int it = 0; name && it < CLASSES; it++)
        if (!strcmp(name, NAMES[it]))
            chosen = it;
    due = at ? strtoull(at, NULL, 10) : 0;
    how = which ? which[0] : 'b';
    if (places)
        trace(places);
}

/* Counts a call; whether it goes wrong. */
static int goes_wrong(int class)
{
    uint64_t count = __atomic_add_fetch(&counts[class], 1, __ATOMIC_SEQ_CST);
    if (class != chosen || count != due)
        return 0;
    counts[CAME] = 1;
    counts[WITHIN] = depth;
    if (how == 'k')
        syscall(SYS_kill, syscall(SYS_getpid), SIGKILL);
    return 1;
}

/* Writes a call on a store's file down. */
static void note(int class, int fd, uint64_t at, uint64_t size)
{
    if (fd < 0 || fd >= FILES || !area_of[fd] || counts[CALLS] >= MOST)
        return;
    volatile uint64_t *call = counts + FIRST + 3 * counts[CALLS];
    call[0] = class | area_of[fd] << 8;
    call[1] = at;
    call[2] = size;
    counts[CALLS]++;
}

static int refused(int error)
{
    errno = error;
    return -1;
}

void *malloc(size_t size)
{
    if (!goes_wrong(GROWTH))
        return __libc_malloc(size);
    errno = ENOMEM;
    return NULL;
}

void *realloc(void *old, size_t size)
{
    if (!goes_wrong(GROWTH))
        return __libc_realloc(old, size);
    errno = ENOMEM;
    return NULL;
}

/* A call that moves bytes. */
static ssize_t moved(int class, long number, int fd, void *bytes, size_t size, off_t at)
{
    note(class, fd, at, size);
    if (!goes_wrong(class))
        return syscall(number, fd, bytes, size, at);
    if (how == 's')
        return syscall(number, fd, bytes, size < 1 ? size : 1, at);
    if (how == 'i')
        return refused(EINTR);
    if (how == 'm' || how == 'p')
        syscall(number, fd, bytes, how == 'm' ? size : size / 2, at);
    return refused(EIO);
}

ssize_t pread(int fd, void *bytes, size_t size, off_t at) { return moved(READ, SYS_pread64, fd, bytes, size, at); }
ssize_t pread64(int fd, void *bytes, size_t size, off_t at) { return moved(READ, SYS_pread64, fd, bytes, size, at); }
ssize_t pwrite(int fd, const void *bytes, size_t size, off_t at) { return moved(WRITE, SYS_pwrite64, fd, (void *)bytes, size, at); }
ssize_t pwrite64(int fd, const void *bytes, size_t size, off_t at) { return moved(WRITE, SYS_pwrite64, fd, (void *)bytes, size, at); }

ssize_t read(int fd, void *bytes, size_t size)
{
    return fd == 0 ? moved(INPUT, SYS_read, fd, bytes, size, 0) : syscall(SYS_read, fd, bytes, size);
}

ssize_t write(int fd, const void *bytes, size_t size)
{
    return fd == 1 ? moved(OUTPUT, SYS_write, fd, (void *)bytes, size, 0) : syscall(SYS_write, fd, bytes, size);
}

/* A call that moves none. */
static int made(int class, long number, long a, long b)
{
    int wrong = goes_wrong(class);
    if (wrong && how == 'i')
        return refused(EINTR);
    if (!wrong || how == 'm') {
        int answer = (int)syscall(number, a, b);
        if (!wrong)
            return answer;
    }
    return refused(EIO);
}

int fsync(int fd)
{
    note(SYNC, fd, 0, 0);
    return made(SYNC, SYS_fsync, fd, 0);
}

int fdatasync(int fd)
{
    note(SYNC, fd, 0, 0);
    return made(SYNC, SYS_fdatasync, fd, 0);
}

int flock(int fd, int what) { return made(LOCK, SYS_flock, fd, what); }

int statx(int fd, const char *restrict path, int flags, unsigned mask, struct statx *restrict into)
{
    if (goes_wrong(LENGTH))
        return refused(how == 'i' ? EINTR : EIO);
    return (int)syscall(SYS_statx, fd, path, flags, mask, into);
}

/* Which of a store's files has this name, 0 for none. */
static int area_named(const char *path)
{
    const char *slash = strrchr(path, '/');
    for (int it = 0; it < 3; it++)
        if (!strcmp(slash ? slash + 1 : path, AREAS[it]))
            return it + 1;
    return 0;
}

static int opened(const char *path, int flags, va_list rest)
{
    int mode = flags & O_CREAT ? va_arg(rest, int) : 0;
    if (goes_wrong(OPEN))
        return refused(how == 'i' ? EINTR : EIO);
    int fd = (int)syscall(SYS_openat, AT_FDCWD, path, flags, mode);
    if (fd >= 0 && fd < FILES)
        area_of[fd] = area_named(path);
    return fd;
}

int open(const char *path, int flags, ...)
{
    va_list rest;
    va_start(rest, flags);
    int fd = opened(path, flags, rest);
    va_end(rest);
    return fd;
}

int open64(const char *path, int flags, ...)
{
    va_list rest;
    va_start(rest, flags);
    int fd = opened(path, flags, rest);
    va_end(rest);
    return fd;
}
