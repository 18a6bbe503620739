/* A library for LD_PRELOAD (Linux, glibc) under which the devices of a program fail, one call after the other.

   HOSTILE=KIND HOW COUNT
     KIND   memory, read, write or open: the calls that are counted, from 1, beginning at the program's main
     HOW    an errno number that the call fails with; or short: a read or a write of one byte; or zero: a write of none
     COUNT  how many calls fail, from the call of the number on; or rest: it and all calls after it

   The program is loaded once and runs in a child for each number, until a run has not come to the call of its number. Of each run,
   the number, the exit status (256 and the signal's number where one killed it), whether the number was met, whether something was
   written to standard output after a write had failed, and the length of what was printed stand in a line, and after it what was
   printed. The calls go on by system calls and glibc's own names, so that nothing here is counted. */
#define _GNU_SOURCE
#include <errno.h>
#include <fcntl.h>
#include <limits.h>
#include <stdarg.h>
#include <stdio.h>
#include <stdlib.h>
#include <string.h>
#include <sys/mman.h>
#include <sys/syscall.h>
#include <sys/wait.h>
#include <unistd.h>

void *__libc_malloc(size_t);
void *__libc_calloc(size_t, size_t);
void *__libc_realloc(void *, size_t);
void *__libc_memalign(size_t, size_t);

enum { SHORT = -1, ZERO = -2, MOST_RUNS = 1000000, SECONDS = 60 };

static char kind[16];
static int how;
static long number, calls, count;
static struct { int met, failed_write, wrote_later; } *shared;

/* Whether this call is one that fails. */
static int fails(const char *name) {
    if (!number || strcmp(kind, name)) return 0;
    calls++;
    if (calls < number || calls - number >= count) return 0;
    shared->met = 1;
    return 1;
}

static int no_memory(void) {
    if (!fails("memory")) return 0;
    errno = ENOMEM;
    return 1;
}

void *malloc(size_t n) { return no_memory() ? NULL : __libc_malloc(n); }
void *calloc(size_t n, size_t m) { return no_memory() ? NULL : __libc_calloc(n, m); }
void *realloc(void *p, size_t n) { return no_memory() ? NULL : __libc_realloc(p, n); }
void *memalign(size_t a, size_t n) { return no_memory() ? NULL : __libc_memalign(a, n); }
void *aligned_alloc(size_t a, size_t n) { return no_memory() ? NULL : __libc_memalign(a, n); }
int posix_memalign(void **p, size_t a, size_t n) {
    if (no_memory()) return ENOMEM;
    *p = __libc_memalign(a, n);
    return *p ? 0 : ENOMEM;
}

ssize_t read(int fd, void *to, size_t n) {
    if (fails("read")) {
        if (how > 0) { errno = how; return -1; }
        if (n > 1) n = 1;
    }
    return syscall(SYS_read, fd, to, n);
}

ssize_t write(int fd, const void *from, size_t n) {
    if (fd == 1 && shared && shared->failed_write) shared->wrote_later = 1;
    if (fails("write")) {
        if (how != SHORT && how != EINTR) shared->failed_write = 1;
        if (how > 0) { errno = how; return -1; }
        if (how == ZERO) return 0;
        if (n > 1) n = 1;
    }
    return syscall(SYS_write, fd, from, n);
}

ssize_t __write(int fd, const void *from, size_t n) { return write(fd, from, n); }

static int opened(int at, const char *path, int flags, int mode) {
    if (fails("open")) { errno = how; return -1; }
    return syscall(SYS_openat, at, path, flags, mode);
}

#define MODE(flags) ({ va_list more; va_start(more, flags); int it = va_arg(more, int); va_end(more); it; })
int open(const char *path, int flags, ...) { return opened(AT_FDCWD, path, flags, MODE(flags)); }
int open64(const char *path, int flags, ...) { return opened(AT_FDCWD, path, flags, MODE(flags)); }
int openat(int at, const char *path, int flags, ...) { return opened(at, path, flags, MODE(flags)); }
int openat64(int at, const char *path, int flags, ...) { return opened(at, path, flags, MODE(flags)); }

/* Reads what the child prints, waits for its end and tells of the run. */
static void tell(long run, int from, pid_t child) {
    static char text[1 << 20];
    size_t length = 0;
    for (ssize_t more; length < sizeof text && (more = syscall(SYS_read, from, text + length, sizeof text - length)) > 0;) length += more;
    int status = 0;
    waitpid(child, &status, 0);
    status = WIFEXITED(status) ? WEXITSTATUS(status) : 256 + WTERMSIG(status);
    dprintf(1, "%ld %d %d %d %zu\n", run, status, shared->met, shared->wrote_later, length);
    for (size_t at = 0; at < length;) at += syscall(SYS_write, 1, text + at, length - at);
}

__attribute__((constructor)) static void begin(void) {
    const char *asked = getenv("HOSTILE");
    char mode[16], many[16];
    if (!asked || sscanf(asked, "%15s %15s %15s", kind, mode, many) != 3) return;
    how = !strcmp(mode, "short") ? SHORT : !strcmp(mode, "zero") ? ZERO : atoi(mode);
    count = !strcmp(many, "rest") ? LONG_MAX : atol(many);
    shared = mmap(NULL, sizeof *shared, PROT_READ | PROT_WRITE, MAP_SHARED | MAP_ANONYMOUS, -1, 0);
    for (long next = 1; next <= MOST_RUNS; next++) {
        int ends[2];
        memset(shared, 0, sizeof *shared);
        if (pipe(ends)) _exit(9);
        pid_t child = fork();
        if (child < 0) _exit(9);
        if (!child) {
            dup2(ends[1], 1);
            close(ends[0]);
            close(ends[1]);
            alarm(SECONDS);
            number = next;
            return;
        }
        close(ends[1]);
        tell(next, ends[0], child);
        close(ends[0]);
        if (!shared->met) _exit(0);
    }
    _exit(9);
}
