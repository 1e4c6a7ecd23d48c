/* Refuses one call of a program for memory, files or threads: built as a shared object, and named by LD_PRELOAD.
 *
 * REFUSE names the kind of call: memory, thread, open, read, write, close, lseek, fsync, rename. REFUSE_AT is the number of the
 * call of this kind that is refused, counted from 1. REFUSE_COUNT names a file to which the number of these calls is written at
 * the end. A refused close closes the file all the same, as the operating system does. tools/refused.py uses this. */
#define _GNU_SOURCE
#include <dlfcn.h>
#include <errno.h>
#include <fcntl.h>
#include <pthread.h>
#include <stdarg.h>
#include <stdatomic.h>
#include <stdio.h>
#include <stdlib.h>
#include <string.h>
#include <sys/syscall.h>
#include <unistd.h>

static atomic_long calls;
static long refused_at = -1;
static char kind[16];

__attribute__((constructor)) static void begin(void) {
    const char *at = getenv("REFUSE_AT"), *which = getenv("REFUSE");
    if (which)
        strncpy(kind, which, sizeof kind - 1);
    refused_at = at ? atol(at) : 0;
}

/* Whether this call is the one to be refused. Calls before the program begins do not count. */
static int is_refused(const char *this_kind, int error) {
    if (refused_at < 0 || strcmp(kind, this_kind) != 0)
        return 0;
    if (atomic_fetch_add(&calls, 1) + 1 != refused_at)
        return 0;
    errno = error;
    return 1;
}

/* The program ends by this call. */
void _exit(int status) {
    const char *path = getenv("REFUSE_COUNT");
    if (path) {
        char text[32];
        int length = snprintf(text, sizeof text, "%ld", atomic_load(&calls));
        long file = syscall(SYS_openat, AT_FDCWD, path, O_WRONLY | O_CREAT | O_TRUNC, 0600);
        syscall(SYS_write, file, text, length);
    }
    for (;;)
        syscall(SYS_exit_group, status);
}

#define NEXT(type, name) ((type)dlsym(RTLD_NEXT, name))

int pthread_create(pthread_t *out, const pthread_attr_t *how, void *(*run)(void *), void *with) {
    if (is_refused("thread", EAGAIN))
        return EAGAIN;
    return NEXT(int (*)(pthread_t *, const pthread_attr_t *, void *(*)(void *), void *), "pthread_create")(out, how, run, with);
}

/* Memory. The C library's own names of these functions do not go through this object, so dlsym is never called too early. */
extern void *__libc_malloc(size_t), *__libc_realloc(void *, size_t);
extern void *__libc_memalign(size_t, size_t), *__libc_calloc(size_t, size_t);

void *malloc(size_t size) { return is_refused("memory", ENOMEM) ? NULL : __libc_malloc(size); }
void *realloc(void *old, size_t size) { return is_refused("memory", ENOMEM) ? NULL : __libc_realloc(old, size); }
void *calloc(size_t count, size_t size) { return is_refused("memory", ENOMEM) ? NULL : __libc_calloc(count, size); }
void *aligned_alloc(size_t to, size_t size) { return is_refused("memory", ENOMEM) ? NULL : __libc_memalign(to, size); }
int posix_memalign(void **out, size_t to, size_t size) {
    if (is_refused("memory", ENOMEM))
        return ENOMEM;
    *out = __libc_memalign(to, size);
    return *out ? 0 : ENOMEM;
}

/* Files. */
int open(const char *path, int flags, ...) {
    va_list rest;
    va_start(rest, flags);
    int mode = flags & O_CREAT ? va_arg(rest, int) : 0;
    va_end(rest);
    return is_refused("open", EACCES) ? -1 : NEXT(int (*)(const char *, int, ...), "open")(path, flags, mode);
}

ssize_t read(int file, void *to, size_t count) {
    return is_refused("read", EIO) ? -1 : NEXT(ssize_t (*)(int, void *, size_t), "read")(file, to, count);
}
ssize_t write(int file, const void *from, size_t count) {
    return is_refused("write", ENOSPC) ? -1 : NEXT(ssize_t (*)(int, const void *, size_t), "write")(file, from, count);
}
off_t lseek(int file, off_t at, int from) {
    return is_refused("lseek", EINVAL) ? -1 : NEXT(off_t (*)(int, off_t, int), "lseek")(file, at, from);
}
int close(int file) {
    int refused = is_refused("close", EIO), status = NEXT(int (*)(int), "close")(file);
    if (refused)
        errno = EIO;
    return refused ? -1 : status;
}
int fsync(int file) { return is_refused("fsync", EIO) ? -1 : NEXT(int (*)(int), "fsync")(file); }
int fdatasync(int file) { return is_refused("fsync", EIO) ? -1 : NEXT(int (*)(int), "fdatasync")(file); }
int rename(const char *from, const char *to) {
    return is_refused("rename", EIO) ? -1 : NEXT(int (*)(const char *, const char *), "rename")(from, to);
}
