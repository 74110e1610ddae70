/* Preloaded by bench/faults: lets one call of the C library fail. FAULT is FUNCTION:NUMBER:ERRNO, and the call of that
   function with that number, from 1 on, fails with that errno; with the errno 0 it moves half of the bytes that it is asked
   for. Where it failed, the file FAULT_HIT is made. */
#define _GNU_SOURCE
#include <dlfcn.h>
#include <errno.h>
#include <fcntl.h>
#include <stdarg.h>
#include <stdlib.h>
#include <string.h>
#include <sys/file.h>
#include <sys/stat.h>
#include <sys/syscall.h>
#include <sys/types.h>
#include <unistd.h>

static long count;

/* What becomes of this call: -1 as ever, else the errno. */
static int fate(const char *function) {
    const char *fault = getenv("FAULT");
    size_t length = strlen(function);
    if (!fault || strncmp(fault, function, length) || fault[length] != ':')
        return -1;
    char *rest;
    long number = strtol(fault + length + 1, &rest, 10);
    if (++count != number)
        return -1;
    long hit = syscall(SYS_openat, AT_FDCWD, getenv("FAULT_HIT"), O_CREAT | O_WRONLY, 0644);
    syscall(SYS_close, hit);
    return atoi(rest + 1);
}

#define REAL(name) ((__typeof__(&name))dlsym(RTLD_NEXT, #name))

#define FAILING(type, name, fails, parameters, arguments) \
    type name parameters { \
        int how = fate(#name); \
        if (how > 0) { \
            errno = how; \
            return fails; \
        } \
        return REAL(name) arguments; \
    }

#define MOVING(name, parameters, whole, half) \
    ssize_t name parameters { \
        int how = fate(#name); \
        if (how > 0) { \
            errno = how; \
            return -1; \
        } \
        return how == 0 && count_of > 1 ? REAL(name) half : REAL(name) whole; \
    }

/* Memory is taken before a real malloc can be looked up by dlsym, which takes none here. */
FAILING(void *, malloc, NULL, (size_t size), (size))
FAILING(void *, realloc, NULL, (void *old, size_t size), (old, size))
MOVING(read, (int fd, void *into, size_t count_of), (fd, into, count_of), (fd, into, count_of / 2))
MOVING(write, (int fd, const void *from, size_t count_of), (fd, from, count_of), (fd, from, count_of / 2))
MOVING(pread, (int fd, void *into, size_t count_of, off_t at), (fd, into, count_of, at), (fd, into, count_of / 2, at))
MOVING(pwrite, (int fd, const void *from, size_t count_of, off_t at), (fd, from, count_of, at), (fd, from, count_of / 2, at))
FAILING(int, fsync, -1, (int fd), (fd))
FAILING(int, fdatasync, -1, (int fd), (fd))
FAILING(int, rename, -1, (const char *old, const char *new), (old, new))
FAILING(int, unlink, -1, (const char *name), (name))
FAILING(int, fchmod, -1, (int fd, mode_t mode), (fd, mode))
FAILING(int, ftruncate, -1, (int fd, off_t length), (fd, length))
FAILING(int, flock, -1, (int fd, int operation), (fd, operation))
FAILING(int, statx, -1, (int fd, const char *path, int flags, unsigned int mask, struct statx *into), (fd, path, flags, mask, into))


int open(const char *path, int flags, ...) {
    va_list rest;
    va_start(rest, flags);
    mode_t mode = flags & O_CREAT ? va_arg(rest, mode_t) : 0;
    va_end(rest);
    int how = fate("open");
    if (how > 0) {
        errno = how;
        return -1;
    }
    return REAL(open)(path, flags, mode);
}
