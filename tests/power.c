/* Preloaded by tests/power: tells of each call that changes a file, settles it, opens or closes it, over the socket whose number POWER
   is, and does as is answered: 0 to go on, -1 to do nothing and say that it was done, and else to fail with that errno. An open is
   told once it was made; it and a close are made whatever is said, so no answer comes. POWER_FILES limits how many files may be open. */
#define _GNU_SOURCE
#include <dlfcn.h>
#include <errno.h>
#include <fcntl.h>
#include <stdarg.h>
#include <stdint.h>
#include <stdlib.h>
#include <string.h>
#include <sys/resource.h>
#include <sys/socket.h>
#include <sys/stat.h>
#include <sys/types.h>
#include <sys/uio.h>
#include <unistd.h>

enum { OPEN, WRITE, LENGTH, SYNC, RENAME, REMOVE, LINK, CLOSE };
enum { GO_ON = 0, DONE = -1 };

/* What is told of a call, before its names or bytes. */
struct call {
    int32_t kind, descriptor, error, made;
    int64_t file, at;
};

static int connection = -1;

#define REAL(name) ((__typeof__(&name))dlsym(RTLD_NEXT, #name))

__attribute__((constructor)) static void begin(void) {
    const char *number = getenv("POWER"), *files = getenv("POWER_FILES");
    if (files) {
        struct rlimit limit = {(rlim_t)atoi(files), (rlim_t)atoi(files)};
        setrlimit(RLIMIT_NOFILE, &limit);
    }
    if (number)
        connection = atoi(number);
}

static int64_t file_of(int descriptor) {
    struct stat found;
    return descriptor >= 0 && fstat(descriptor, &found) == 0 ? (int64_t)found.st_ino : 0;
}

/* Tells of a call, with two runs of bytes, and gives what is answered. */
static int ask(struct call call, const void *first, size_t length, const void *second, size_t more) {
    int32_t answer = GO_ON;
    int before = errno;
    if (connection < 0)
        return GO_ON;
    struct iovec parts[3] = {{&call, sizeof call}, {(void *)first, length}, {(void *)second, more}};
    struct msghdr whole = {.msg_iov = parts, .msg_iovlen = 3};
    int is_answered = call.kind != OPEN && call.kind != CLOSE;
    if (sendmsg(connection, &whole, MSG_NOSIGNAL) < 0 || (is_answered && recv(connection, &answer, sizeof answer, 0) != sizeof answer))
        _exit(137);
    errno = before;
    return answer;
}

static int ask_about(int kind, int descriptor, int64_t at, const void *bytes, size_t length) {
    return ask((struct call){kind, descriptor, 0, 0, file_of(descriptor), at}, bytes, length, NULL, 0);
}

static int ask_names(int kind, const char *one, const char *other) {
    return ask((struct call){.kind = kind, .descriptor = -1}, one, strlen(one) + 1, other, strlen(other) + 1);
}

static int refuse(int error) {
    errno = error;
    return -1;
}

#define ANSWERED(asked, real) \
    int answer = asked; \
    return answer == GO_ON ? real : answer == DONE ? 0 : refuse(answer)

static int opened(const char *path, int flags, mode_t mode) {
    int was_there = access(path, F_OK) == 0;
    int descriptor = REAL(open)(path, flags, mode);
    int error = descriptor < 0 ? errno : 0;
    ask((struct call){OPEN, descriptor, error, descriptor >= 0 && !was_there, file_of(descriptor), 0}, path, strlen(path) + 1, NULL, 0);
    errno = error;
    return descriptor;
}

#define OPENING(name) \
    int name(const char *path, int flags, ...) { \
        va_list rest; \
        va_start(rest, flags); \
        mode_t mode = flags & O_CREAT ? va_arg(rest, mode_t) : 0; \
        va_end(rest); \
        return opened(path, flags, mode); \
    }

OPENING(open)
OPENING(open64)

int openat(int folder, const char *path, int flags, ...) {
    va_list rest;
    va_start(rest, flags);
    mode_t mode = flags & O_CREAT ? va_arg(rest, mode_t) : 0;
    va_end(rest);
    return folder == AT_FDCWD ? opened(path, flags, mode) : refuse(ENOSYS);
}

int close(int descriptor) {
    if (descriptor == connection)
        return 0;
    ask_about(CLOSE, descriptor, 0, NULL, 0);
    return REAL(close)(descriptor);
}

static ssize_t written(int descriptor, const void *from, size_t count, off_t at) {
    int answer = ask_about(WRITE, descriptor, at, from, count);
    if (answer == GO_ON)
        return REAL(pwrite)(descriptor, from, count, at);
    return answer == DONE ? (ssize_t)count : refuse(answer);
}

ssize_t pwrite(int descriptor, const void *from, size_t count, off_t at) { return written(descriptor, from, count, at); }
ssize_t pwrite64(int descriptor, const void *from, size_t count, off_t at) { return written(descriptor, from, count, at); }

/* What is printed isn't told. */
ssize_t write(int descriptor, const void *from, size_t count) {
    if (descriptor > 2) {
        int answer = ask_about(WRITE, descriptor, lseek(descriptor, 0, SEEK_CUR), from, count);
        if (answer != GO_ON)
            return answer == DONE ? (ssize_t)count : refuse(answer);
    }
    return REAL(write)(descriptor, from, count);
}

int fsync(int descriptor) { ANSWERED(ask_about(SYNC, descriptor, 0, NULL, 0), REAL(fsync)(descriptor)); }
int fdatasync(int descriptor) { ANSWERED(ask_about(SYNC, descriptor, 0, NULL, 0), REAL(fdatasync)(descriptor)); }
int ftruncate(int descriptor, off_t length) { ANSWERED(ask_about(LENGTH, descriptor, length, NULL, 0), REAL(ftruncate)(descriptor, length)); }
int ftruncate64(int descriptor, off_t length) { ANSWERED(ask_about(LENGTH, descriptor, length, NULL, 0), REAL(ftruncate)(descriptor, length)); }
int rename(const char *old, const char *new) { ANSWERED(ask_names(RENAME, old, new), REAL(rename)(old, new)); }
int unlink(const char *path) { ANSWERED(ask_names(REMOVE, path, ""), REAL(unlink)(path)); }
int link(const char *old, const char *new) { ANSWERED(ask_names(LINK, old, new), REAL(link)(old, new)); }
