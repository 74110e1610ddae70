/* Preloaded by tests/damage: writes each call that it knows and the file that it is about into the file CALLS_LOG. At the call that
   CALLS_AT names, as "rename journal.mig 2" for the second rename of a file whose path ends so, it runs the command CALLS_RUN first, makes
   the file "taken" where the file CALLS_LOCK can be locked, and then fails with the errno CALLS_ERRNO, where these are there. With
   CALLS_FREE each lock is given, and locks nothing; with CALLS_FULL no file can be made but in the folder elsewhere, and none can grow. */
#define _GNU_SOURCE
#include <dlfcn.h>
#include <errno.h>
#include <fcntl.h>
#include <stdarg.h>
#include <stdio.h>
#include <stdlib.h>
#include <string.h>
#include <sys/file.h>
#include <sys/stat.h>
#include <unistd.h>

#define REAL(name) ((__typeof__(&name))dlsym(RTLD_NEXT, #name))

static int inside;

static void try_lock(const char *path) {
    int file = REAL(open)(path, O_RDONLY);
    if (file < 0 || !REAL(flock)(file, LOCK_EX | LOCK_NB))
        close(REAL(open)("taken", O_CREAT | O_WRONLY, 0644));
    close(file);
}

/* The errno with which the call is to fail, or 0. */
static int met(const char *call, const char *path) {
    static int count;
    static FILE *to;
    char name[32] = "", file[4096] = "";
    int at = 0, error = 0;
    const char *wanted = getenv("CALLS_AT"), *log = getenv("CALLS_LOG"), *command = getenv("CALLS_RUN");
    if (inside)
        return 0;
    inside = 1;
    if (log && (to || (to = fopen(log, "a")))) {
        fprintf(to, "%s %s\n", call, path);
        fflush(to);
    }
    if (wanted && sscanf(wanted, "%31s %4095s %d", name, file, &at) == 3 && !strcmp(name, call)) {
        size_t all = strlen(path), end = strlen(file);
        if (all >= end && !strcmp(path + all - end, file) && ++count == at) {
            unsetenv("LD_PRELOAD");
            if (command && system(command))
                _exit(99);
            if (getenv("CALLS_LOCK"))
                try_lock(getenv("CALLS_LOCK"));
            error = atoi(getenv("CALLS_ERRNO") ? getenv("CALLS_ERRNO") : "0");
        }
    }
    inside = 0;
    return error;
}

static int met_open(const char *call, int file) {
    char link[64], path[4096];
    snprintf(link, sizeof link, "/proc/self/fd/%d", file);
    ssize_t length = readlink(link, path, sizeof path - 1);
    path[length < 0 ? 0 : length] = 0;
    return met(call, path);
}

#define FAIL(error) do { int found = error; if (found) { errno = found; return -1; } } while (0)

int open(const char *path, int flags, ...) {
    va_list more;
    va_start(more, flags);
    mode_t mode = va_arg(more, mode_t);
    va_end(more);
    FAIL(met(flags & O_CREAT ? "make" : "open", path));
    FAIL(getenv("CALLS_FULL") && flags & O_CREAT && strncmp(path, "elsewhere/", 10) && access(path, F_OK) ? ENOSPC : 0);
    return REAL(open)(path, flags, mode);
}

int statx(int folder, const char *restrict path, int flags, unsigned mask, struct statx *restrict into) {
    FAIL(*path ? met("statx", path) : met_open("fstat", folder));
    return REAL(statx)(folder, path, flags, mask, into);
}

char *realpath(const char *path, char *into) {
    if ((errno = met("realpath", path)))
        return NULL;
    return REAL(realpath)(path, into);
}

int flock(int file, int how) {
    FAIL(met_open("flock", file));
    return getenv("CALLS_FREE") ? 0 : REAL(flock)(file, how);
}

int fchmod(int file, mode_t mode) {
    FAIL(met_open("fchmod", file));
    return REAL(fchmod)(file, mode);
}

int rename(const char *from, const char *to) {
    FAIL(met("rename", from));
    return REAL(rename)(from, to);
}

int unlink(const char *path) {
    FAIL(met("unlink", path));
    return REAL(unlink)(path);
}

ssize_t pwrite(int file, const void *bytes, size_t count, off_t at) {
    struct stat held;
    FAIL(met_open("pwrite", file));
    FAIL(getenv("CALLS_FULL") && !fstat(file, &held) && S_ISREG(held.st_mode) && at + (off_t)count > held.st_size ? ENOSPC : 0);
    return REAL(pwrite)(file, bytes, count, at);
}

ssize_t pread(int file, void *bytes, size_t count, off_t at) {
    FAIL(met_open("pread", file));
    return REAL(pread)(file, bytes, count, at);
}

int fsync(int file) {
    FAIL(met_open("fsync", file));
    return REAL(fsync)(file);
}

int fdatasync(int file) {
    FAIL(met_open("fdatasync", file));
    return REAL(fdatasync)(file);
}
