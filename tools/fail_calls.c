/* A shim that is loaded before a program (LD_PRELOAD) and makes system calls of it fail.

   FAIL_CALLS=write:2:28 makes the second call of write fail with error 28, and do nothing; a close that fails has closed the
   file all the same, as the kernel's does. With error 0 a read or a write does only half of what it is asked for. With -2 the
   process gets signal 2 before the call. The name `any` counts the calls of all names. Several that fail are divided by
   commas. FAIL_LOG.write is the file that is made when that call fails, so that whoever set the variables can tell.

   The real calls are made by their numbers, so that nothing is looked up here. */
#define _GNU_SOURCE
#include <dirent.h>
#include <errno.h>
#include <fcntl.h>
#include <signal.h>
#include <stdarg.h>
#include <stdio.h>
#include <stdlib.h>
#include <string.h>
#include <sys/file.h>
#include <sys/stat.h>
#include <sys/syscall.h>
#include <sys/types.h>
#include <unistd.h>

/* A call that is to fail: its name, which one of that name it is, and the error; and how many were made. */
struct failing {
    char name[16];
    unsigned long number, made;
    int error;
};

#define MOST 8

static struct failing failing[MOST];
static int count;

__attribute__((constructor)) static void start(void) {
    const char *text = getenv("FAIL_CALLS");
    while (text && *text && count < MOST) {
        struct failing *next = &failing[count++];
        if (sscanf(text, "%15[a-z0-9]:%lu:%d", next->name, &next->number, &next->error) != 3)
            abort();
        text = strchr(text, ',');
        if (text)
            text++;
    }
}

static void tell(const char *name) {
    const char *log = getenv("FAIL_LOG");
    char path[4096];
    if (!log || snprintf(path, sizeof path, "%s.%s", log, name) >= (int)sizeof path)
        abort();
    long file = syscall(SYS_openat, AT_FDCWD, path, O_WRONLY | O_CREAT, 0600);
    if (file < 0)
        abort();
    syscall(SYS_close, file);
}

/* The error with which this call fails, 0 where it does half, -1 where it is made as it is. */
static int error_of(const char *name) {
    int error = -1;
    for (int at = 0; at < count; at++) {
        struct failing *call = &failing[at];
        if ((strcmp(call->name, name) != 0 && strcmp(call->name, "any") != 0) || ++call->made != call->number)
            continue;
        tell(call->name);
        if (call->error < 0)
            syscall(SYS_kill, getpid(), -call->error);
        else
            error = call->error;
    }
    return error;
}

/* Whether this call fails; its error is then in its place. */
static int fails(const char *name) {
    int error = error_of(name);
    if (error > 0)
        errno = error;
    return error > 0;
}

int open(const char *path, int flags, ...) {
    va_list more;
    va_start(more, flags);
    mode_t mode = flags & O_CREAT ? va_arg(more, mode_t) : 0;
    va_end(more);
    return fails("open") ? -1 : syscall(SYS_openat, AT_FDCWD, path, flags, mode);
}

/* By this directories are opened. */
int openat(int directory, const char *path, int flags, ...) {
    va_list more;
    va_start(more, flags);
    mode_t mode = flags & O_CREAT ? va_arg(more, mode_t) : 0;
    va_end(more);
    return fails("openat") ? -1 : syscall(SYS_openat, directory, path, flags, mode);
}

ssize_t getdents64(int directory, void *names, size_t size) {
    return fails("getdents64") ? -1 : syscall(SYS_getdents64, directory, names, size);
}

int close(int file) {
    int failed = fails("close"), error = errno;
    long made = syscall(SYS_close, file);
    if (failed)
        errno = error;
    return failed ? -1 : made;
}

/* How many bytes a read or a write is made with: half of them where it is to be short, but one at least. */
static size_t size_of(int error, size_t size) { return error == 0 && size > 1 ? size / 2 : size; }

ssize_t read(int file, void *bytes, size_t size) {
    int error = error_of("read");
    if (error > 0) {
        errno = error;
        return -1;
    }
    return syscall(SYS_read, file, bytes, size_of(error, size));
}

ssize_t write(int file, const void *bytes, size_t size) {
    int error = error_of("write");
    if (error > 0) {
        errno = error;
        return -1;
    }
    return syscall(SYS_write, file, bytes, size_of(error, size));
}

off_t lseek(int file, off_t by, int from) { return fails("lseek") ? -1 : syscall(SYS_lseek, file, by, from); }

ssize_t readlink(const char *path, char *bytes, size_t size) {
    return fails("readlink") ? -1 : syscall(SYS_readlinkat, AT_FDCWD, path, bytes, size);
}

int statx(int directory, const char *path, int flags, unsigned mask, struct statx *told) {
    return fails("statx") ? -1 : syscall(SYS_statx, directory, path, flags, mask, told);
}

int fchown(int file, uid_t owner, gid_t group) { return fails("fchown") ? -1 : syscall(SYS_fchown, file, owner, group); }

int flock(int file, int how) { return fails("flock") ? -1 : syscall(SYS_flock, file, how); }

int link(const char *from, const char *to) {
    return fails("link") ? -1 : syscall(SYS_linkat, AT_FDCWD, from, AT_FDCWD, to, 0);
}

int fchmod(int file, mode_t mode) { return fails("fchmod") ? -1 : syscall(SYS_fchmod, file, mode); }

int fsync(int file) { return fails("fsync") ? -1 : syscall(SYS_fsync, file); }

int rename(const char *from, const char *to) {
    return fails("rename") ? -1 : syscall(SYS_renameat2, AT_FDCWD, from, AT_FDCWD, to, 0);
}

int unlink(const char *path) { return fails("unlink") ? -1 : syscall(SYS_unlinkat, AT_FDCWD, path, 0); }
