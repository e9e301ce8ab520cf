/* Preloaded before a program, reports its calls about files of its own, a line each, to the file that CALLS names:
   which one it opens, and how, how many bytes it writes there, what it brings to its device, and which name it gives to
   what. Before the call of the number in STOPPED_BEFORE, from 1, the program stops as if it were killed. That of the
   number in FAILED_NUMBER fails, by the error of the number in FAILED_ERROR, or else by EIO. */
#define _GNU_SOURCE
#include <errno.h>
#include <fcntl.h>
#include <limits.h>
#include <stdarg.h>
#include <stdio.h>
#include <stdlib.h>
#include <string.h>
#include <sys/stat.h>
#include <sys/syscall.h>
#include <unistd.h>

static int reports = -1;
static long calls;

__attribute__((constructor)) static void begin(void) {
    const char *name = getenv("CALLS");
    if (name) reports = syscall(SYS_openat, AT_FDCWD, name, O_WRONLY | O_CREAT | O_APPEND | O_CLOEXEC, 0600);
}

/* Reports a call, before which the program may stop; whether it is to fail. */
static int fails(const char *name, const char *about, const char *more) {
    char line[3 * PATH_MAX];
    const char *last = getenv("STOPPED_BEFORE"), *failed = getenv("FAILED_NUMBER");
    const char *error = getenv("FAILED_ERROR");
    if (reports < 0) return 0;
    calls++;
    if (last && calls == atol(last)) _exit(99);
    int size = snprintf(line, sizeof line, "%s %s %s\n", name, about, more);
    if (syscall(SYS_write, reports, line, size) != size) abort();
    if (!failed || calls != atol(failed)) return 0;
    errno = error ? atoi(error) : EIO;
    return 1;
}

static const char *name_of(int file, char *room) {
    char link[64];
    snprintf(link, sizeof link, "/proc/self/fd/%d", file);
    ssize_t size = readlink(link, room, PATH_MAX - 1);
    room[size < 0 ? 0 : size] = 0;
    return room;
}

/* Is it a file or a folder, and no stream, pipe or connection? */
static int is_file(int file) {
    struct stat about;
    if (file <= STDERR_FILENO || syscall(SYS_fstat, file, &about)) return 0;
    return S_ISREG(about.st_mode) || S_ISDIR(about.st_mode);
}

static int opened(int folder, const char *path, int flags, int mode) {
    int writes = (flags & O_ACCMODE) != O_RDONLY;
    const char *how = !writes ? "to-read" : flags & O_TRUNC ? "to-write-anew" : "to-write";
    int is_own = strcmp(path, "/") && strncmp(path, "/proc/", 6) && strncmp(path, "/etc/", 5);
    if (is_own && fails("open", path, how)) return -1;
    return syscall(SYS_openat, folder, path, flags, mode);
}

int open(const char *path, int flags, ...) {
    va_list more;
    va_start(more, flags);
    int mode = flags & O_CREAT ? va_arg(more, int) : 0;
    va_end(more);
    return opened(AT_FDCWD, path, flags, mode);
}

int open64(const char *path, int flags, ...) __attribute__((alias("open")));

int openat(int folder, const char *path, int flags, ...) {
    va_list more;
    va_start(more, flags);
    int mode = flags & O_CREAT ? va_arg(more, int) : 0;
    va_end(more);
    return opened(folder, path, flags, mode);
}

ssize_t write(int file, const void *from, size_t size) {
    char room[PATH_MAX], count[32];
    snprintf(count, sizeof count, "%zu", size);
    if (is_file(file) && fails("write", name_of(file, room), count)) return -1;
    return syscall(SYS_write, file, from, size);
}

static int synced(long number, int file) {
    char room[PATH_MAX];
    return is_file(file) && fails("sync", name_of(file, room), "") ? -1 : (int)syscall(number, file);
}

int fsync(int file) { return synced(SYS_fsync, file); }

int fdatasync(int file) { return synced(SYS_fdatasync, file); }

int rename(const char *old, const char *new) {
    return fails("rename", old, new) ? -1 : (int)syscall(SYS_rename, old, new);
}

int renameat(int from, const char *old, int to, const char *new) {
    return fails("rename", old, new) ? -1 : (int)syscall(SYS_renameat, from, old, to, new);
}

int unlink(const char *path) { return fails("unlink", path, "") ? -1 : (int)syscall(SYS_unlink, path); }
