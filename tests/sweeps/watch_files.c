/* Preloaded before a server, writes down its calls about the files whose names begin with WATCHED, about the folder
   that they are in, and what it reads from and writes to its connections and standard output, into the file that RECORD
   names. Each call is two entries, one before it and one after it, with its bytes: an entry is one write at the end of
   that file, so that their order is that of time, whichever threads made them.

   Of the watched writes, syncs, truncations, renames and openings that may make a file or empty it, the one of the
   number in FAILED_CALL, from 1, fails with the error whose number stands in FAILED_ERROR; with FAILED_LASTING so do
   all that follow. If a number stands in FAILED_SHORT, a write that would fail writes so many bytes first, and the next
   one fails. */
#define _GNU_SOURCE
#include <errno.h>
#include <fcntl.h>
#include <limits.h>
#include <stdarg.h>
#include <stdint.h>
#include <stdio.h>
#include <stdlib.h>
#include <string.h>
#include <sys/socket.h>
#include <sys/stat.h>
#include <sys/syscall.h>
#include <sys/uio.h>
#include <unistd.h>

enum { OPEN = 1, WRITE, SYNC, TRUNCATE, RENAME, UNLINK, SENT, CAME };
enum { MOST_PARTS = 64 };

/* What stands in front of an entry's name and bytes. */
struct entry {
    uint32_t kind, is_end;
    uint64_t call, file; /* the call's number, and the inode */
    int64_t place;       /* where it writes, or where it cuts; at its end what it gave, or minus the error */
    uint32_t name, bytes;
};

static int record = -1;
static const char *watched;
static size_t watched_size, folder_size;
static uint64_t calls;
static long counted, failed_call, failed_error, failed_lasting, failed_short = -1;

static long number_in(const char *name, long other) {
    const char *text = getenv(name);
    return text ? atol(text) : other;
}

__attribute__((constructor)) static void begin(void) {
    const char *name = getenv("RECORD"), *slash;
    watched = getenv("WATCHED");
    slash = watched ? strrchr(watched, '/') : NULL;
    if (!name || !slash) return;
    watched_size = strlen(watched), folder_size = (size_t)(slash - watched);
    failed_call = number_in("FAILED_CALL", 0), failed_error = number_in("FAILED_ERROR", EIO);
    failed_lasting = number_in("FAILED_LASTING", 0), failed_short = number_in("FAILED_SHORT", -1);
    record = (int)syscall(SYS_openat, AT_FDCWD, name, O_WRONLY | O_CREAT | O_APPEND | O_CLOEXEC, 0600);
}

static void put(struct entry entry, const char *name, const struct iovec *parts, int count) {
    struct iovec all[MOST_PARTS + 2] = {{&entry, sizeof entry}, {(void *)name, strlen(name)}};
    ssize_t size = (ssize_t)(sizeof entry + strlen(name));
    entry.name = (uint32_t)strlen(name);
    for (int at = 0; at < count && at < MOST_PARTS; at++) {
        all[at + 2] = parts[at];
        size += (ssize_t)parts[at].iov_len;
        entry.bytes += (uint32_t)parts[at].iov_len;
    }
    if (count > MOST_PARTS || syscall(SYS_writev, record, all, count + 2) != size) abort();
}

/* A call under way. */
struct call {
    uint32_t kind;
    uint64_t number, file;
};

static struct call begun(uint32_t kind, uint64_t file, int64_t place, const char *name, const void *from, size_t size) {
    struct call call = {kind, __sync_add_and_fetch(&calls, 1), file};
    struct iovec part = {(void *)from, size};
    put((struct entry){kind, 0, call.number, file, place, 0, 0}, name, &part, 1);
    return call;
}

/* Writes down how the call ended, and gives that. */
static ssize_t ended(struct call call, ssize_t gave, const char *name, const void *bytes, size_t size) {
    int error = errno;
    struct iovec part = {(void *)bytes, size};
    put((struct entry){call.kind, 1, call.number, call.file, gave < 0 ? -error : gave, 0, 0}, name, &part, 1);
    errno = error;
    return gave;
}

static int is_watched(const char *name) {
    if (record < 0) return 0;
    int is_folder = strlen(name) == folder_size && !strncmp(name, watched, folder_size);
    return is_folder || !strncmp(name, watched, watched_size);
}

/* The file's name, if it is one that is watched. */
static const char *name_of(int file, char *room) {
    char link[64];
    if (record < 0 || file < 0 || file == record) return NULL;
    snprintf(link, sizeof link, "/proc/self/fd/%d", file);
    ssize_t size = readlink(link, room, PATH_MAX - 1);
    room[size < 0 ? 0 : size] = 0;
    return is_watched(room) ? room : NULL;
}

static uint64_t inode_of(int file) {
    struct stat about;
    return syscall(SYS_fstat, file, &about) ? 0 : about.st_ino;
}

static uint64_t inode_at(const char *name) {
    struct stat about;
    return syscall(SYS_newfstatat, AT_FDCWD, name, &about, AT_SYMLINK_NOFOLLOW) ? 0 : about.st_ino;
}

/* Counts a call that may fail; whether this one does. */
static int fails(void) {
    long number = __sync_add_and_fetch(&counted, 1);
    if (!failed_call || (failed_lasting ? number < failed_call : number != failed_call)) return 0;
    errno = (int)failed_error;
    return 1;
}

/* ---- files */

static int64_t place_of(int file) {
    struct stat about;
    if (!(fcntl(file, F_GETFL) & O_APPEND)) return syscall(SYS_lseek, file, 0, SEEK_CUR);
    return syscall(SYS_fstat, file, &about) ? -1 : about.st_size;
}

static ssize_t written(int file, const char *name, const void *from, size_t size, int64_t place, int is_placed) {
    struct call call = begun(WRITE, inode_of(file), is_placed ? place : place_of(file), name, from, size);
    if (fails()) {
        if (failed_short < 0 || (size_t)failed_short >= size) return ended(call, -1, name, NULL, 0);
        if (!failed_lasting) failed_call++;
        size = (size_t)failed_short, failed_short = -1;
    }
    ssize_t gave = is_placed ? syscall(SYS_pwrite64, file, from, size, place) : syscall(SYS_write, file, from, size);
    return ended(call, gave, name, NULL, 0);
}

static int is_connection(int file) {
    struct stat about;
    return record >= 0 && !syscall(SYS_fstat, file, &about) && S_ISSOCK(about.st_mode);
}

static ssize_t sent(int file, const void *from, size_t size, int flags) {
    struct call call = begun(SENT, (uint64_t)file, 0, "", from, size);
    ssize_t gave = is_connection(file) ? syscall(SYS_sendto, file, from, size, flags, NULL, 0)
                                       : syscall(SYS_write, file, from, size);
    return ended(call, gave, "", NULL, 0);
}

ssize_t write(int file, const void *from, size_t size) {
    char room[PATH_MAX];
    if (record >= 0 && (file == STDOUT_FILENO || is_connection(file))) return sent(file, from, size, 0);
    const char *name = name_of(file, room);
    return name ? written(file, name, from, size, 0, 0) : syscall(SYS_write, file, from, size);
}

ssize_t pwrite(int file, const void *from, size_t size, off_t place) {
    char room[PATH_MAX];
    const char *name = name_of(file, room);
    return name ? written(file, name, from, size, place, 1) : syscall(SYS_pwrite64, file, from, size, place);
}

ssize_t pwrite64(int file, const void *from, size_t size, off64_t place) { return pwrite(file, from, size, place); }

/* All parts as one, of a watched file or a connection. */
ssize_t writev(int file, const struct iovec *parts, int count) {
    char room[PATH_MAX];
    if (record < 0 || !(is_connection(file) || file == STDOUT_FILENO || name_of(file, room)))
        return syscall(SYS_writev, file, parts, count);
    size_t size = 0, at = 0;
    for (int part = 0; part < count; part++) size += parts[part].iov_len;
    char *all = malloc(size + 1);
    if (!all) abort();
    for (int part = 0; part < count; at += parts[part++].iov_len)
        memcpy(all + at, parts[part].iov_base, parts[part].iov_len);
    ssize_t gave = write(file, all, size);
    int error = errno;
    free(all);
    errno = error;
    return gave;
}

static int synced(long number, int file) {
    char room[PATH_MAX];
    const char *name = name_of(file, room);
    if (!name) return (int)syscall(number, file);
    struct call call = begun(SYNC, inode_of(file), 0, name, NULL, 0);
    return (int)ended(call, fails() ? -1 : syscall(number, file), name, NULL, 0);
}

int fsync(int file) { return synced(SYS_fsync, file); }

int fdatasync(int file) { return synced(SYS_fdatasync, file); }

int ftruncate(int file, off_t size) {
    char room[PATH_MAX];
    const char *name = name_of(file, room);
    if (!name) return (int)syscall(SYS_ftruncate, file, size);
    struct call call = begun(TRUNCATE, inode_of(file), size, name, NULL, 0);
    return (int)ended(call, fails() ? -1 : syscall(SYS_ftruncate, file, size), name, NULL, 0);
}

int ftruncate64(int file, off64_t size) { return ftruncate(file, size); }

/* The entry says which inode gets which name: 0 before, if the file isn't there. */
static int opened(int folder, const char *path, int flags, int mode) {
    if (!(flags & (O_CREAT | O_TRUNC)) || !is_watched(path)) return (int)syscall(SYS_openat, folder, path, flags, mode);
    struct call call = begun(OPEN, inode_at(path), flags & O_TRUNC ? 1 : 0, path, NULL, 0);
    int gave = fails() ? -1 : (int)syscall(SYS_openat, folder, path, flags, mode);
    int error = errno;
    call.file = gave < 0 ? 0 : inode_of(gave);
    errno = error;
    return (int)ended(call, gave, path, NULL, 0);
}

int open(const char *path, int flags, ...) {
    va_list more;
    va_start(more, flags);
    int mode = flags & O_CREAT ? va_arg(more, int) : 0;
    va_end(more);
    return opened(AT_FDCWD, path, flags, mode);
}

int open64(const char *path, int flags, ...) __attribute__((alias("open")));

int openat(int folder, const char *path, int flags, ...) {
    va_list more;
    va_start(more, flags);
    int mode = flags & O_CREAT ? va_arg(more, int) : 0;
    va_end(more);
    return opened(folder, path, flags, mode);
}

int openat64(int folder, const char *path, int flags, ...) __attribute__((alias("openat")));

/* Its bytes are the new name. */
int renameat2(int from, const char *old, int to, const char *new, unsigned flags) {
    if (!is_watched(old) && !is_watched(new)) return (int)syscall(SYS_renameat2, from, old, to, new, flags);
    struct call call = begun(RENAME, inode_at(old), 0, old, new, strlen(new));
    return (int)ended(call, fails() ? -1 : syscall(SYS_renameat2, from, old, to, new, flags), old, NULL, 0);
}

int rename(const char *old, const char *new) { return renameat2(AT_FDCWD, old, AT_FDCWD, new, 0); }

int renameat(int from, const char *old, int to, const char *new) { return renameat2(from, old, to, new, 0); }

int unlinkat(int folder, const char *path, int flags) {
    if (!is_watched(path)) return (int)syscall(SYS_unlinkat, folder, path, flags);
    struct call call = begun(UNLINK, inode_at(path), 0, path, NULL, 0);
    return (int)ended(call, fails() ? -1 : syscall(SYS_unlinkat, folder, path, flags), path, NULL, 0);
}

int unlink(const char *path) { return unlinkat(AT_FDCWD, path, 0); }

/* ---- connections */

ssize_t send(int file, const void *from, size_t size, int flags) {
    return record < 0 ? syscall(SYS_sendto, file, from, size, flags, NULL, 0) : sent(file, from, size, flags);
}

ssize_t recv(int file, void *to, size_t size, int flags) {
    ssize_t gave = syscall(SYS_recvfrom, file, to, size, flags, NULL, NULL);
    if (record < 0 || gave <= 0 || flags & MSG_PEEK) return gave;
    struct call call = {CAME, __sync_add_and_fetch(&calls, 1), (uint64_t)file};
    return ended(call, gave, "", to, (size_t)gave);
}

ssize_t read(int file, void *to, size_t size) {
    return is_connection(file) ? recv(file, to, size, 0) : syscall(SYS_read, file, to, size);
}
