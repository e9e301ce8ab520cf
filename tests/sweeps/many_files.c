/* Preloaded before a program that reads one file, lets it do so for many: a start of its own costs more than the
   reading. It is stopped before it has begun, and for each file that comes on standard input a copy of it goes on, to
   which standard input is empty. A file comes as the number of its bytes, 8 bytes with the lowest first, and the bytes;
   they are written to the file that READ_FILE names, which isn't there if the number is minus one. What goes out is the
   copy's status, how many bytes it wrote to standard output and to standard error, each 8 bytes, and these bytes. A
   copy may take as many seconds as READ_SECONDS says, and has the number of the signal with a minus for its status if
   one ended it. */
#define _GNU_SOURCE
#include <fcntl.h>
#include <stdint.h>
#include <stdio.h>
#include <stdlib.h>
#include <string.h>
#include <sys/mman.h>
#include <sys/stat.h>
#include <sys/wait.h>
#include <unistd.h>

static void stop(const char *why) {
    perror(why);
    _exit(99);
}

/* Reads so many bytes; whether there were any. */
static int read_all(void *to, size_t size) {
    size_t had = 0;
    while (had < size) {
        ssize_t got = read(STDIN_FILENO, (char *)to + had, size - had);
        if (got < 0 || (!got && had)) stop("many_files: standard input");
        if (!got) return 0;
        had += (size_t)got;
    }
    return 1;
}

static void write_all(int file, const void *from, size_t size) {
    for (size_t had = 0; had < size;) {
        ssize_t put = write(file, (const char *)from + had, size - had);
        if (put <= 0) stop("many_files: writing");
        had += (size_t)put;
    }
}

/* (A file that is emptied may have to wait for the disk until it is written again; a new one hasn't.) */
static void put_file(const char *name, const char *bytes, int64_t size) {
    unlink(name);
    if (size < 0) return;
    int file = open(name, O_WRONLY | O_CREAT | O_EXCL | O_CLOEXEC, 0600);
    if (file < 0) stop(name);
    write_all(file, bytes, (size_t)size);
    close(file);
}

/* What a copy wrote into a file in memory, which is empty then. */
static char *taken(int file, int64_t *size) {
    struct stat about;
    if (fstat(file, &about)) stop("many_files: fstat");
    char *bytes = malloc((size_t)about.st_size + 1);
    if (!bytes || pread(file, bytes, (size_t)about.st_size, 0) != about.st_size) stop("many_files: pread");
    if (ftruncate(file, 0) || lseek(file, 0, SEEK_SET)) stop("many_files: ftruncate");
    *size = about.st_size;
    return bytes;
}

static void put_result(int64_t status, int out, int err) {
    int64_t head[3] = {status};
    char *told = taken(out, &head[1]), *blamed = taken(err, &head[2]);
    write_all(STDOUT_FILENO, head, sizeof head);
    write_all(STDOUT_FILENO, told, (size_t)head[1]);
    write_all(STDOUT_FILENO, blamed, (size_t)head[2]);
    free(told), free(blamed);
}

static void become_copy(int out, int err, unsigned seconds) {
    int nothing = open("/dev/null", O_RDONLY);
    if (dup2(nothing, STDIN_FILENO) < 0 || dup2(out, STDOUT_FILENO) < 0 || dup2(err, STDERR_FILENO) < 0) _exit(98);
    close(nothing), close(out), close(err);
    alarm(seconds);
}

__attribute__((constructor)) static void begin(void) {
    const char *name = getenv("READ_FILE"), *seconds = getenv("READ_SECONDS");
    if (!name) return;
    int out = memfd_create("out", MFD_CLOEXEC), err = memfd_create("err", MFD_CLOEXEC), status;
    if (out < 0 || err < 0) stop("many_files: memfd_create");
    for (int64_t size; read_all(&size, sizeof size);) {
        char *bytes = malloc(size < 0 ? 1 : (size_t)size + 1);
        if (!bytes || (size > 0 && !read_all(bytes, (size_t)size))) stop("many_files: a file");
        put_file(name, bytes, size);
        free(bytes);
        pid_t copy = fork();
        if (copy < 0) stop("many_files: fork");
        if (!copy) return become_copy(out, err, seconds ? (unsigned)atoi(seconds) : 60);
        if (waitpid(copy, &status, 0) != copy) stop("many_files: waitpid");
        put_result(WIFEXITED(status) ? WEXITSTATUS(status) : -WTERMSIG(status), out, err);
    }
    _exit(0);
}
