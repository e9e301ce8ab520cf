/* Preloaded before the program, lets one of its calls on connections fail: the one whose number, from 1, stands in
   FAILED_READ or FAILED_WRITE. Says so by one byte on the descriptor whose number stands in FAILED_TELL. All other
   calls are the system's; of a read at most as many bytes come as READ_AT_MOST says, and of a write as WRITE_AT_MOST
   says. So too for standard input and output, by FAILED_INPUT, FAILED_OUTPUT, INPUT_AT_MOST and OUTPUT_AT_MOST. If a
   number stands in INTERRUPTED_EACH, each call of a multiple of it is interrupted, and does nothing. */
#include <errno.h>
#include <stdlib.h>
#include <sys/syscall.h>
#include <sys/types.h>
#include <unistd.h>

static long reads, writes, inputs, outputs, calls;

static int is_interrupted(void) {
    const char *each = getenv("INTERRUPTED_EACH");
    if (!each || __sync_add_and_fetch(&calls, 1) % atol(each)) return 0;
    errno = EINTR;
    return 1;
}

static int fails(const char *name, long *calls) {
    if (is_interrupted()) return 1;
    const char *number = getenv(name), *tell = getenv("FAILED_TELL");
    if (!number || __sync_add_and_fetch(calls, 1) != atol(number)) return 0;
    if (tell && syscall(SYS_write, atoi(tell), "x", 1) != 1) abort();
    errno = EIO;
    return 1;
}

static size_t at_most(const char *name, size_t size) {
    const char *most = getenv(name);
    return most && size > (size_t)atol(most) ? (size_t)atol(most) : size;
}

ssize_t recv(int socket, void *to, size_t size, int flags) {
    if (fails("FAILED_READ", &reads)) return -1;
    return syscall(SYS_recvfrom, socket, to, at_most("READ_AT_MOST", size), flags, NULL, NULL);
}

ssize_t send(int socket, const void *from, size_t size, int flags) {
    if (fails("FAILED_WRITE", &writes)) return -1;
    return syscall(SYS_sendto, socket, from, at_most("WRITE_AT_MOST", size), flags, NULL, 0);
}

ssize_t read(int device, void *to, size_t size) {
    if (device != STDIN_FILENO) return syscall(SYS_read, device, to, size);
    if (fails("FAILED_INPUT", &inputs)) return -1;
    return syscall(SYS_read, device, to, at_most("INPUT_AT_MOST", size));
}

ssize_t write(int device, const void *from, size_t size) {
    if (device != STDOUT_FILENO) return syscall(SYS_write, device, from, size);
    if (fails("FAILED_OUTPUT", &outputs)) return -1;
    return syscall(SYS_write, device, from, at_most("OUTPUT_AT_MOST", size));
}
