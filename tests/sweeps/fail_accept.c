/* Preloaded before a server, lets some of its calls for a connection fail: as many as FAILED_ACCEPTS says, from that
   of the number in FIRST_FAILED on, or else from the first on, with the error whose number stands in ACCEPT_ERROR. If
   a port stands in FAILED_PORT, calls at other ports go on, and aren't counted. */
#define _GNU_SOURCE
#include <arpa/inet.h>
#include <errno.h>
#include <netinet/in.h>
#include <stdlib.h>
#include <sys/socket.h>
#include <sys/syscall.h>
#include <unistd.h>

static long accepts;

static long number_in(const char *name, long other) {
    const char *text = getenv(name);
    return text ? atol(text) : other;
}

/* Is it a call at a port of which some are to fail? (The port stands at the same place for IPv4 and IPv6.) */
static int is_counted(int listener) {
    struct sockaddr_in6 at = {0};
    socklen_t size = sizeof at;
    long port = number_in("FAILED_PORT", 0);
    return !port || (!getsockname(listener, (struct sockaddr *)&at, &size) && ntohs(at.sin6_port) == port);
}

int accept4(int listener, struct sockaddr *address, socklen_t *size, int flags) {
    long first = number_in("FIRST_FAILED", 1), count = number_in("FAILED_ACCEPTS", 0);
    if (count && is_counted(listener)) {
        long number = __sync_add_and_fetch(&accepts, 1);
        if (first <= number && number - first < count) {
            errno = (int)number_in("ACCEPT_ERROR", EIO);
            return -1;
        }
    }
    return syscall(SYS_accept4, listener, address, size, flags);
}

int accept(int listener, struct sockaddr *address, socklen_t *size) { return accept4(listener, address, size, 0); }
