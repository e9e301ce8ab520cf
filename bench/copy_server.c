/* Answers lines on 127.0.0.1 with texts that it was given: what a server costs that only reads, copies and writes.

       usage: copy_server CLIENTS < PAIRS

   Standard input has lines and replies in turn. It prints the port that it listens on, and serves so many CLIENTS, each
   in a thread of its own, until it is ended. The clients are those of serve_client: each sends the lines in turn, the
   Nth from the place N / CLIENTS on. So only the first line of a connection is compared, and whatever comes next is
   answered as the next line. Replies to lines that came together go out in one write. */
#define _GNU_SOURCE
#include <arpa/inet.h>
#include <errno.h>
#include <netinet/in.h>
#include <netinet/tcp.h>
#include <pthread.h>
#include <stdio.h>
#include <stdlib.h>
#include <string.h>
#include <sys/socket.h>
#include <sys/uio.h>
#include <unistd.h>

enum { MOST_CLIENTS = 64, PIECE = 1 << 18 };

struct pair {
    struct iovec line, reply;
};

struct pairs {
    struct pair *all;
    size_t count;
};

struct session {
    int socket;
    const struct pairs *pairs;
    size_t next; /* which line comes next */
    size_t held; /* how many bytes of replies aren't sent yet */
    char came[PIECE], replies[PIECE];
};

static void stop(const char *why) {
    fprintf(stderr, "copy_server: %s%s%s\n", why, errno ? ": " : "", errno ? strerror(errno) : "");
    exit(1);
}

static struct iovec read_line(void) {
    char *line = NULL;
    size_t room = 0;
    ssize_t got = getline(&line, &room, stdin);
    if (got > PIECE) stop("a text is too long");
    return (struct iovec){line, got > 0 ? (size_t)got : 0};
}

static struct pairs read_pairs(void) {
    struct pairs found = {0};
    struct iovec line;
    while ((line = read_line()).iov_len) {
        struct iovec reply = read_line();
        if (!reply.iov_len) stop("the last line lacks a reply");
        found.all = realloc(found.all, (found.count + 1) * sizeof *found.all);
        if (!found.all) stop("memory");
        found.all[found.count++] = (struct pair){line, reply};
    }
    if (!found.count) stop("there are no lines");
    return found;
}

static void send_all(struct session *it) {
    for (size_t sent = 0; sent < it->held;) {
        ssize_t wrote = send(it->socket, it->replies + sent, it->held - sent, MSG_NOSIGNAL);
        if (wrote < 0) stop("send");
        sent += (size_t)wrote;
    }
    it->held = 0;
}

static void copy_reply(struct session *it) {
    struct iovec reply = it->pairs->all[it->next].reply;
    if (it->held + reply.iov_len > PIECE) send_all(it);
    memcpy(it->replies + it->held, reply.iov_base, reply.iov_len);
    it->held += reply.iov_len;
    it->next = (it->next + 1) % it->pairs->count;
}

static void expect_first(const struct session *it, size_t got) {
    struct iovec line = it->pairs->all[it->next].line;
    size_t compared = got < line.iov_len ? got : line.iov_len;
    errno = 0;
    if (memcmp(it->came, line.iov_base, compared)) stop("a client begins with another line");
}

static void *serve(void *session) {
    struct session *it = session;
    ssize_t got = recv(it->socket, it->came, PIECE, 0);
    if (got > 0) expect_first(it, (size_t)got);
    for (; got > 0; got = recv(it->socket, it->came, PIECE, 0)) {
        const char *at = it->came, *end = it->came + got;
        while ((at = memchr(at, '\n', (size_t)(end - at)))) at++, copy_reply(it);
        send_all(it);
    }
    close(it->socket);
    return NULL;
}

/* Listens at a free port, which it prints. */
static int listening(void) {
    struct sockaddr_in here = {.sin_family = AF_INET, .sin_addr = {.s_addr = htonl(INADDR_LOOPBACK)}};
    socklen_t size = sizeof here;
    int made = socket(AF_INET, SOCK_STREAM, 0);
    if (made < 0 || bind(made, (struct sockaddr *)&here, size) || listen(made, MOST_CLIENTS)) stop("listen");
    if (getsockname(made, (struct sockaddr *)&here, &size)) stop("getsockname");
    printf("%d\n", ntohs(here.sin_port));
    fflush(stdout);
    return made;
}

int main(int count, char **words) {
    static struct session sessions[MOST_CLIENTS];
    if (count != 2) return fputs("usage: copy_server CLIENTS < PAIRS\n", stderr), 2;
    size_t clients = strtoul(words[1], NULL, 10);
    if (!clients || clients > MOST_CLIENTS) stop("too few or too many");
    struct pairs pairs = read_pairs();
    int listener = listening(), one = 1;
    for (size_t at = 0; at < clients; at++) {
        struct session *it = &sessions[at];
        pthread_t thread;
        it->socket = accept(listener, NULL, NULL);
        if (it->socket < 0) stop("accept");
        setsockopt(it->socket, IPPROTO_TCP, TCP_NODELAY, &one, sizeof one);
        it->pairs = &pairs;
        it->next = at * pairs.count / clients;
        if (pthread_create(&thread, NULL, serve, it)) stop("a thread");
    }
    pause();
    return 0;
}
