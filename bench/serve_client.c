/* Asks a server on 127.0.0.1 again and again, and prints how fast it answers.

       usage: serve_client PORT CLIENTS AHEAD SECONDS LINES FEEDS < REQUESTS

   A request is so many LINES of standard input, and a reply has so many line FEEDS. Each of the CLIENTS is a connection
   that sends the requests in turn, from a place of its own on and then round again, and keeps so many AHEAD of their
   replies. One thread serves them all. Once a tenth of the SECONDS is over it counts for so many seconds, and prints
   four numbers: requests answered a second, nanoseconds from when a request may be sent to the end of its reply, in
   the middle and at the 99th of 100, and requests answered from the beginning on. A reply that begins a line as an
   error does, here or in Redis, ends it. */
#define _GNU_SOURCE
#include <arpa/inet.h>
#include <errno.h>
#include <netinet/in.h>
#include <netinet/tcp.h>
#include <poll.h>
#include <stdbool.h>
#include <stdint.h>
#include <stdio.h>
#include <stdlib.h>
#include <string.h>
#include <sys/socket.h>
#include <sys/uio.h>
#include <time.h>

enum { MOST_CLIENTS = 64, MOST_AHEAD = 64, PIECE = 1 << 18 };

struct requests {
    struct iovec *texts;
    size_t count;
};

struct client {
    int socket;
    size_t next;      /* which request is sent next */
    size_t sent;      /* how many bytes of it are sent */
    size_t due;       /* how many requests may be sent, that one among them */
    size_t allowed;   /* how many were due from the beginning on */
    size_t answered;  /* how many were answered */
    size_t feeds;     /* how many line feeds the reply under way lacks */
    bool is_in_line;  /* whether what comes next stands in the middle of a line */
    uint64_t since[MOST_AHEAD]; /* when the requests that wait were due, by their numbers */
};

struct latencies {
    uint32_t *all;
    size_t count, room;
    uint64_t from, until; /* when those begin and end that count; where none ends by then, the next one that does */
};

static void stop(const char *why) {
    fprintf(stderr, "serve_client: %s%s%s\n", why, errno ? ": " : "", errno ? strerror(errno) : "");
    exit(1);
}

static uint64_t nanoseconds(void) {
    struct timespec now;
    clock_gettime(CLOCK_MONOTONIC, &now);
    return (uint64_t)now.tv_sec * 1000000000 + (uint64_t)now.tv_nsec;
}

static void *grown(void *what, size_t count, size_t *room, size_t size) {
    if (count < *room) return what;
    *room = *room ? 2 * *room : 1024;
    what = realloc(what, *room * size);
    if (!what) stop("memory");
    return what;
}

static struct requests read_requests(size_t lines) {
    struct requests found = {0};
    size_t room = 0, length, held = 0;
    char *text;
    FILE *one = open_memstream(&text, &length);
    char *line = NULL;
    size_t line_room = 0;
    ssize_t got;
    while ((got = getline(&line, &line_room, stdin)) > 0) {
        fwrite(line, 1, (size_t)got, one);
        if (++held < lines) continue;
        fclose(one);
        found.texts = grown(found.texts, found.count, &room, sizeof *found.texts);
        found.texts[found.count++] = (struct iovec){text, length};
        one = open_memstream(&text, &length);
        held = 0;
    }
    if (held || !found.count) stop("the last request lacks lines");
    return found;
}

static int connected(int port) {
    struct in_addr here = {.s_addr = htonl(INADDR_LOOPBACK)};
    struct sockaddr_in to = {.sin_family = AF_INET, .sin_port = htons((uint16_t)port), .sin_addr = here};
    int made = socket(AF_INET, SOCK_STREAM, 0), one = 1;
    if (made < 0 || connect(made, (struct sockaddr *)&to, sizeof to) < 0) stop("connect");
    setsockopt(made, IPPROTO_TCP, TCP_NODELAY, &one, sizeof one);
    return made;
}

/* Sends what is due, as far as the socket takes it. */
static void send_due(struct client *it, const struct requests *all) {
    while (it->due) {
        struct iovec parts[MOST_AHEAD];
        for (size_t at = 0; at < it->due; at++) parts[at] = all->texts[(it->next + at) % all->count];
        parts[0].iov_base = (char *)parts[0].iov_base + it->sent;
        parts[0].iov_len -= it->sent;
        struct msghdr message = {.msg_iov = parts, .msg_iovlen = it->due};
        ssize_t wrote = sendmsg(it->socket, &message, MSG_DONTWAIT | MSG_NOSIGNAL);
        if (wrote < 0 && errno == EAGAIN) return;
        if (wrote < 0) stop("send");
        it->sent += (size_t)wrote;
        while (it->due && it->sent >= all->texts[it->next].iov_len) {
            it->sent -= all->texts[it->next].iov_len;
            it->next = (it->next + 1) % all->count;
            it->due--;
        }
    }
}

static void allow(struct client *it, size_t more, uint64_t now) {
    it->due += more;
    for (; more; more--) it->since[it->allowed++ % MOST_AHEAD] = now;
}

static void look_for_error(const char *line, size_t length) {
    static const char error[] = "{\"error\"";
    size_t shown = length < 200 ? length : 200;
    if (*line != '-' && (length < sizeof error - 1 || memcmp(line, error, sizeof error - 1))) return;
    fprintf(stderr, "%.*s\n", (int)shown, line);
    errno = 0;
    stop("the reply is an error");
}

static void note(struct latencies *taken, uint64_t since, uint64_t now) {
    if (now < taken->from || (now >= taken->until && taken->count)) return;
    if (now > taken->until) taken->until = now;
    uint64_t spent = now - since;
    taken->all = grown(taken->all, taken->count, &taken->room, sizeof *taken->all);
    taken->all[taken->count++] = spent < UINT32_MAX ? (uint32_t)spent : UINT32_MAX;
}

/* Reads what has come, notes how long each reply took, and gives how many there were. */
static size_t receive(struct client *it, size_t feeds, struct latencies *taken) {
    static char piece[PIECE];
    ssize_t got = recv(it->socket, piece, sizeof piece, MSG_DONTWAIT);
    if (got < 0 && errno == EAGAIN) return 0;
    if (got <= 0) stop("the server has closed");
    uint64_t now = nanoseconds();
    const char *at = piece, *end = piece + got;
    size_t replies = 0;
    while (at < end) {
        if (!it->is_in_line) look_for_error(at, (size_t)(end - at));
        const char *feed = memchr(at, '\n', (size_t)(end - at));
        it->is_in_line = !feed;
        if (!feed) break;
        at = feed + 1;
        if (--it->feeds) continue;
        it->feeds = feeds;
        note(taken, it->since[it->answered++ % MOST_AHEAD], now);
        replies++;
    }
    return replies;
}

static int by_size(const void *one, const void *other) {
    uint32_t a = *(const uint32_t *)one, b = *(const uint32_t *)other;
    return (a > b) - (a < b);
}

/* Asks until the time is over, and waits for what is still to come. Gives how many requests were answered. */
static size_t ask(
    struct client *clients, size_t count, const struct requests *all, size_t feeds, struct latencies *taken
) {
    struct pollfd watched[MOST_CLIENTS];
    size_t allowed = 0, answered = 0;
    for (size_t at = 0; at < count; at++) allowed += clients[at].allowed;
    while (answered < allowed) {
        for (size_t at = 0; at < count; at++) {
            short events = clients[at].due ? POLLIN | POLLOUT : POLLIN;
            watched[at] = (struct pollfd){.fd = clients[at].socket, .events = events};
        }
        if (poll(watched, count, 10000) <= 0) stop("no answer within ten seconds");
        for (size_t at = 0; at < count; at++) {
            if (!watched[at].revents) continue;
            size_t replies = receive(&clients[at], feeds, taken);
            uint64_t now = nanoseconds();
            answered += replies;
            if (now < taken->until) allow(&clients[at], replies, now), allowed += replies;
            send_due(&clients[at], all);
        }
    }
    return answered;
}

int main(int count, char **words) {
    if (count != 7) return fputs("usage: serve_client PORT CLIENTS AHEAD SECONDS LINES FEEDS < REQUESTS\n", stderr), 2;
    size_t many = strtoul(words[2], NULL, 10), ahead = strtoul(words[3], NULL, 10), feeds = strtoul(words[6], NULL, 10);
    uint64_t counted = (uint64_t)(strtod(words[4], NULL) * 1e9);
    if (!many || many > MOST_CLIENTS || !ahead || ahead > MOST_AHEAD || !feeds) stop("too few or too many");
    struct requests all = read_requests(strtoul(words[5], NULL, 10));
    static struct client clients[MOST_CLIENTS];
    for (size_t at = 0; at < many; at++) {
        size_t next = at * all.count / many;
        clients[at] = (struct client){.socket = connected(atoi(words[1])), .next = next, .feeds = feeds};
        allow(&clients[at], ahead, nanoseconds());
        send_due(&clients[at], &all);
    }
    uint64_t from = nanoseconds() + counted / 10;
    struct latencies taken = {.from = from, .until = from + counted};
    size_t answered = ask(clients, many, &all, feeds, &taken);
    if (!taken.count) stop("too little time: all replies came before the counting began");
    qsort(taken.all, taken.count, sizeof *taken.all, by_size);
    printf("%.3f %u %u %zu\n", (double)taken.count * 1e9 / (double)(taken.until - from), taken.all[taken.count / 2],
           taken.all[taken.count * 99 / 100], answered);
    return 0;
}
