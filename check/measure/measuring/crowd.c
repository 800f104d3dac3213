/* crowd: a server that does the least that a server of many connections can do, a turn at a time.
 *
 *   crowd kept|new none | crowd kept|new sync FILE
 *
 * It listens on a free port of 127.0.0.1, and prints "listening 127.0.0.1:PORT". A turn reads what
 * has come. To each request that is whole it replies as an introspection is replied to; with sync
 * a record of 300 bytes for each is written to FILE first, all of a turn at once, and FILE is
 * synced once. With `new` a connection ends with its reply. */
#define _GNU_SOURCE
#include <arpa/inet.h>
#include <fcntl.h>
#include <netinet/in.h>
#include <signal.h>
#include <stdio.h>
#include <stdlib.h>
#include <string.h>
#include <sys/epoll.h>
#include <sys/socket.h>
#include <unistd.h>

#define RECORD 300
#define ROOM 8192
#define MOST 1024 /* connections, events of a turn, and records */

struct connection {
    int socket, is_watched, is_shut;
    size_t got, asked; /* the bytes that have come, and the requests that wait for a reply */
    char in[ROOM + 1];
};

static struct connection *ready[MOST];
static int ready_count, poll, log_file = -1, is_kept;
static char reply[1024], records[MOST * RECORD];
static size_t reply_length, record_count;

/* Listens, prints the port, and returns the socket; -1 if the system refuses it. */
static int listen_anywhere(void) {
    struct sockaddr_in at = {.sin_family = AF_INET, .sin_addr.s_addr = htonl(INADDR_LOOPBACK)};
    socklen_t size = sizeof at;
    int listening = socket(AF_INET, SOCK_STREAM | SOCK_NONBLOCK, 0);
    if (bind(listening, (void *)&at, sizeof at) || listen(listening, MOST)) return -1;
    if (getsockname(listening, (void *)&at, &size)) return -1;
    printf("listening 127.0.0.1:%d\n", ntohs(at.sin_port));
    fflush(stdout);
    return listening;
}

static void make_reply(void) {
    const char *body = "{\"active\":true,\"client_id\":\"c1-1\",\"exp\":1795330425,"
                       "\"iat\":1795326825,\"scope\":\"read write\",\"sub\":\"ann\","
                       "\"token_type\":\"Bearer\"}";
    reply_length = snprintf(
        reply, sizeof reply,
        "HTTP/1.1 200 OK\r\nContent-Type: application/json\r\nContent-Length: %zu\r\n"
        "Cache-Control: no-store\r\nPragma: no-cache\r\n%s\r\n%s",
        strlen(body), is_kept ? "" : "Connection: close\r\n", body);
}

static void watch(struct connection *it, int socket) {
    struct epoll_event event = {.events = EPOLLIN | EPOLLRDHUP | EPOLLET, .data.ptr = it};
    epoll_ctl(poll, EPOLL_CTL_ADD, socket, &event);
}

static void accept_all(int listening) {
    int socket;
    while (ready_count < MOST && (socket = accept4(listening, 0, 0, SOCK_NONBLOCK)) >= 0) {
        struct connection *it = calloc(1, sizeof *it);
        it->socket = socket;
        ready[ready_count++] = it;
    }
}

/* How long the request at the front is; 0 if it isn't whole. */
static size_t front(const struct connection *it) {
    const char *head = strstr(it->in, "\r\n\r\n");
    if (!head) return 0;
    const char *length = strcasestr(it->in, "\r\ncontent-length:");
    size_t whole = head + 4 - it->in + (length && length < head ? atol(length + 17) : 0);
    return whole <= it->got ? whole : 0;
}

/* Reads what has come, and returns whether the connection goes on. */
static int read_requests(struct connection *it) {
    ssize_t more;
    while ((more = read(it->socket, it->in + it->got, ROOM - it->got)) > 0) {
        size_t whole;
        it->got = it->is_shut ? 0 : it->got + more;
        it->in[it->got] = 0;
        while ((whole = front(it))) {
            it->asked++, it->got -= whole;
            memmove(it->in, it->in + whole, it->got + 1);
            if (log_file >= 0 && ++record_count > MOST) exit(1);
        }
        if ((size_t)more < ROOM / 2 && it->asked) return 1;
    }
    return more < 0;
}

static void write_records(void) {
    size_t length = record_count * RECORD;
    if (!record_count) return;
    if (write(log_file, records, length) != (ssize_t)length || fdatasync(log_file)) exit(1);
    record_count = 0;
}

static void send_replies(struct connection *it) {
    int has_asked = it->asked > 0;
    for (; it->asked; it->asked--) {
        if (write(it->socket, reply, reply_length) < 0) break;
    }
    if (has_asked && !is_kept) it->is_shut = 1, shutdown(it->socket, SHUT_WR);
}

/* A turn: `count` events have come. */
static void turn(int listening, struct epoll_event *events, int count) {
    ready_count = 0;
    for (int i = 0; i < count; i++) {
        if (events[i].data.ptr) ready[ready_count++] = events[i].data.ptr;
    }
    accept_all(listening);
    for (int i = 0; i < ready_count; i++) {
        struct connection *it = ready[i];
        if (read_requests(it)) {
            if (!it->is_watched) it->is_watched = 1, watch(it, it->socket);
        } else {
            close(it->socket), free(it), ready[i] = 0;
        }
    }
    write_records();
    for (int i = 0; i < ready_count; i++) {
        if (ready[i]) send_replies(ready[i]);
    }
}

int main(int count, char **words) {
    static struct epoll_event events[MOST];
    if (count < 3) return 2;
    is_kept = words[1][0] == 'k';
    if (count > 3) log_file = open(words[3], O_WRONLY | O_CREAT | O_APPEND, 0600);
    make_reply();
    signal(SIGPIPE, SIG_IGN);
    int listening = listen_anywhere();
    if (listening < 0) return 1;
    poll = epoll_create1(0);
    watch(0, listening);
    for (;;) turn(listening, events, epoll_wait(poll, events, MOST, -1));
}
