/* many: clients that send requests at the same time, and a line of JSON as load prints it.
 *
 *   many PORT COUNT CLIENTS kept|new KIND [CLIENT RESOURCE AUTHORIZE REDIRECT TOKENS]
 *
 * KIND is get, introspect, refresh or code, as load has them; of a code both requests count. With
 * `kept` a client keeps its connection, if the server does; with `new` it has a new one for each
 * request, as from a resource server without a pool. CLIENT and RESOURCE are the credentials of
 * Basic, AUTHORIZE is the target that ann's browser gets, REDIRECT the URI as a form has it,
 * TOKENS a file of tokens. The first 20 of each client, or COUNT / CLIENTS if that is fewer, aren't
 * counted. The first reply that isn't as it should be ends the run with status 1. */
#define _GNU_SOURCE
#include <arpa/inet.h>
#include <netinet/in.h>
#include <netinet/tcp.h>
#include <pthread.h>
#include <stdatomic.h>
#include <stdio.h>
#include <stdlib.h>
#include <string.h>
#include <sys/socket.h>
#include <time.h>
#include <unistd.h>

#define ROOM 8192
#define WARM 20
#define CHAIN 30
#define TOKEN 256
#define MOST 1024

struct client {
    int number, socket, generation;
    unsigned dialled;
    unsigned long drawn;
    char request[ROOM], reply[ROOM], token[TOKEN];
};

static int port, clients, is_kept;
static const char *credentials, *resource, *authorize, *redirect;
static char **tokens;
static long token_count, wanted;
static double *times, start;
static atomic_long asked, timed, sent, next_token;
static pthread_barrier_t warm;

static double now(void) {
    struct timespec at;
    clock_gettime(CLOCK_MONOTONIC, &at);
    return at.tv_sec + at.tv_nsec * 1e-9;
}

static void give_up(const char *what, const char *reply) {
    fprintf(stderr, "many: %s: %.300s\n", what, reply);
    exit(1);
}

/* Connects from one of 200 addresses, so that no port waits for an old connection to be over. */
static int dial(struct client *it) {
    struct sockaddr_in from = {.sin_family = AF_INET}, to = from;
    struct timeval patience = {30, 0};
    int one = 1, peer = socket(AF_INET, SOCK_STREAM, 0);
    unsigned which = (it->number * 7 + it->dialled++ / 64) % 200;
    from.sin_addr.s_addr = htonl(0x7f000001 | (1 + which) << 8);
    to.sin_addr.s_addr = htonl(INADDR_LOOPBACK);
    to.sin_port = htons(port);
    setsockopt(peer, IPPROTO_IP, IP_BIND_ADDRESS_NO_PORT, &one, sizeof one);
    setsockopt(peer, IPPROTO_TCP, TCP_NODELAY, &one, sizeof one);
    setsockopt(peer, SOL_SOCKET, SO_RCVTIMEO, &patience, sizeof patience);
    if (bind(peer, (void *)&from, sizeof from)) give_up("bind", "");
    if (connect(peer, (void *)&to, sizeof to)) give_up("connect", "");
    return peer;
}

/* Whether the bytes read so far are a whole reply. */
static int is_whole(const char *reply, size_t got) {
    const char *end = strstr(reply, "\r\n\r\n"), *length = strcasestr(reply, "\r\ncontent-length:");
    return end && length && length < end && reply + got - (end + 4) >= atol(length + 17);
}

/* Reads a whole reply. */
static void read_reply(struct client *it) {
    size_t got = 0;
    ssize_t more = 1;
    it->reply[0] = 0;
    while (more > 0 && !is_whole(it->reply, got)) {
        more = recv(it->socket, it->reply + got, ROOM - 1 - got, 0);
        if (more > 0) got += more;
        it->reply[got] = 0;
    }
    if (!is_whole(it->reply, got)) give_up("no whole reply", it->reply);
}

/* Reads to the end of the stream, and closes. */
static void hang_up(struct client *it) {
    char rest[512];
    while (recv(it->socket, rest, sizeof rest, 0) > 0) {
    }
    close(it->socket);
    it->socket = -1;
}

/* Sends the request, reads the reply, and notes the time; returns the status. */
static int ask(struct client *it, int length) {
    double begin = now();
    sent++;
    if (it->socket < 0) it->socket = dial(it);
    if (send(it->socket, it->request, length, MSG_NOSIGNAL) != length) give_up("send", "");
    read_reply(it);
    long at = start ? timed++ : wanted;
    if (at < wanted) times[at] = now() - begin;
    if (!is_kept || strcasestr(it->reply, "\r\nconnection: close")) hang_up(it);
    return atoi(it->reply + 9);
}

static int post(struct client *it, const char *target, const char *basic, const char *body) {
    return ask(it, snprintf(it->request, ROOM,
                            "POST %s HTTP/1.1\r\nHost: 127.0.0.1\r\n%s"
                            "Authorization: Basic %s\r\n"
                            "Content-Type: application/x-www-form-urlencoded\r\n"
                            "Content-Length: %zu\r\n\r\n%s",
                            target, is_kept ? "" : "Connection: close\r\n", basic, strlen(body),
                            body));
}

static int get(struct client *it, const char *target) {
    return ask(it, snprintf(it->request, ROOM,
                            "GET %s HTTP/1.1\r\nHost: 127.0.0.1\r\n%sX-Subject: ann\r\n\r\n",
                            target, is_kept ? "" : "Connection: close\r\n"));
}

/* Copies what is behind a mark in the reply, up to the first of the ends. */
static void cut(struct client *it, char *out, const char *mark, const char *ends) {
    const char *at = strstr(it->reply, mark);
    if (!at) give_up(mark, it->reply);
    at += strlen(mark);
    snprintf(out, TOKEN, "%.*s", (int)strcspn(at, ends), at);
}

static void plain(struct client *it) {
    if (get(it, "/") != 200) give_up("get", it->reply);
}

static void introspect(struct client *it) {
    char body[TOKEN + 16];
    it->drawn ^= it->drawn << 13, it->drawn ^= it->drawn >> 7, it->drawn ^= it->drawn << 17;
    snprintf(body, sizeof body, "token=%s", tokens[it->drawn % token_count]);
    if (post(it, "/introspect", resource, body) != 200) give_up("introspect", it->reply);
    if (!strstr(it->reply, "\"active\":true")) give_up("introspect", it->reply);
}

static void refresh(struct client *it) {
    char body[TOKEN + 64];
    if (it->generation++ % CHAIN == 0) {
        long at = next_token++;
        if (at >= token_count) give_up("the tokens are used up", "");
        snprintf(it->token, TOKEN, "%s", tokens[at]);
    }
    snprintf(body, sizeof body, "grant_type=refresh_token&refresh_token=%s", it->token);
    if (post(it, "/token", credentials, body) != 200) give_up("refresh", it->reply);
    cut(it, it->token, "\"refresh_token\":\"", "\"");
}

static void code(struct client *it) {
    char given[TOKEN], body[TOKEN + 1024];
    if (get(it, authorize) != 302) give_up("authorize", it->reply);
    cut(it, given, "code=", "&\r");
    snprintf(body, sizeof body, "grant_type=authorization_code&code=%s&redirect_uri=%s", given,
             redirect);
    if (post(it, "/token", credentials, body) != 200) give_up("code", it->reply);
}

static void (*work)(struct client *);
static long cost = 1; /* how many requests one piece of work is */

static void *run(void *argument) {
    struct client *it = argument;
    for (long i = 0; i < WARM && i < wanted / cost / clients; i++) work(it);
    pthread_barrier_wait(&warm);
    if (!it->number) start = now();
    pthread_barrier_wait(&warm);
    while (atomic_fetch_add(&asked, cost) < wanted) work(it);
    return 0;
}

static void read_tokens(const char *name) {
    char line[TOKEN];
    FILE *file = fopen(name, "r");
    while (file && fgets(line, sizeof line, file)) {
        line[strcspn(line, "\n")] = 0;
        tokens = realloc(tokens, (token_count + 1) * sizeof *tokens);
        tokens[token_count++] = strdup(line);
    }
    if (!token_count) give_up("no tokens", name);
    fclose(file);
}

static int by_size(const void *one, const void *other) {
    double a = *(const double *)one, b = *(const double *)other;
    return (a > b) - (a < b);
}

static void choose_work(const char *kind) {
    work = kind[0] == 'g' ? plain : kind[0] == 'i' ? introspect : kind[0] == 'r' ? refresh : code;
    if (work == code) cost = 2;
}

int main(int count, char **words) {
    static pthread_t threads[MOST];
    if (count != 6 && count != 11) return 2;
    port = atoi(words[1]), wanted = atol(words[2]), is_kept = words[4][0] == 'k';
    clients = atoi(words[3]);
    if (clients < 1 || clients > MOST) return 2;
    choose_work(words[5]);
    if (count == 11) {
        credentials = words[6], resource = words[7], authorize = words[8], redirect = words[9];
        read_tokens(words[10]);
    }
    times = calloc(wanted, sizeof *times);
    pthread_barrier_init(&warm, 0, clients);
    for (int i = 0; i < clients; i++) {
        struct client *it = calloc(1, sizeof *it);
        it->number = i, it->socket = -1, it->drawn = 88172645463325252 + i * 7919;
        pthread_create(&threads[i], 0, run, it);
    }
    for (int i = 0; i < clients; i++) pthread_join(threads[i], 0);
    double all = now() - start;
    qsort(times, wanted, sizeof *times, by_size);
    printf("{\"requests\":%ld,\"sent\":%ld,\"seconds\":%.6f,", wanted, (long)sent, all);
    printf("\"median\":%.1f,\"slow\":%.1f}\n", times[wanted / 2] * 1e6,
           times[wanted * 99 / 100] * 1e6);
    return 0;
}
