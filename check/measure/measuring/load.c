/* load: sends requests to a server on 127.0.0.1, a new connection for each, one after the other,
 * and prints a line of JSON: how many were counted and how many sent, the seconds of those that
 * were counted, and of one the median and the 99th of a hundred in microseconds.
 *
 *   load PORT COUNT push REQUESTS
 *   load PORT COUNT KIND [CLIENT RESOURCE AUTHORIZE REDIRECT TOKENS INTROSPECT TOKEN SUBJECT]
 *
 * KIND is one of these:
 *   get         GET /, as the C server beside it replies to
 *   introspect  a token of the file TOKENS, each line as likely as any other
 *   refresh     each with the refresh token of the last reply; after 30, and at first, with the
 *               next line of TOKENS
 *   code        GET AUTHORIZE as ann, then the code is redeemed: two requests
 *
 * With push each request is the next one of the file REQUESTS, as it is sent. Its length stands
 * before it in 4 bytes, the highest byte first.
 *
 * CLIENT and RESOURCE are the credentials of Basic, REDIRECT the URI as a form has it. INTROSPECT
 * and TOKEN are the targets of requests, SUBJECT is the header line that ann's browser sends. The
 * first 20 aren't counted, or as many as half of COUNT if that is fewer. The first reply that isn't
 * as it should be ends the run with status 1. */
#define _GNU_SOURCE
#include <arpa/inet.h>
#include <netinet/in.h>
#include <netinet/tcp.h>
#include <stdio.h>
#include <stdlib.h>
#include <string.h>
#include <sys/socket.h>
#include <time.h>
#include <unistd.h>

#define ROOM 65536
#define WARM 20
#define CHAIN 30
#define TOKEN 4096

static int port;
static const char *client, *resource, *authorize, *redirect;
static const char *introspect_at, *token_at, *subject;
static char **tokens;
static FILE *requests_file;
static long token_count, next_token;
static char request[ROOM], reply[ROOM];
static double *times;
static long timed, wanted, sent;

static double now(void) {
    struct timespec at;
    clock_gettime(CLOCK_MONOTONIC, &at);
    return at.tv_sec + at.tv_nsec * 1e-9;
}

static void give_up(const char *what) {
    fprintf(stderr, "load: %s: %.300s\n", what, reply);
    exit(1);
}

/* Connects from one of 200 addresses, so that no port waits for an old connection to be over. */
static int dial(void) {
    static unsigned dialled;
    struct sockaddr_in from = {.sin_family = AF_INET}, to = from;
    struct timeval patience = {30, 0};
    int one = 1, peer = socket(AF_INET, SOCK_STREAM, 0);
    from.sin_addr.s_addr = htonl(0x7f000001 | (1 + dialled++ / 64 % 200) << 8);
    to.sin_addr.s_addr = htonl(INADDR_LOOPBACK);
    to.sin_port = htons(port);
    setsockopt(peer, IPPROTO_IP, IP_BIND_ADDRESS_NO_PORT, &one, sizeof one);
    setsockopt(peer, IPPROTO_TCP, TCP_NODELAY, &one, sizeof one);
    setsockopt(peer, SOL_SOCKET, SO_RCVTIMEO, &patience, sizeof patience);
    if (bind(peer, (void *)&from, sizeof from)) give_up("bind");
    if (connect(peer, (void *)&to, sizeof to)) give_up("connect");
    return peer;
}

/* Sends the request, reads to the end of the reply, and notes the time; returns the status. */
static int ask(int length) {
    double start = now();
    size_t got = 0;
    ssize_t more;
    int peer = dial();
    sent++;
    if (send(peer, request, length, MSG_NOSIGNAL) != length) give_up("send");
    while ((more = recv(peer, reply + got, ROOM - 1 - got, 0)) > 0) got += more;
    reply[got] = 0;
    if (more < 0) give_up("receive");
    if (timed < wanted) times[timed++] = now() - start;
    close(peer);
    return got > 12 ? atoi(reply + 9) : 0;
}

static int post(const char *target, const char *credentials, const char *body) {
    return ask(snprintf(request, ROOM,
                        "POST %s HTTP/1.1\r\nHost: 127.0.0.1\r\nConnection: close\r\n"
                        "Authorization: Basic %s\r\n"
                        "Content-Type: application/x-www-form-urlencoded\r\n"
                        "Content-Length: %zu\r\n\r\n%s",
                        target, credentials, strlen(body), body));
}

static int get(const char *target, const char *header) {
    return ask(snprintf(request, ROOM,
                        "GET %s HTTP/1.1\r\nHost: 127.0.0.1\r\nConnection: close\r\n%s%s\r\n",
                        target, header, header[0] ? "\r\n" : ""));
}

/* What is behind a mark in the reply; spaces between are passed over. */
static const char *behind(const char *mark) {
    char *at = strstr(reply, mark);
    if (!at) give_up(mark);
    at += strlen(mark);
    return at + strspn(at, " ");
}

/* Copies a text up to the first of the ends. */
static void cut(char *out, size_t size, const char *at, const char *ends) {
    snprintf(out, size, "%.*s", (int)strcspn(at, ends), at);
}

static void plain(void) {
    if (get("/", "") != 200) give_up("get");
}

static void introspect(void) {
    static unsigned long drawn = 88172645463325252;
    char body[TOKEN + 16];
    drawn ^= drawn << 13, drawn ^= drawn >> 7, drawn ^= drawn << 17;
    snprintf(body, sizeof body, "token=%s", tokens[drawn % token_count]);
    if (post(introspect_at, resource, body) != 200) give_up("introspect");
    if (strncmp(behind("\"active\":"), "true", 4)) give_up("introspect");
}

static void refresh(void) {
    static char token[TOKEN];
    static int generation = CHAIN;
    char body[TOKEN + 64];
    if (generation++ == CHAIN) {
        if (next_token == token_count) give_up("the tokens are used up");
        snprintf(token, sizeof token, "%s", tokens[next_token++]);
        generation = 1;
    }
    snprintf(body, sizeof body, "grant_type=refresh_token&refresh_token=%s", token);
    if (post(token_at, client, body) != 200) give_up("refresh");
    cut(token, sizeof token, behind("\"refresh_token\":") + 1, "\"");
}

static void code(void) {
    char given[TOKEN], body[TOKEN + 1024];
    if (get(authorize, subject) != 302) give_up("authorize");
    cut(given, sizeof given, behind("code="), "&\r");
    snprintf(body, sizeof body, "grant_type=authorization_code&code=%s&redirect_uri=%s", given,
             redirect);
    if (post(token_at, client, body) != 200) give_up("code");
}

static void push(void) {
    unsigned char size[4];
    if (fread(size, 1, sizeof size, requests_file) != sizeof size) give_up("no request is left");
    size_t length = (size_t)size[0] << 24 | size[1] << 16 | size[2] << 8 | size[3];
    if (length > ROOM || fread(request, 1, length, requests_file) != length) give_up("a request");
    if (ask(length) != 200) give_up("push");
}

static void read_tokens(const char *name) {
    char line[TOKEN];
    long room = 0;
    FILE *file = fopen(name, "r");
    while (file && fgets(line, sizeof line, file)) {
        line[strcspn(line, "\n")] = 0;
        if (token_count == room) {
            room = room ? 2 * room : 64;
            tokens = realloc(tokens, room * sizeof *tokens);
        }
        tokens[token_count++] = strdup(line);
    }
    if (!token_count) give_up(name);
    fclose(file);
}

static int by_size(const void *one, const void *other) {
    double a = *(const double *)one, b = *(const double *)other;
    return (a > b) - (a < b);
}

static void (*work_of(const char *kind))(void) {
    switch (kind[0]) {
    case 'g': return plain;
    case 'i': return introspect;
    case 'r': return refresh;
    case 'c': return code;
    case 'p': return push;
    }
    exit(2);
}

int main(int count, char **words) {
    if (count != 4 && count != 5 && count != 12) return 2;
    port = atoi(words[1]);
    long requests = atol(words[2]);
    void (*work)(void) = work_of(words[3]);
    if (count == 5) requests_file = fopen(words[4], "rb");
    if (count == 5 && !requests_file) give_up(words[4]);
    if (count == 12) {
        client = words[4], resource = words[5], authorize = words[6], redirect = words[7];
        introspect_at = words[9], token_at = words[10], subject = words[11];
        read_tokens(words[8]);
    }
    times = calloc(requests, sizeof *times);
    for (long i = 0; i < WARM && i < requests / 2; i++) work();
    wanted = requests;
    double start = now();
    while (timed < wanted) work();
    double all = now() - start;
    qsort(times, timed, sizeof *times, by_size);
    printf("{\"requests\":%ld,\"sent\":%ld,\"seconds\":%.6f,", timed, sent, all);
    printf("\"median\":%.1f,\"slow\":%.1f}\n", times[timed / 2] * 1e6,
           times[timed * 99 / 100] * 1e6);
    return 0;
}
