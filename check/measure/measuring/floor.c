/* floor: a server that does the least that a server of one connection at a time can do.
 *
 *   floor none | append FILE | sync FILE
 *
 * It listens on a free port of 127.0.0.1, and prints "listening 127.0.0.1:PORT". It accepts a
 * connection, reads a request's head and body, writes a fixed reply of an introspection's size,
 * shuts its side, drops what comes until the client closes, and closes. With append it first
 * writes the request's body to FILE, or a record of 300 bytes if there is no body. With sync it
 * syncs FILE after that. */
#define _GNU_SOURCE
#include <arpa/inet.h>
#include <fcntl.h>
#include <netinet/in.h>
#include <signal.h>
#include <stdio.h>
#include <stdlib.h>
#include <string.h>
#include <sys/socket.h>
#include <unistd.h>

#define RECORD 300

static char got[65536];

/* Listens, prints the port, and returns the socket; -1 if the system refuses it. */
static int listen_anywhere(void) {
    struct sockaddr_in at = {.sin_family = AF_INET, .sin_addr.s_addr = htonl(INADDR_LOOPBACK)};
    socklen_t size = sizeof at;
    int listening = socket(AF_INET, SOCK_STREAM, 0);
    if (bind(listening, (void *)&at, sizeof at) || listen(listening, 128)) return -1;
    if (getsockname(listening, (void *)&at, &size)) return -1;
    printf("listening 127.0.0.1:%d\n", ntohs(at.sin_port));
    fflush(stdout);
    return listening;
}

/* Where the body of a request begins; null while the bytes read so far are no whole request. */
static const char *body_of(const char *end) {
    char *head = strstr(got, "\r\n\r\n");
    if (!head) return 0;
    char *length = strcasestr(got, "\r\ncontent-length:");
    long body = length && length < head ? atol(length + 17) : 0;
    return end - (head + 4) >= body ? head + 4 : 0;
}

/* Reads a request, and returns where its body begins; null if it didn't come whole. */
static const char *read_request(int client, const char **end) {
    size_t length = 0;
    const char *body;
    do {
        ssize_t more = read(client, got + length, sizeof got - 1 - length);
        if (more <= 0) return 0;
        length += more;
        got[length] = 0;
        *end = got + length;
        body = body_of(*end);
    } while (!body);
    return body;
}

/* Writes a body, or a record in its place, to the log, synced if asked for. */
static void write_record(int log, const char *body, ssize_t length, int is_synced) {
    static const char record[RECORD];
    if (!length) body = record, length = RECORD;
    if (write(log, body, length) != length || (is_synced && fdatasync(log))) exit(1);
}

static int make_reply(char *reply, size_t size) {
    const char *body = "{\"active\":true,\"client_id\":\"c1-1\",\"exp\":1795330425,"
                       "\"iat\":1795326825,\"scope\":\"read write\",\"sub\":\"ann\","
                       "\"token_type\":\"Bearer\"}";
    return snprintf(reply, size,
                    "HTTP/1.1 200 OK\r\nContent-Type: application/json\r\nContent-Length: %zu\r\n"
                    "Cache-Control: no-store\r\nPragma: no-cache\r\nConnection: close\r\n\r\n%s",
                    strlen(body), body);
}

int main(int count, char **words) {
    char reply[1024];
    int length = make_reply(reply, sizeof reply), log = -1;
    if (count < 2) return 2;
    if (count > 2) log = open(words[2], O_WRONLY | O_CREAT | O_APPEND, 0600);
    signal(SIGPIPE, SIG_IGN);
    int listening = listen_anywhere();
    if (listening < 0) return 1;
    for (;;) {
        int client = accept(listening, 0, 0);
        if (client < 0) continue;
        const char *end, *body = read_request(client, &end);
        if (body) {
            if (log >= 0) write_record(log, body, end - body, words[1][0] == 's');
            if (write(client, reply, length) != length) fprintf(stderr, "floor: write\n");
        }
        shutdown(client, SHUT_WR);
        while (read(client, got, sizeof got) > 0) {
        }
        close(client);
    }
}
