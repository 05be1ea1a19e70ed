// One client of a service on the loopback: it sends each request after the response to the previous one, and prints the
// nanoseconds of all.
//
//   client PORT FILE
//
// FILE has for each request a line with its length, and its bytes. The client stays connected, and reconnects after a response
// with `Connection: close`. A response other than success ends the run.
#include <arpa/inet.h>
#include <netinet/tcp.h>
#include <stdio.h>
#include <stdlib.h>
#include <string.h>
#include <sys/socket.h>
#include <time.h>
#include <unistd.h>

enum { MOST_ANSWER = 1 << 24 };

static int connection = -1;
static char answer[MOST_ANSWER + 1];

static void stop(const char *what) {
    fprintf(stderr, "client: %s\n", what);
    exit(1);
}

static void make_connection(int port) {
    struct sockaddr_in address = {.sin_family = AF_INET, .sin_port = htons(port), .sin_addr.s_addr = htonl(INADDR_LOOPBACK)};
    int one = 1;
    connection = socket(AF_INET, SOCK_STREAM, 0);
    if (connection < 0 || connect(connection, (struct sockaddr *)&address, sizeof address))
        stop("no connection");
    setsockopt(connection, IPPROTO_TCP, TCP_NODELAY, &one, sizeof one);
}

static void send_all(const char *bytes, size_t length) {
    while (length > 0) {
        ssize_t sent = send(connection, bytes, length, MSG_NOSIGNAL);
        if (sent <= 0)
            stop("a request was not sent");
        bytes += sent;
        length -= sent;
    }
}

// Reads a response; returns whether the connection closes after it.
static int read_answer(void) {
    size_t have = 0, whole = 0;
    while (whole == 0 || have < whole) {
        ssize_t got = recv(connection, answer + have, MOST_ANSWER - have, 0);
        if (got <= 0)
            stop("an answer ended");
        have += got;
        answer[have] = 0;
        char *end = whole ? NULL : strstr(answer, "\r\n\r\n");
        if (end) {
            char *length = strstr(answer, "\r\nContent-Length: ");
            if (!length || length > end)
                stop("an answer has no length");
            whole = end + 4 - answer + strtoul(length + 18, NULL, 10);
        }
    }
    if (have != whole || memcmp(answer, "HTTP/1.1 20", 11))
        stop(answer);
    char *close = strstr(answer, "\r\nConnection: close\r\n");
    return close != NULL && close < strstr(answer, "\r\n\r\n");
}

static char *read_file(const char *name, size_t *length) {
    FILE *file = fopen(name, "r");
    if (!file || fseek(file, 0, SEEK_END))
        stop(name);
    *length = ftell(file);
    rewind(file);
    char *bytes = malloc(*length + 1);
    if (!bytes || fread(bytes, 1, *length, file) != *length)
        stop(name);
    bytes[*length] = 0;
    fclose(file);
    return bytes;
}

int main(int count, char **words) {
    if (count != 3)
        stop("PORT FILE");
    size_t length;
    int port = atoi(words[1]);
    char *at = read_file(words[2], &length), *end = at + length;
    struct timespec began, ended;
    make_connection(port);
    clock_gettime(CLOCK_MONOTONIC, &began);
    while (at < end) {
        if (connection < 0)
            make_connection(port);
        size_t one = strtoul(at, &at, 10);
        at++;
        send_all(at, one);
        at += one;
        if (read_answer()) {
            close(connection);
            connection = -1;
        }
    }
    clock_gettime(CLOCK_MONOTONIC, &ended);
    printf("%lld\n", (ended.tv_sec - began.tv_sec) * 1000000000LL + ended.tv_nsec - began.tv_nsec);
}
