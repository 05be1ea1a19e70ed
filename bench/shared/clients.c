// Many clients of a service on the loopback: each sends its next request after the response to the previous one.
// The program prints the number of responses, the nanoseconds of all, and the median, 99th percentile and maximum of the times of
// responses, in microseconds.
//
//   clients PORT CLIENTS SECONDS FILE
//
// FILE has for each request a line with its length, and its bytes. The next free client takes the next one. Clients stay connected,
// and reconnect after a response with `Connection: close`. A response other than success ends the run, and so does the last request.
#include <arpa/inet.h>
#include <netinet/tcp.h>
#include <poll.h>
#include <stdio.h>
#include <stdlib.h>
#include <string.h>
#include <sys/socket.h>
#include <time.h>
#include <unistd.h>

enum { MOST_CLIENTS = 1024, MOST_ANSWER = 1 << 20, MOST_TIMES = 1 << 24 };

static struct client {
    char answer[MOST_ANSWER + 1];
    size_t have;
    long long began;
} clients[MOST_CLIENTS];

static struct pollfd sockets[MOST_CLIENTS];
static unsigned times[MOST_TIMES];
static size_t answered;
static char *next, *end;
static int port;

static void stop(const char *what) {
    fprintf(stderr, "clients: %s\n", what);
    exit(1);
}

static long long now(void) {
    struct timespec time;
    clock_gettime(CLOCK_MONOTONIC, &time);
    return time.tv_sec * 1000000000LL + time.tv_nsec;
}

static int connected(void) {
    struct sockaddr_in address = {.sin_family = AF_INET, .sin_port = htons(port), .sin_addr.s_addr = htonl(INADDR_LOOPBACK)};
    int one = 1, made = socket(AF_INET, SOCK_STREAM, 0);
    if (made < 0 || connect(made, (struct sockaddr *)&address, sizeof address))
        stop("no connection");
    setsockopt(made, IPPROTO_TCP, TCP_NODELAY, &one, sizeof one);
    return made;
}

// Sends the next request, if there is one.
static int ask(int at) {
    if (next >= end)
        return 0;
    size_t length = strtoul(next, &next, 10);
    next++;
    clients[at].have = 0;
    clients[at].began = now();
    if (send(sockets[at].fd, next, length, MSG_NOSIGNAL) != (ssize_t)length)
        stop("a request was not sent");
    next += length;
    return 1;
}

// Reads the arrived bytes; returns 1 once the response is whole, 2 if the connection closes after it.
static int take(int at) {
    struct client *it = &clients[at];
    ssize_t got = recv(sockets[at].fd, it->answer + it->have, MOST_ANSWER - it->have, 0);
    if (got <= 0)
        stop("an answer ended");
    it->have += got;
    it->answer[it->have] = 0;
    char *head = strstr(it->answer, "\r\n\r\n"), *length = strstr(it->answer, "\r\nContent-Length: ");
    if (!head)
        return 0;
    if (!length || length > head)
        stop("an answer has no length");
    if (it->have < head + 4 - it->answer + strtoul(length + 18, NULL, 10))
        return 0;
    if (memcmp(it->answer, "HTTP/1.1 20", 11))
        stop(it->answer);
    char *closes = strstr(it->answer, "\r\nConnection: close\r\n");
    return closes && closes < head ? 2 : 1;
}

static char *read_file(const char *name, size_t *length) {
    FILE *file = fopen(name, "r");
    if (!file || fseek(file, 0, SEEK_END))
        stop(name);
    *length = ftell(file);
    rewind(file);
    char *bytes = malloc(*length + 1);
    if (!bytes || fread(bytes, 1, *length, file) != *length)
        stop(name);
    bytes[*length] = 0;
    fclose(file);
    return bytes;
}

static int by_length(const void *one, const void *other) {
    unsigned a = *(const unsigned *)one, b = *(const unsigned *)other;
    return (a > b) - (a < b);
}

int main(int count, char **words) {
    if (count != 5)
        stop("PORT CLIENTS SECONDS FILE");
    size_t length;
    int many = atoi(words[2]), open_ones = 0;
    port = atoi(words[1]);
    next = read_file(words[4], &length);
    end = next + length;
    if (many < 1 || many > MOST_CLIENTS)
        stop(words[2]);
    for (int at = 0; at < many; at++)
        sockets[at] = (struct pollfd){.fd = connected(), .events = POLLIN};
    long long began = now(), until = began + atoi(words[3]) * 1000000000LL, last = began;
    for (int at = 0; at < many; at++)
        open_ones += ask(at);
    while (open_ones > 0) {
        if (poll(sockets, many, -1) < 0)
            stop("poll");
        for (int at = 0; at < many; at++) {
            int whole = sockets[at].revents ? take(at) : 0;
            if (!whole)
                continue;
            last = now();
            if (answered < MOST_TIMES)
                times[answered++] = (last - clients[at].began) / 1000;
            if (whole == 2) {
                close(sockets[at].fd);
                sockets[at].fd = connected();
            }
            if (last >= until || !ask(at)) {
                close(sockets[at].fd);
                sockets[at].fd = -1;
                open_ones--;
            }
        }
    }
    qsort(times, answered, sizeof *times, by_length);
    printf("%zu %lld %u %u %u\n", answered, last - began, times[answered / 2], times[answered * 99 / 100], times[answered - 1]);
}
