// A load generator for bench/proxy and bench/changes: one thread, real sockets on loopback, each client with one request under way on a
// connection that it keeps.
//
//     http HOST PORT PATH CLIENTS SECONDS STATUS           asks for PATH again and again
//     http HOST PORT FILE CLIENTS SECONDS STATUS COUNT     sends COUNT requests, which stand in FILE with equal lengths, once each
//
// Prints on one line: answers of STATUS a second, the 50th and 99th percentile of the time to answer in microseconds, the processor share
// of this program in percent, and how many faults there were: other answers, and connections that ended. It reads an answer by its
// Content-Length alone.
#define _GNU_SOURCE
#include <arpa/inet.h>
#include <errno.h>
#include <netinet/tcp.h>
#include <stdint.h>
#include <stdio.h>
#include <stdlib.h>
#include <string.h>
#include <strings.h>
#include <sys/epoll.h>
#include <sys/resource.h>
#include <sys/socket.h>
#include <time.h>
#include <unistd.h>

enum { ROOM = 65536, MOST_TIMES = 1 << 22 };

struct client {
    int socket;
    size_t have;
    double began;
    char buffer[ROOM];
};

static struct sockaddr_in address;
/* A request that is sent again and again, or all of a file, and how many of those were sent. */
static char *requests;
static size_t request_len, total, sent;
static float *times;
static size_t count;
static long faults;
static int wanted;

static double now(void) {
    struct timespec t;
    clock_gettime(CLOCK_MONOTONIC, &t);
    return (double)t.tv_sec + (double)t.tv_nsec / 1e9;
}

static void fail(const char *what) {
    perror(what);
    exit(1);
}

static void ask(struct client *c) {
    if (total && sent == total) return;
    const char *request = requests + (total ? sent * request_len : 0);
    sent++;
    c->have = 0;
    c->began = now();
    if (write(c->socket, request, request_len) != (ssize_t)request_len) faults++;
}

static void read_requests(const char *path, size_t many) {
    FILE *file = fopen(path, "rb");
    if (!file || fseek(file, 0, SEEK_END) < 0) fail(path);
    total = many;
    request_len = (size_t)ftell(file) / total;
    requests = malloc(total * request_len);
    rewind(file);
    if (!requests || fread(requests, request_len, total, file) != total) fail(path);
    fclose(file);
}

static void make_request(char **argv) {
    requests = malloc(4096);
    if (!requests) fail("start");
    request_len = (size_t)snprintf(requests, 4096, "GET %s HTTP/1.1\r\nHost: %s:%s\r\nUser-Agent: load\r\nAccept: */*\r\n\r\n", argv[3], argv[1], argv[2]);
}

static void connect_client(int poll, struct client *c) {
    int one = 1;
    struct epoll_event event = {.events = EPOLLIN, .data.ptr = c};
    c->socket = socket(AF_INET, SOCK_STREAM, 0);
    if (c->socket < 0 || connect(c->socket, (struct sockaddr *)&address, sizeof address) < 0) fail("connect");
    setsockopt(c->socket, IPPROTO_TCP, TCP_NODELAY, &one, sizeof one);
    if (epoll_ctl(poll, EPOLL_CTL_ADD, c->socket, &event) < 0) fail("epoll_ctl");
    ask(c);
}

/* The octets of the answer that stands at the front, or 0 where it isn't whole. */
static size_t whole(struct client *c, int *status) {
    c->buffer[c->have] = 0;
    char *end = strstr(c->buffer, "\r\n\r\n");
    if (!end) return 0;
    char *length = strcasestr(c->buffer, "\r\ncontent-length:");
    size_t body = length && length < end ? strtoul(length + 17, NULL, 10) : 0;
    size_t all = (size_t)(end + 4 - c->buffer) + body;
    *status = atoi(c->buffer + 9);
    return c->have >= all ? all : 0;
}

static void take(int poll, struct client *c) {
    int status = 0;
    ssize_t n = read(c->socket, c->buffer + c->have, ROOM - 1 - c->have);
    if (n <= 0) {
        faults++;
        close(c->socket);
        connect_client(poll, c);
        return;
    }
    c->have += (size_t)n;
    if (!whole(c, &status)) return;
    if (status != wanted) faults++;
    else if (count < MOST_TIMES) times[count++] = (float)(now() - c->began);
    ask(c);
}

static int by_time(const void *a, const void *b) {
    float x = *(const float *)a, y = *(const float *)b;
    return (x > y) - (x < y);
}

int main(int argc, char **argv) {
    if (argc != 7 && argc != 8) {
        fprintf(stderr, "usage: http HOST PORT PATH CLIENTS SECONDS STATUS, or FILE and at the end COUNT\n");
        return 2;
    }
    int clients = atoi(argv[4]);
    double seconds = atof(argv[5]);
    wanted = atoi(argv[6]);
    address.sin_family = AF_INET;
    address.sin_port = htons((uint16_t)atoi(argv[2]));
    if (inet_pton(AF_INET, argv[1], &address.sin_addr) != 1) fail("inet_pton");
    if (argc == 8) read_requests(argv[3], strtoul(argv[7], NULL, 10));
    else make_request(argv);
    times = malloc(MOST_TIMES * sizeof *times);
    struct client *all = calloc((size_t)clients, sizeof *all);
    int poll = epoll_create1(0);
    if (!times || !all || poll < 0) fail("start");
    for (int i = 0; i < clients; i++) connect_client(poll, &all[i]);
    double start = now();
    struct epoll_event events[64];
    while (now() - start < seconds && (!total || count + (size_t)faults < total)) {
        int n = epoll_wait(poll, events, 64, 100);
        for (int i = 0; i < n; i++) take(poll, events[i].data.ptr);
    }
    double took = now() - start;
    qsort(times, count, sizeof *times, by_time);
    struct rusage used;
    getrusage(RUSAGE_SELF, &used);
    double share = ((double)used.ru_utime.tv_sec + (double)used.ru_stime.tv_sec + (double)(used.ru_utime.tv_usec + used.ru_stime.tv_usec) / 1e6) / took;
    float median = count ? times[count / 2] : 0, slow = count ? times[count * 99 / 100] : 0;
    printf("%.0f %.0f %.0f %.0f %ld\n", (double)count / took, median * 1e6, slow * 1e6, share * 100, faults);
    return 0;
}
