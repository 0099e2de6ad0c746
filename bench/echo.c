// The least that a server of bench/load.c can cost: one thread that gives each request the reply with its number, and looks nothing up.
//
//     echo udp|datagrams|tcp PORT REQUEST REPLY
//
// REQUEST and REPLY are those of bench/load.c. With `udp` each datagram is received and sent by a call of its own, with `datagrams` up to 64 by one call.
#define _GNU_SOURCE
#include <arpa/inet.h>
#include <netinet/tcp.h>
#include <stdint.h>
#include <stdio.h>
#include <stdlib.h>
#include <string.h>
#include <sys/epoll.h>
#include <sys/socket.h>
#include <unistd.h>

enum { MOST_OCTETS = 512, MOST_DEPTH = 256, DIGITS = 6, MOST_PLACES = 4, AT_ONCE = 64, MOST_SOCKETS = 1024 };

struct pattern {
    uint8_t octets[MOST_OCTETS];
    int length, places[MOST_PLACES], many;
};

struct connection {
    uint8_t in[MOST_OCTETS * MOST_DEPTH];
    int have;
};

static struct pattern request, reply;

static void die(const char *what) {
    perror(what);
    exit(1);
}

static struct pattern read_pattern(const char *digits) {
    struct pattern p = {.length = strlen(digits) / 2};
    for (int i = 0; i < p.length && i < MOST_OCTETS; i++) {
        unsigned octet = 0;
        sscanf(digits + 2 * i, "%2x", &octet);
        p.octets[i] = octet;
    }
    for (int i = 0; i + DIGITS <= p.length && p.many < MOST_PLACES; i++)
        if (!memcmp(p.octets + i, "000000", DIGITS)) p.places[p.many++] = i, i += DIGITS - 1;
    return p;
}

static void answer(const uint8_t *asked, uint8_t *to) {
    memcpy(to, reply.octets, reply.length);
    for (int i = 0; i < reply.many; i++) memcpy(to + reply.places[i], asked + request.places[0], DIGITS);
}

static int bound(int kind, int port) {
    struct sockaddr_in at = {.sin_family = AF_INET, .sin_port = htons(port), .sin_addr = {htonl(INADDR_LOOPBACK)}};
    int one = 1, s = socket(AF_INET, kind, 0);
    setsockopt(s, SOL_SOCKET, SO_REUSEADDR, &one, sizeof one);
    if (bind(s, (struct sockaddr *)&at, sizeof at)) die("bind");
    return s;
}

static void serve_each(int s) {
    uint8_t asked[MOST_OCTETS], octets[MOST_OCTETS];
    for (;;) {
        struct sockaddr_in from;
        socklen_t size = sizeof from;
        if (recvfrom(s, asked, sizeof asked, 0, (struct sockaddr *)&from, &size) != request.length) continue;
        answer(asked, octets);
        sendto(s, octets, reply.length, 0, (struct sockaddr *)&from, size);
    }
}

static void serve_many(int s) {
    static uint8_t asked[AT_ONCE][MOST_OCTETS], octets[AT_ONCE][MOST_OCTETS];
    struct sockaddr_in from[AT_ONCE];
    struct iovec in[AT_ONCE], out[AT_ONCE];
    struct mmsghdr taken[AT_ONCE], given[AT_ONCE];
    for (;;) {
        memset(taken, 0, sizeof taken);
        memset(given, 0, sizeof given);
        for (int i = 0; i < AT_ONCE; i++) {
            in[i] = (struct iovec){asked[i], MOST_OCTETS};
            taken[i].msg_hdr = (struct msghdr){.msg_name = &from[i], .msg_namelen = sizeof from[i], .msg_iov = &in[i], .msg_iovlen = 1};
        }
        int came = recvmmsg(s, taken, AT_ONCE, MSG_WAITFORONE, 0);
        for (int i = 0; i < came; i++) {
            answer(asked[i], octets[i]);
            out[i] = (struct iovec){octets[i], reply.length};
            given[i].msg_hdr = (struct msghdr){.msg_name = &from[i], .msg_namelen = sizeof from[i], .msg_iov = &out[i], .msg_iovlen = 1};
        }
        for (int sent = 0; sent < came;) {
            int more = sendmmsg(s, given + sent, came - sent, 0);
            if (more <= 0) break;
            sent += more;
        }
    }
}

// Answers what came whole, by one write.
static int converse(int s, struct connection *c) {
    static uint8_t out[MOST_OCTETS * MOST_DEPTH];
    int got = read(s, c->in + c->have, sizeof c->in - c->have);
    if (got <= 0) return 0;
    c->have += got;
    int whole = c->have / request.length;
    for (int i = 0; i < whole; i++) answer(c->in + i * request.length, out + i * reply.length);
    c->have -= whole * request.length;
    memmove(c->in, c->in + whole * request.length, c->have);
    return write(s, out, whole * reply.length) == whole * reply.length;
}

static void serve_connections(int listener) {
    static struct connection connections[MOST_SOCKETS];
    int poll = epoll_create1(0), one = 1;
    struct epoll_event event = {.events = EPOLLIN, .data = {.u32 = listener}}, events[AT_ONCE];
    if (listen(listener, 128) || epoll_ctl(poll, EPOLL_CTL_ADD, listener, &event)) die("listen");
    for (;;) {
        int ready = epoll_wait(poll, events, AT_ONCE, -1);
        for (int i = 0; i < ready; i++) {
            int s = events[i].data.u32;
            if (s == listener) {
                int came = accept(listener, 0, 0);
                if (came < 0 || came >= MOST_SOCKETS) die("accept");
                setsockopt(came, IPPROTO_TCP, TCP_NODELAY, &one, sizeof one);
                connections[came].have = 0;
                event = (struct epoll_event){.events = EPOLLIN, .data = {.u32 = came}};
                epoll_ctl(poll, EPOLL_CTL_ADD, came, &event);
            } else if (!converse(s, &connections[s])) {
                close(s);
            }
        }
    }
}

int main(int argc, char **argv) {
    if (argc != 5) return fprintf(stderr, "usage: echo udp|datagrams|tcp PORT REQUEST REPLY\n"), 1;
    request = read_pattern(argv[3]);
    reply = read_pattern(argv[4]);
    int s = bound(strcmp(argv[1], "tcp") ? SOCK_DGRAM : SOCK_STREAM, atoi(argv[2]));
    if (!strcmp(argv[1], "udp")) serve_each(s);
    else if (!strcmp(argv[1], "datagrams")) serve_many(s);
    else serve_connections(s);
}
