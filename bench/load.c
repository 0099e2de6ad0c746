// A load generator for bench/serve, bench/peers and bench/soak: one thread, real sockets on loopback, each reply compared whole.
//
//     load tcp|udp PORT CLIENTS DEPTH SECONDS REQUEST REPLY HANDLES one|uniform|falling
//
// REQUEST and REPLY are hexadecimal. Wherever their octets have the six digits 000000, a request has the number of one of HANDLES handles, and so
// must its reply: always the same number, each as likely, or by Zipf's law with the exponent 1.
// Every client sends again and again with DEPTH requests in flight. After a tenth of the time it counts, and then prints on one line:
// replies a second, the 50th, 99th and 99.9th percentile of the time to answer in microseconds, the processor share of this program
// in percent, and how often half a second passed without a reply.
#define _GNU_SOURCE
#include <arpa/inet.h>
#include <errno.h>
#include <netinet/tcp.h>
#include <stdint.h>
#include <stdio.h>
#include <stdlib.h>
#include <string.h>
#include <sys/epoll.h>
#include <sys/resource.h>
#include <sys/socket.h>
#include <time.h>
#include <unistd.h>

enum { MOST_OCTETS = 512, MOST_DEPTH = 256, DIGITS = 6, MOST_PLACES = 4 };
enum choice { ONE, UNIFORM, FALLING };

// Octets in which the number of a handle stands at some places.
struct pattern {
    uint8_t octets[MOST_OCTETS];
    int length, places[MOST_PLACES], many;
};

static struct pattern request, reply;
static int is_udp, handles;
static enum choice choice;
static double *shares;  // of the first k handles together

struct client {
    int socket;
    uint8_t in[MOST_OCTETS * MOST_DEPTH];
    int have;
    uint64_t sent[MOST_DEPTH];  // when each request in flight was sent, a ring
    int asked[MOST_DEPTH];      // and for which handle
    unsigned first, next;
};

static uint32_t *times;
static size_t counted, room;

static uint64_t now(void) {
    struct timespec t;
    clock_gettime(CLOCK_MONOTONIC, &t);
    return t.tv_sec * 1000000000ull + t.tv_nsec;
}

static void die(const char *what) {
    fprintf(stderr, "load: %s\n", what);
    exit(1);
}

static uint64_t draw(void) {
    static uint64_t state = 88172645463325252ull;
    state ^= state << 13;
    state ^= state >> 7;
    state ^= state << 17;
    return state * 0x2545F4914F6CDD1Dull >> 20;
}

static int pick(void) {
    if (choice == ONE) return 7 % handles;
    if (choice == UNIFORM) return draw() % handles;
    double u = (draw() & 0xffffffffffull) / (double)0x10000000000ull;
    int low = 0, high = handles - 1;
    while (low < high) {
        int middle = (low + high) / 2;
        if (shares[middle] < u) low = middle + 1; else high = middle;
    }
    return (long)low * 7919 % handles;  // the handles that are asked for most stand far from each other
}

static void read_shares(void) {
    shares = malloc(handles * sizeof *shares);
    if (!shares) die("no memory");
    double sum = 0;
    for (int k = 0; k < handles; k++) shares[k] = sum += 1.0 / (k + 1);
    for (int k = 0; k < handles; k++) shares[k] /= sum;
}

static struct pattern read_pattern(const char *digits) {
    struct pattern p = {.length = strlen(digits) / 2};
    if (p.length > MOST_OCTETS) die("too many octets");
    for (int i = 0; i < p.length; i++) {
        unsigned octet;
        if (sscanf(digits + 2 * i, "%2x", &octet) != 1) die("not hexadecimal");
        p.octets[i] = octet;
    }
    for (int i = 0; i + DIGITS <= p.length && p.many < MOST_PLACES; i++)
        if (!memcmp(p.octets + i, "000000", DIGITS)) p.places[p.many++] = i, i += DIGITS - 1;
    return p;
}

static void put_number(const struct pattern *p, uint8_t *octets, int number) {
    for (int i = 0; i < p->many; i++)
        for (int k = DIGITS - 1, n = number; k >= 0; k--, n /= 10) octets[p->places[i] + k] = '0' + n % 10;
}

static void count(uint64_t nanoseconds) {
    if (counted == room) {
        room = room ? room * 2 : 1 << 20;
        times = realloc(times, room * sizeof *times);
        if (!times) die("no memory");
    }
    times[counted++] = nanoseconds;
}

static int by_size(const void *a, const void *b) {
    uint32_t x = *(const uint32_t *)a, y = *(const uint32_t *)b;
    return x < y ? -1 : x > y;
}

static void connect_to(struct client *c, int port) {
    struct sockaddr_in to = {.sin_family = AF_INET, .sin_port = htons(port), .sin_addr = {htonl(INADDR_LOOPBACK)}};
    int one = 1;
    c->socket = socket(AF_INET, is_udp ? SOCK_DGRAM : SOCK_STREAM, 0);
    if (connect(c->socket, (struct sockaddr *)&to, sizeof to)) die(strerror(errno));
    if (!is_udp) setsockopt(c->socket, IPPROTO_TCP, TCP_NODELAY, &one, sizeof one);
}

static void send_requests(struct client *c, int many) {
    static uint8_t all[MOST_OCTETS * MOST_DEPTH];
    uint64_t t = now();
    for (int i = 0; i < many; i++) {
        uint8_t *one = all + i * request.length;
        unsigned place = c->next++ % MOST_DEPTH;
        c->asked[place] = pick();
        c->sent[place] = t;
        memcpy(one, request.octets, request.length);
        put_number(&request, one, c->asked[place]);
        if (is_udp) send(c->socket, one, request.length, 0);
    }
    if (!is_udp && write(c->socket, all, many * request.length) != many * request.length) die("a short write");
}

// Takes the replies that came, and sends as many requests again.
static void take_replies(struct client *c, int counts) {
    int got = read(c->socket, c->in + c->have, sizeof c->in - c->have);
    if (got <= 0) {
        if (is_udp) return;
        die("the server closed a connection");
    }
    c->have += got;
    int whole = c->have / reply.length;
    uint64_t t = now();
    for (int i = 0; i < whole; i++) {
        unsigned place = c->first++ % MOST_DEPTH;
        put_number(&reply, reply.octets, c->asked[place]);
        if (memcmp(c->in + i * reply.length, reply.octets, reply.length)) die("another reply");
        if (counts) count(t - c->sent[place]);
    }
    c->have -= whole * reply.length;
    memmove(c->in, c->in + whole * reply.length, c->have);
    if (whole) send_requests(c, whole);
}

// Datagrams may be lost: after half a second without a reply each client forgets what may still come, and begins again with one.
static void begin_again(struct client *clients, int many) {
    for (int i = 0; i < many && is_udp; i++) {
        struct client *c = &clients[i];
        while (recv(c->socket, c->in, sizeof c->in, MSG_DONTWAIT) > 0) {}
        c->have = 0;
        c->first = c->next;
        send_requests(c, 1);
    }
}

static double percentile(double share) {
    return counted ? times[(size_t)(share * (counted - 1))] / 1e3 : 0;
}

int main(int argc, char **argv) {
    if (argc != 10) die("usage: load tcp|udp PORT CLIENTS DEPTH SECONDS REQUEST REPLY HANDLES one|uniform|falling");
    is_udp = !strcmp(argv[1], "udp");
    int port = atoi(argv[2]), many = atoi(argv[3]), depth = atoi(argv[4]);
    double seconds = atof(argv[5]);
    request = read_pattern(argv[6]);
    reply = read_pattern(argv[7]);
    handles = atoi(argv[8]);
    choice = !strcmp(argv[9], "one") ? ONE : !strcmp(argv[9], "uniform") ? UNIFORM : FALLING;
    if (many < 1 || depth < 1 || depth >= MOST_DEPTH || handles < 1 || handles > 1000000) die("a number out of range");
    read_shares();
    struct client *clients = calloc(many, sizeof *clients);
    int poll = epoll_create1(0);
    for (int i = 0; i < many; i++) {
        connect_to(&clients[i], port);
        struct epoll_event event = {.events = EPOLLIN, .data = {.u32 = i}};
        epoll_ctl(poll, EPOLL_CTL_ADD, clients[i].socket, &event);
    }
    uint64_t start = now(), end = start + seconds * 1e9, from = start + seconds * 1e8, stalls = 0;
    for (int i = 0; i < many; i++) send_requests(&clients[i], depth);
    while (now() < end) {
        struct epoll_event events[64];
        int ready = epoll_wait(poll, events, 64, 500);
        if (ready == 0) {
            stalls++;
            begin_again(clients, many);
        }
        for (int i = 0; i < ready; i++) take_replies(&clients[events[i].data.u32], now() > from);
    }
    struct rusage used;
    getrusage(RUSAGE_SELF, &used);
    double processor = used.ru_utime.tv_sec + used.ru_stime.tv_sec + (used.ru_utime.tv_usec + used.ru_stime.tv_usec) / 1e6;
    qsort(times, counted, sizeof *times, by_size);
    printf("%.0f %.0f %.0f %.0f %.0f %llu\n", counted / ((end - from) / 1e9), percentile(.5), percentile(.99), percentile(.999),
           processor / seconds * 100, (unsigned long long)stalls);
    return 0;
}
