// Keeps a server of line requests busy, and measures its answers.
//
//     load PORT CLIENTS IN_FLIGHT LINES SECONDS REQUEST
//
// Each of CLIENTS connections to PORT of this host sends IN_FLIGHT requests at once, each of which is answered by LINES
// lines, and as many again once all are answered. After SECONDS it prints the answers a second, and the median and the
// 99th percentile of the time from a request to the end of its answer, in microseconds.

#include <arpa/inet.h>
#include <errno.h>
#include <netinet/tcp.h>
#include <stdio.h>
#include <stdlib.h>
#include <string.h>
#include <sys/epoll.h>
#include <sys/socket.h>
#include <time.h>
#include <unistd.h>

enum { MOST_IN_FLIGHT = 64, BUCKETS = 1 << 20 };

struct client {
    int fd;
    unsigned lines;    // of the answer that is coming
    unsigned answers;  // since the last requests
    double sent;       // when the last requests were
};

static unsigned counts[BUCKETS];  // answers by their whole microseconds
static unsigned in_flight, lines_due;
static char requests[MOST_IN_FLIGHT * 600];
static size_t request_length;

static double now(void) {
    struct timespec t;
    clock_gettime(CLOCK_MONOTONIC, &t);
    return t.tv_sec + t.tv_nsec / 1e9;
}

static void fail(const char *what) {
    perror(what);
    exit(1);
}

static void ask(struct client *c, double at) {
    c->sent = at;
    c->answers = 0;
    size_t length = in_flight * request_length;
    if (send(c->fd, requests, length, 0) != (ssize_t)length)
        fail("send");
}

static unsigned hear(struct client *c) {
    static char bytes[1 << 16];
    ssize_t n = recv(c->fd, bytes, sizeof bytes, 0);
    if (n <= 0)
        fail("recv");
    double at = now(), microseconds = (at - c->sent) * 1e6;
    unsigned answers = 0;
    for (char *p = bytes; (p = memchr(p, '\n', bytes + n - p)); p++) {
        if (++c->lines < lines_due)
            continue;
        c->lines = 0;
        counts[microseconds < BUCKETS - 1 ? (unsigned)microseconds : BUCKETS - 1]++;
        answers++;
    }
    if ((c->answers += answers) == in_flight)
        ask(c, at);
    return answers;
}

static unsigned percentile(double share, unsigned long answers) {
    unsigned long below = 0;
    for (unsigned i = 0; i < BUCKETS; i++)
        if ((below += counts[i]) >= share * answers)
            return i;
    return BUCKETS;
}

int main(int argc, char **argv) {
    if (argc != 7)
        return 2;
    unsigned clients = atoi(argv[2]);
    in_flight = atoi(argv[3]);
    lines_due = atoi(argv[4]);
    double seconds = atof(argv[5]);
    for (unsigned i = 0; i < in_flight; i++)
        strcat(strcat(requests, argv[6]), "\n");
    request_length = strlen(argv[6]) + 1;

    struct sockaddr_in address = {.sin_family = AF_INET, .sin_port = htons(atoi(argv[1]))};
    inet_pton(AF_INET, "127.0.0.1", &address.sin_addr);
    int poll = epoll_create1(0), on = 1;
    struct client *all = calloc(clients, sizeof *all);
    for (unsigned i = 0; i < clients; i++) {
        all[i].fd = socket(AF_INET, SOCK_STREAM, 0);
        if (connect(all[i].fd, (struct sockaddr *)&address, sizeof address) < 0)
            fail("connect");
        setsockopt(all[i].fd, IPPROTO_TCP, TCP_NODELAY, &on, sizeof on);
        struct epoll_event event = {.events = EPOLLIN, .data.ptr = &all[i]};
        epoll_ctl(poll, EPOLL_CTL_ADD, all[i].fd, &event);
    }
    double begun = now(), end = begun + seconds;
    for (unsigned i = 0; i < clients; i++)
        ask(&all[i], begun);
    unsigned long answers = 0;
    while (now() < end) {
        struct epoll_event events[256];
        int ready = epoll_wait(poll, events, 256, 100);
        if (ready < 0 && errno != EINTR)
            fail("epoll_wait");
        for (int i = 0; i < ready; i++)
            answers += hear(events[i].data.ptr);
    }
    printf("%.0f %u %u\n", answers / (now() - begun), percentile(0.5, answers), percentile(0.99, answers));
    return 0;
}
