// What one thread can do at most: an epoll loop that answers each line feed with one fixed reply, and reads nothing else.
//
//     limit PORT REPLY
//
// It listens on PORT of this host and serves until it is killed. Measurements of upsd are divided by its own.

#include <arpa/inet.h>
#include <netinet/tcp.h>
#include <stdio.h>
#include <stdlib.h>
#include <string.h>
#include <sys/epoll.h>
#include <unistd.h>
int main(int argc, char **argv) {
  if (argc != 3) return 2;
  int l = socket(AF_INET, SOCK_STREAM, 0), one = 1;
  setsockopt(l, SOL_SOCKET, SO_REUSEADDR, &one, sizeof one);
  struct sockaddr_in a = {.sin_family = AF_INET, .sin_port = htons(atoi(argv[1])), .sin_addr.s_addr = htonl(INADDR_LOOPBACK)};
  if (bind(l, (void *)&a, sizeof a) || listen(l, 512)) { perror("bind"); return 1; }
  int e = epoll_create1(0);
  struct epoll_event ev = {.events = EPOLLIN, .data.fd = l}, evs[256];
  epoll_ctl(e, EPOLL_CTL_ADD, l, &ev);
  size_t n = strlen(argv[2]);
  char in[512], *out = malloc(512 * (n + 1));
  for (;;) {
    int k = epoll_wait(e, evs, 256, -1);
    for (int i = 0; i < k; i++) {
      int fd = evs[i].data.fd;
      if (fd == l) {
        int c = accept(l, 0, 0);
        setsockopt(c, IPPROTO_TCP, TCP_NODELAY, &one, sizeof one);
        ev.events = EPOLLIN; ev.data.fd = c;
        epoll_ctl(e, EPOLL_CTL_ADD, c, &ev);
        continue;
      }
      ssize_t r = read(fd, in, sizeof in);
      if (r <= 0) { close(fd); continue; }
      size_t o = 0;
      for (ssize_t j = 0; j < r; j++)
        if (in[j] == '\n') { memcpy(out + o, argv[2], n); out[o + n] = '\n'; o += n + 1; }
      if (o && write(fd, out, o) < 0) close(fd);
    }
  }
}
