/* Writes down what programs do at their sockets, so that all that happened in a room stands in one order. It is preloaded; no
 * program is linked with it.
 *
 *   cc -shared -fPIC -o record.so record.c
 *   LD_PRELOAD=./record.so RECORD=FILE RECORD_AS=NAME PROGRAM ..
 *
 * Each line that it adds to FILE has NAME, a word, the port of a connection, and bytes as hexadecimal digits. The port is that of
 * the end that called, and 0 for a Unix socket.
 *
 *   opened    the program accepted the connection
 *   called    it connected to a Unix socket
 *   put, got  it wrote these bytes, none if the write failed, or read them
 *   closed    it closed the connection
 *   second    it looked for the file `reload`, as upsd and upsmon do at their start and then at each full second
 *   said      it wrote these bytes to standard output
 *
 * A call and its line are one: no other recorded program acts or writes between them. */
#define _GNU_SOURCE
#include <errno.h>
#include <fcntl.h>
#include <netinet/in.h>
#include <stdio.h>
#include <stdlib.h>
#include <string.h>
#include <sys/file.h>
#include <sys/socket.h>
#include <sys/stat.h>
#include <sys/syscall.h>
#include <unistd.h>

#define LONGEST 4096

static int record;
/* For each descriptor one more than the port of its connection, or 0. */
static int ports[1024];

__attribute__((constructor)) static void begin(void) {
    record = open(getenv("RECORD"), O_WRONLY | O_APPEND | O_CREAT | O_CLOEXEC, 0600);
    if (record < 0)
        abort();
    unsetenv("LD_PRELOAD");
}

static int *port_of(int file) {
    static int none;
    return file >= 0 && file < 1024 ? &ports[file] : &none;
}

/* Keeps other recorded programs from acting until `end` is called. */
static void take_turn(void) {
    while (flock(record, LOCK_EX) != 0 && errno == EINTR)
        ;
}

/* Adds a line unless there is no word, and returns the result of the call that it tells of. */
static ssize_t end(ssize_t result, const char *word, int port, const void *bytes, ssize_t count) {
    char line[2 * LONGEST + 100];
    int found = errno;
    if (word) {
        if (count > LONGEST)
            abort();
        int length = snprintf(line, 100, "%s %s %d ", getenv("RECORD_AS"), word, port);
        for (ssize_t at = 0; at < count; at++)
            length += sprintf(line + length, "%02x", ((const unsigned char *)bytes)[at]);
        line[length++] = '\n';
        if (syscall(SYS_write, record, line, length) != length)
            abort();
    }
    flock(record, LOCK_UN);
    errno = found;
    return result;
}

ssize_t recv(int file, void *to, size_t size, int flags) {
    take_turn();
    ssize_t count = syscall(SYS_recvfrom, file, to, size, flags, NULL, NULL);
    return end(count, *port_of(file) && count > 0 ? "got" : NULL, *port_of(file) - 1, to, count);
}

ssize_t send(int file, const void *from, size_t size, int flags) {
    take_turn();
    ssize_t count = syscall(SYS_sendto, file, from, size, flags, NULL, 0);
    return end(count, *port_of(file) ? "put" : NULL, *port_of(file) - 1, from, count);
}

ssize_t write(int file, const void *from, size_t size) {
    if (file != 1)
        return syscall(SYS_write, file, from, size);
    take_turn();
    ssize_t count = syscall(SYS_write, file, from, size);
    return end(count, count > 0 ? "said" : NULL, 0, from, count);
}

int close(int file) {
    take_turn();
    int port = *port_of(file);
    *port_of(file) = 0;
    return end(syscall(SYS_close, file), port ? "closed" : NULL, port - 1, NULL, 0);
}

int accept4(int listener, struct sockaddr *address, socklen_t *length, int flags) {
    struct sockaddr_in other;
    socklen_t size = sizeof other;
    take_turn();
    int file = syscall(SYS_accept4, listener, address, length, flags);
    int found = errno;
    if (file >= 0 && getpeername(file, (struct sockaddr *)&other, &size) == 0)
        *port_of(file) = ntohs(other.sin_port) + 1;
    errno = found;
    return end(file, file >= 0 ? "opened" : NULL, *port_of(file) - 1, NULL, 0);
}

int connect(int file, const struct sockaddr *to, socklen_t length) {
    struct sockaddr_in own;
    socklen_t size = sizeof own;
    take_turn();
    int status = syscall(SYS_connect, file, to, length);
    int found = errno, is_local = to->sa_family == AF_UNIX;
    if (is_local)
        *port_of(file) = status == 0;
    else if (getsockname(file, (struct sockaddr *)&own, &size) == 0)
        *port_of(file) = ntohs(own.sin_port) + 1;
    errno = found;
    return end(status, is_local && status == 0 ? "called" : NULL, 0, NULL, 0);
}

int statx(int folder, const char *path, int flags, unsigned mask, struct statx *found) {
    const char *last = strrchr(path, '/');
    take_turn();
    int status = syscall(SYS_statx, folder, path, flags, mask, found);
    return end(status, strcmp(last ? last : path, "/reload") == 0 ? "second" : NULL, 0, NULL, 0);
}
