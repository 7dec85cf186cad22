/* Makes one call of a program fail, to test what it does then. It is preloaded; no program is linked with it.
 *
 *   cc -shared -fPIC -o refuse.so refuse.c -ldl
 *   LD_PRELOAD=./refuse.so REFUSE=allocation REFUSE_AT=3 PROGRAM ..
 *
 * REFUSE is 'allocation', 'read', 'write' or 'file-read': the call of that kind with the number REFUSE_AT fails. It is
 * 'short-read', 'short-write' or 'short-file-read': from that call on each moves one byte. 'read' and 'write' are those
 * of standard input and output, 'file-read' is of any other file. It is 'memory': each allocation fails as soon as the
 * file that REFUSE_ONCE names is there. It is 'sleep': no pause takes any time. It is 'watch': no descriptor can be
 * watched by epoll, as if its user watched as many as may be. Calls are counted from 1. At its end the program's count of
 * calls of that kind is written to the file that REFUSE_COUNT names.
 *
 * The program stands still after each call of 'connect' or 'bind', whichever HOLD names, while the file that HOLD_WHILE
 * names is there.
 *
 * Whatever REFUSE is, no process can be started while the file that REFUSE_STARTS names is there. In the folder that
 * DEAD_FOLDER names no look at a file and no start of a program ever ends, as on a server that doesn't answer.
 *
 * What the program starts isn't refused anything. */
#define _GNU_SOURCE
#include <dlfcn.h>
#include <errno.h>
#include <spawn.h>
#include <stdio.h>
#include <stdlib.h>
#include <string.h>
#include <sys/epoll.h>
#include <sys/mman.h>
#include <sys/socket.h>
#include <sys/stat.h>
#include <sys/uio.h>
#include <time.h>
#include <unistd.h>

static long calls;

static const char *setting(const char *name) {
    const char *value = getenv(name);
    return value ? value : "";
}

/* Whether this call of the kind is the one that REFUSE_AT names, or with `from` a later one. */
static int is_refused(const char *kind, int from) {
    if (strcmp(setting("REFUSE"), kind) != 0)
        return 0;
    calls++;
    long at = atol(setting("REFUSE_AT"));
    return from ? at > 0 && calls >= at : calls == at;
}

/* Whether this allocation is refused. */
static int is_dry(void) {
    if (strcmp(setting("REFUSE"), "memory") == 0)
        return access(setting("REFUSE_ONCE"), F_OK) == 0;
    return is_refused("allocation", 0);
}

#define NEXT(name) dlsym(RTLD_NEXT, name)

/* AddressSanitizer's `reallocarray`, if the program holds it. */
static void *(*sanitized)(void *, size_t, size_t);

static void *dry_malloc(size_t size) {
    static void *(*next)(size_t);
    if (!next)
        next = NEXT("malloc");
    if (is_dry()) {
        errno = ENOMEM;
        return NULL;
    }
    return sanitized ? sanitized(NULL, 1, size) : next(size);
}

static void *dry_realloc(void *old, size_t size) {
    static void *(*next)(void *, size_t);
    if (!next)
        next = NEXT("realloc");
    if (is_dry()) {
        errno = ENOMEM;
        return NULL;
    }
    return sanitized ? sanitized(old, 1, size) : next(old, size);
}

void *malloc(size_t size) {
    return dry_malloc(size);
}

void *realloc(void *old, size_t size) {
    return dry_realloc(old, size);
}

/* Makes a function of the program begin with a jump to another (x86-64). What bears its name may itself be a jump to it. */
static void lead(const char *name, void *to) {
    unsigned char *from = dlsym(RTLD_DEFAULT, name), jump[12] = {0x48, 0xb8, [10] = 0xff, 0xe0};
    if (*from == 0xe9) {
        int by;
        memcpy(&by, from + 1, sizeof by);
        from += 5 + by;
    }
    memcpy(jump + 2, &to, sizeof to);
    long page = sysconf(_SC_PAGESIZE);
    void *start = (void *)((unsigned long)from & -page);
    if (mprotect(start, 2 * page, PROT_READ | PROT_WRITE | PROT_EXEC))
        abort();
    memcpy(from, jump, sizeof jump);
    mprotect(start, 2 * page, PROT_READ | PROT_EXEC);
}

/* AddressSanitizer puts an allocator into the program, before which no library comes. So its functions lead here, and these
 * allocate by another one of it. */
__attribute__((constructor)) static void come_before_sanitizer(void) {
    Dl_info first, ours;
    if (!dladdr(dlsym(RTLD_DEFAULT, "malloc"), &first) || !dladdr(dry_malloc, &ours) || first.dli_fbase == ours.dli_fbase)
        return;
    sanitized = dlsym(RTLD_DEFAULT, "reallocarray");
    lead("malloc", dry_malloc);
    lead("realloc", dry_realloc);
}

int posix_memalign(void **to, size_t alignment, size_t size) {
    static int (*next)(void **, size_t, size_t);
    if (!next)
        next = NEXT("posix_memalign");
    return is_dry() ? ENOMEM : next(to, alignment, size);
}

void *aligned_alloc(size_t alignment, size_t size) {
    static void *(*next)(size_t, size_t);
    if (!next)
        next = NEXT("aligned_alloc");
    if (is_dry()) {
        errno = ENOMEM;
        return NULL;
    }
    return next(alignment, size);
}

ssize_t read(int file, void *to, size_t size) {
    static ssize_t (*next)(int, void *, size_t);
    if (!next)
        next = NEXT("read");
    if (is_refused(file == 0 ? "read" : "file-read", 0)) {
        errno = EIO;
        return -1;
    }
    if (size > 1 && is_refused(file == 0 ? "short-read" : "short-file-read", 1))
        size = 1;
    return next(file, to, size);
}

ssize_t write(int file, const void *from, size_t size) {
    static ssize_t (*next)(int, const void *, size_t);
    if (!next)
        next = NEXT("write");
    if (file == 1 && is_refused("write", 0)) {
        errno = EIO;
        return -1;
    }
    if (file == 1 && size > 1 && is_refused("short-write", 1))
        size = 1;
    return next(file, from, size);
}

int nanosleep(const struct timespec *asked, struct timespec *left) {
    static int (*next)(const struct timespec *, struct timespec *);
    if (!next)
        next = NEXT("nanosleep");
    if (strcmp(setting("REFUSE"), "sleep") == 0) {
        calls++;
        return 0;
    }
    return next(asked, left);
}

int epoll_ctl(int set, int how, int file, struct epoll_event *event) {
    static int (*next)(int, int, int, struct epoll_event *);
    if (!next)
        next = NEXT("epoll_ctl");
    if (how == EPOLL_CTL_ADD && strcmp(setting("REFUSE"), "watch") == 0) {
        errno = ENOSPC;
        return -1;
    }
    return next(set, how, file, event);
}

/* Waits after a call with this name and this result while it is to be held up, and returns the result. */
static int hold(const char *name, int result) {
    int found = errno;
    while (strcmp(setting("HOLD"), name) == 0 && access(setting("HOLD_WHILE"), F_OK) == 0)
        usleep(1000);
    errno = found;
    return result;
}

int connect(int file, const struct sockaddr *to, socklen_t size) {
    static int (*next)(int, const struct sockaddr *, socklen_t);
    if (!next)
        next = NEXT("connect");
    return hold("connect", next(file, to, size));
}

int bind(int file, const struct sockaddr *to, socklen_t size) {
    static int (*next)(int, const struct sockaddr *, socklen_t);
    if (!next)
        next = NEXT("bind");
    return hold("bind", next(file, to, size));
}

/* Waits for ever if a path is in the dead folder. */
static void reach(const char *path) {
    const char *dead = setting("DEAD_FOLDER");
    size_t length = strlen(dead);
    while (length > 0 && strncmp(path, dead, length) == 0 && path[length] == '/')
        pause();
}

int statx(int folder, const char *path, int flags, unsigned mask, struct statx *found) {
    static int (*next)(int, const char *, int, unsigned, struct statx *);
    if (!next)
        next = NEXT("statx");
    reach(path);
    return next(folder, path, flags, mask, found);
}

int posix_spawn(pid_t *started, const char *path, const posix_spawn_file_actions_t *actions, const posix_spawnattr_t *attributes,
                char *const words[], char *const variables[]) {
    static int (*next)(pid_t *, const char *, const posix_spawn_file_actions_t *, const posix_spawnattr_t *, char *const[],
                       char *const[]);
    if (!next)
        next = NEXT("posix_spawn");
    reach(path);
    if (access(setting("REFUSE_STARTS"), F_OK) == 0)
        return EAGAIN;
    return next(started, path, actions, attributes, words, variables);
}

__attribute__((constructor)) static void stay_alone(void) {
    unsetenv("LD_PRELOAD");
}

__attribute__((destructor)) static void say(void) {
    const char *name = setting("REFUSE_COUNT");
    if (*name) {
        FILE *file = fopen(name, "w");
        if (file) {
            fprintf(file, "%ld\n", calls);
            fclose(file);
        }
    }
}
