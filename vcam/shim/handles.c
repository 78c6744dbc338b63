/* File handles of the camera in a program: sockets that the daemon made and marked. */
#define _GNU_SOURCE
#include "shim.h"
#include <errno.h>
#include <fcntl.h>
#include <netinet/in.h>
#include <netinet/tcp.h>
#include <stdatomic.h>
#include <stdlib.h>
#include <string.h>
#include <sys/socket.h>
#include <sys/un.h>
#include <unistd.h>

static atomic_int used; /* whether a handle was seen in this process */

const char *camera(void) {
    static char directory[sizeof((struct sockaddr_un *)0)->sun_path];
    static atomic_int state; /* 0: not looked for yet, 1: there is none, 2: there is one */
    if (!state) {
        const char *given = getenv("VCAM_DIR");
        int is_there = given && *given && strlen(given) < sizeof directory - 8;
        if (is_there)
            strcpy(directory, given);
        state = is_there ? 2 : 1;
    }
    return state == 2 ? directory : 0;
}

int has_handles(void) {
    return used;
}

int handle_of(int descriptor, uint32_t *number) {
    uint64_t mark = 0;
    socklen_t size = sizeof mark;
    int before = errno;
    int failed = descriptor < 0 || !camera() || getsockopt(descriptor, SOL_SOCKET, SO_MAX_PACING_RATE, &mark, &size);
    errno = before;
    if (failed || size < sizeof mark || !IS_MARK(mark))
        return 0;
    used = 1;
    *number = (uint32_t)mark;
    return KIND_OF_MARK(mark);
}

/* A program that was begun by another one may have handles of that one. */
__attribute__((constructor)) static void look_for_handles(void) {
    uint32_t number;
    for (int descriptor = 3; camera() && !used && descriptor < 256; descriptor++)
        handle_of(descriptor, &number);
}

int open_handle(int kind, int flags) {
    struct exchange x = {.call = {.what = CALL_OPEN, .number = kind}, .is_passing = 1};
    uint32_t number;
    int error = exchange(-1, &x);
    if (!error && handle_of(x.passed, &number) != kind) {
        close(x.passed);
        error = ENODEV;
    }
    if (error) {
        errno = error;
        return -1;
    }
    if (flags & O_NONBLOCK)
        fcntl(x.passed, F_SETFL, O_RDWR | O_NONBLOCK);
    if (!(flags & O_CLOEXEC))
        fcntl(x.passed, F_SETFD, 0);
    used = 1;
    return x.passed;
}

int empty_handle(int descriptor, uint32_t number) {
    char bytes[64];
    uint32_t now;
    int at_once = 1;
    if (!handle_of(descriptor, &now) || now != number)
        return 0; /* another thread closed it meanwhile */
    recv(descriptor, bytes, 1, MSG_OOB | MSG_DONTWAIT);
    /* a read ends in front of an urgent byte and passes it, the next one goes on behind it; there is no more to it than that */
    for (int reads = 0; reads < 4 && recv(descriptor, bytes, sizeof bytes, MSG_DONTWAIT) > 0; reads++)
        ;
    /* what isn't acknowledged holds up what the daemon puts in next, and TCP takes its time for it where it may */
    setsockopt(descriptor, IPPROTO_TCP, TCP_QUICKACK, &at_once, sizeof at_once);
    return 1;
}
