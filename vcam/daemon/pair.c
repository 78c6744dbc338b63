/* Two sockets that are connected, one of which becomes a program's file handle: its readiness is what poll, select and epoll show of
 * that one. A pair of TCP shows an urgent byte as POLLPRI alone; a pair of unix, which is taken where there is no loopback, shows it as
 * POLLIN, too. */
#define _GNU_SOURCE
#include "daemon.h"
#include <arpa/inet.h>
#include <errno.h>
#include <fcntl.h>
#include <netinet/in.h>
#include <netinet/tcp.h>
#include <poll.h>
#include <sys/socket.h>
#include <unistd.h>

/* Takes in the connection that this process made, and no other one that comes. */
static int accept_own(int listener, const struct sockaddr_in *own) {
    struct sockaddr_in peer;
    poll(&(struct pollfd){listener, POLLIN, 0}, 1, 100); /* it is there at once, but where the kernel puts that off */
    for (int tries = 0; tries < 8; tries++) {
        socklen_t size = sizeof peer;
        int it = accept4(listener, (struct sockaddr *)&peer, &size, SOCK_CLOEXEC | SOCK_NONBLOCK);
        if (it < 0 || (peer.sin_port == own->sin_port && peer.sin_addr.s_addr == own->sin_addr.s_addr))
            return it;
        close(it);
    }
    return -1;
}

/* A pair of TCP on loopback. */
static int connect_pair(int pair[2]) {
    struct sockaddr_in at = {.sin_family = AF_INET, .sin_addr.s_addr = htonl(INADDR_LOOPBACK)}, own;
    socklen_t size = sizeof at;
    int least = 1, at_once = 1;
    int listener = socket(AF_INET, SOCK_STREAM | SOCK_CLOEXEC | SOCK_NONBLOCK, 0);
    pair[0] = -1;
    pair[1] = socket(AF_INET, SOCK_STREAM | SOCK_CLOEXEC | SOCK_NONBLOCK, 0);
    setsockopt(listener, SOL_SOCKET, SO_RCVBUF, &least, sizeof least); /* of what it accepts */
    if (!bind(listener, (struct sockaddr *)&at, size) && !listen(listener, 8) &&
        !getsockname(listener, (struct sockaddr *)&at, &size) &&
        (!connect(pair[1], (struct sockaddr *)&at, size) || errno == EINPROGRESS) &&
        !getsockname(pair[1], (struct sockaddr *)&own, &size))
        pair[0] = accept_own(listener, &own);
    close(listener);
    if (pair[0] < 0) {
        close(pair[1]);
        return -1;
    }
    setsockopt(pair[0], IPPROTO_TCP, TCP_NODELAY, &at_once, sizeof at_once);
    return 0;
}

int make_pair(int pair[2], uint64_t mark) {
    static const char bytes[4096];
    struct linger none = {1, 0};
    int least = 1;
    if (connect_pair(pair) && socketpair(AF_UNIX, SOCK_STREAM | SOCK_CLOEXEC | SOCK_NONBLOCK, 0, pair))
        return errno;
    if (setsockopt(pair[1], SOL_SOCKET, SO_MAX_PACING_RATE, &mark, sizeof mark)) {
        close(pair[0]);
        close(pair[1]);
        return EPROTO;
    }
    /* A camera is never ready for writing: nobody reads what fills the socket, which isn't waited for at its end. */
    setsockopt(pair[1], SOL_SOCKET, SO_LINGER, &none, sizeof none);
    setsockopt(pair[1], SOL_SOCKET, SO_SNDBUF, &least, sizeof least);
    while (send(pair[1], bytes, sizeof bytes, MSG_NOSIGNAL) > 0 || send(pair[1], bytes, 1, MSG_NOSIGNAL) > 0)
        ;
    fcntl(pair[1], F_SETFL, O_RDWR);
    return 0;
}
