/* The connections over which calls go to the daemon. The program may close each of them at any time, and have a file of its own at
 * the number then; so one is looked at before each use and each close, and stands where the program doesn't come by chance. Nothing
 * here holds a lock, so that a call may be made in any thread, behind a fork and in a signal's handler. */
#define _GNU_SOURCE
#include "../peer.h"
#include "shim.h"
#include <errno.h>
#include <fcntl.h>
#include <pthread.h>
#include <stdatomic.h>
#include <stdio.h>
#include <string.h>
#include <sys/resource.h>
#include <sys/socket.h>
#include <sys/syscall.h>
#include <sys/un.h>
#include <time.h>
#include <unistd.h>

#define MOST_SECONDS 10 /* for an answer, where the call may not wait */
#define MOST_ERRNO EHWPOISON
#define UNSENT (-1) /* the connection is gone, and the call wasn't sent: another one may be tried */

static uint64_t cookie_of(int descriptor) {
    uint64_t cookie = 0;
    socklen_t size = sizeof cookie;
    return getsockopt(descriptor, SOL_SOCKET, SO_COOKIE, &cookie, &size) ? 0 : cookie;
}

struct own own_socket(int descriptor) {
    return (struct own){descriptor, descriptor < 0 ? 0 : cookie_of(descriptor)};
}

int is_still(const struct own *it) {
    return it->descriptor >= 0 && it->cookie && cookie_of(it->descriptor) == it->cookie;
}

void close_own(const struct own *it) {
    if (is_still(it))
        close(it->descriptor);
}

/* Gives a socket a high number: one above the process's limit, which no open and no dup2 gives, where the limit may be raised for a
 * moment; else one that a program hardly comes to. */
static void lift(struct own *it) {
    static atomic_int lifting; /* the process, a thread of which has raised the limit */
    static atomic_uint turn;   /* a number isn't at once that of a connection anew which was closed under a thread */
    struct rlimit now, more, then;
    int process = getpid(), other = lifting;
    if (prlimit(0, RLIMIT_NOFILE, 0, &now))
        return;
    int is_raised = now.rlim_cur <= 16384 && now.rlim_max >= now.rlim_cur + 64 && other != process &&
                    atomic_compare_exchange_strong(&lifting, &other, process);
    more = (struct rlimit){now.rlim_cur + 64, now.rlim_max};
    if (is_raised)
        prlimit(0, RLIMIT_NOFILE, &more, &now);
    int least = is_raised ? now.rlim_cur : now.rlim_cur >= 1024 ? 960 : now.rlim_cur / 2;
    struct own high = {fcntl(it->descriptor, F_DUPFD_CLOEXEC, least + turn++ % 32), it->cookie};
    if (is_raised && !prlimit(0, RLIMIT_NOFILE, &now, &then) && then.rlim_cur != more.rlim_cur)
        prlimit(0, RLIMIT_NOFILE, &then, 0); /* the program has set another one meanwhile */
    if (is_raised)
        lifting = 0;
    if (is_still(&high)) {
        close_own(it);
        *it = high;
    } else if (high.descriptor >= 0)
        close(high.descriptor); /* a copy of what the program has at the number now */
}

/* How long a connection's answer is waited for; for good where it is 0, and then the kernel goes on behind a signal with SA_RESTART. */
static void limit_wait(int connection, int seconds) {
    struct timeval limit = {seconds, 0};
    setsockopt(connection, SOL_SOCKET, SO_RCVTIMEO, &limit, sizeof limit);
}

/* Whether signals have interrupted a call for as long as it may take; each begins the socket's own limit anew. */
static int is_late(struct timespec *since) {
    struct timespec now;
    clock_gettime(CLOCK_MONOTONIC, &now);
    if (!since->tv_sec)
        *since = now;
    return now.tv_sec - since->tv_sec > MOST_SECONDS;
}

/* Connects to the camera, if whoever listens there is this user or root. A camera that is gone is ENODEV, as one that is pulled out. */
static int connect_to_camera(const struct own *it) {
    struct sockaddr_un address = {.sun_family = AF_UNIX};
    struct timeval limit = {MOST_SECONDS, 0};
    struct timespec since = {0};
    struct ucred peer;
    int failed;
    limit_wait(it->descriptor, MOST_SECONDS);
    setsockopt(it->descriptor, SOL_SOCKET, SO_SNDTIMEO, &limit, sizeof limit);
    snprintf(address.sun_path, sizeof address.sun_path, "%s/calls", camera());
    do
        failed = connect(it->descriptor, (struct sockaddr *)&address, sizeof address);
    while (failed && errno == EINTR && !is_late(&since));
    return failed || !is_trusted(it->descriptor, &peer) ? ENODEV : 0;
}

/* Connections that no call uses just now, each with the process that made it. */
static struct slot {
    atomic_int state;
    int process;
    struct own it;
} idle[8];
enum { EMPTY, FULL, BUSY };
#define EACH_IDLE(slot) for (struct slot *slot = idle; slot < idle + sizeof idle / sizeof *idle; slot++)

static int becomes_busy(struct slot *slot, int from) {
    return slot->state == from && atomic_compare_exchange_strong(&slot->state, &from, BUSY);
}

/* A connection for one call; the errno where there is none. */
static int take_connection(struct own *it) {
    int process = getpid();
    EACH_IDLE(slot) {
        if (!becomes_busy(slot, FULL))
            continue;
        int is_of_this = slot->process == process;
        *it = slot->it;
        slot->state = EMPTY;
        if (is_of_this && is_still(it))
            return 0;
        close_own(it); /* that of the process which this one was forked from */
    }
    *it = own_socket(socket(AF_UNIX, SOCK_SEQPACKET | SOCK_CLOEXEC, 0));
    if (it->descriptor < 0)
        return errno;
    lift(it);
    int error = connect_to_camera(it);
    if (error)
        close_own(it);
    return error;
}

static void give_back(const struct own *it) {
    EACH_IDLE(slot)
        if (becomes_busy(slot, EMPTY)) {
            slot->it = *it;
            slot->process = getpid();
            slot->state = FULL;
            return;
        }
    close_own(it);
}

/* Sends a call; its errno. The payload is the program's memory, as its pointer says: that it can be read, the kernel alone may judge,
 * and not a sanitizer's sendmsg in the program. */
static int send_call(int connection, struct exchange *x) {
    char copy[is_watched ? MOST_PAYLOAD : 1];
    struct iovec parts[2] = {{&x->call, sizeof x->call}, defined(x->out, copy)};
    struct msghdr message = {.msg_iov = parts, .msg_iovlen = 2};
    struct timespec since = {0};
    ssize_t sent;
    do
        sent = REAL(syscall)(SYS_sendmsg, connection, &message, MSG_NOSIGNAL);
    while (sent < 0 && errno == EINTR && !is_late(&since));
    return sent < 0 ? errno : 0;
}

/* Takes in the descriptors that came with an answer: how many. All but a single one are closed. */
static int take_descriptors(struct exchange *x, struct msghdr *message) {
    int count = 0, one;
    for (struct cmsghdr *part = CMSG_FIRSTHDR(message); part; part = CMSG_NXTHDR(message, part)) {
        size_t size = part->cmsg_len - CMSG_LEN(0);
        if (part->cmsg_level != SOL_SOCKET || part->cmsg_type != SCM_RIGHTS)
            continue;
        for (size_t at = 0; at + sizeof one <= size; at += sizeof one, count++) {
            memcpy(&one, CMSG_DATA(part) + at, sizeof one);
            if (count)
                close(one);
            else
                x->passed = one;
        }
    }
    return count;
}

/* Whether an answer is one that the call can have; nothing else of it is looked at where it isn't. */
static int is_right(const struct exchange *x, const struct msghdr *message, size_t size, int descriptors) {
    uint32_t error = x->answer.error;
    return !(message->msg_flags & (MSG_TRUNC | MSG_CTRUNC)) && error <= MOST_ERRNO && x->answer.is_stale <= 1 &&
           descriptors == (x->is_passing && !error) && (size == x->in.iov_len || (error && !size));
}

/* Receives an answer; the errno with which that failed. A signal ends a call that waits: then the daemon is asked to answer it at
 * once, so that a frame isn't answered to nobody. */
static int receive_answer(const struct own *it, struct exchange *x) {
    _Alignas(struct cmsghdr) char room[CMSG_SPACE(sizeof(int))]; /* by its alignment it has room for two */
    struct iovec parts[2] = {{&x->answer, sizeof x->answer}, x->in};
    struct msghdr message = {.msg_iov = parts, .msg_iovlen = 2, .msg_control = room, .msg_controllen = sizeof room};
    struct call stop = {.what = CALL_STOP};
    struct timespec since = {0};
    int may_wait = x->call.may_wait, connection = it->descriptor;
    ssize_t got;
    if (may_wait)
        limit_wait(connection, 0);
    while ((got = REAL(syscall)(SYS_recvmsg, connection, &message, MSG_CMSG_CLOEXEC)) < 0) {
        int error = errno;
        if (error != EINTR || !is_still(it) || (!may_wait && is_late(&since)))
            return error == EINTR ? ENODEV : error;
        if (may_wait) {
            limit_wait(connection, MOST_SECONDS);
            send(connection, &stop, sizeof stop, MSG_NOSIGNAL);
        }
        may_wait = 0;
    }
    if (may_wait && is_still(it))
        limit_wait(connection, MOST_SECONDS);
    int descriptors = take_descriptors(x, &message);
    x->got = got < (ssize_t)sizeof x->answer ? 0 : got - sizeof x->answer;
    if (got >= (ssize_t)sizeof x->answer && is_right(x, &message, x->got, descriptors))
        return 0;
    if (descriptors)
        close(x->passed);
    x->passed = -1;
    x->got = 0;
    if (!got)
        return UNSENT; /* it was closed before it was answered */
    int is_full = x->is_passing && !descriptors && message.msg_flags & MSG_CTRUNC; /* the program's table of descriptors */
    return is_full ? EMFILE : ENODEV;
}

/* Sends a call and receives its answer. */
static int call_over(const struct own *it, struct exchange *x) {
    int error = send_call(it->descriptor, x);
    switch (error) {
    case 0:
        error = receive_answer(it, x);
        return error == UNSENT ? ENODEV : error; /* it may have been done */
    case EPIPE: /* a daemon that has too many connections answers before it is asked */
        return receive_answer(it, x) ? UNSENT : 0;
    case EBADF:
    case ENOTSOCK:
    case ENOTCONN:
    case ECONNRESET:
        return UNSENT;
    default:
        return error;
    }
}

/* Makes the call over a connection, and what follows from its answer, over another one where that is gone by then. */
static int make_call(const struct own *it, int handle, struct exchange *x) {
    int error = call_over(it, x);
    if ((error && error != EFAULT) || !x->answer.is_stale)
        return error;
    struct exchange taken = {.call = {.what = CALL_TAKEN, .handle = x->call.handle}, .passed = -1};
    taken.call.number = empty_handle(handle, x->call.handle);
    int is_lost = !is_still(it) || call_over(it, &taken);
    return is_lost && (handle < 0 || exchange(-1, &taken)) ? ENODEV : error;
}

int exchange(int handle, struct exchange *x) {
    int state, before = errno, error = UNSENT;
    x->passed = -1;
    x->got = 0;
    memset(&x->answer, 0, sizeof x->answer);
    /* an ioctl of a kernel is no place where a thread is cancelled */
    pthread_setcancelstate(PTHREAD_CANCEL_DISABLE, &state);
    for (int tries = 0; error == UNSENT && tries < 4; tries++) {
        struct own it;
        error = take_connection(&it);
        if (error)
            break;
        error = make_call(&it, handle, x);
        if (!error || error == EFAULT)
            give_back(&it); /* a packet whose payload has nowhere to go is taken, too */
        else
            close_own(&it);
    }
    if (error && error != EFAULT && error != EMFILE && error != ENFILE && error != ENOMEM)
        error = ENODEV;
    if (error && x->passed >= 0)
        close(x->passed); /* it came, but the daemon couldn't be told what it wanted to hear */
    pthread_setcancelstate(state, 0);
    errno = before;
    return error ? error : (int)x->answer.error;
}
