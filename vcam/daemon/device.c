/* Messages to the proved device and its replies. */
#define _GNU_SOURCE
#include "device.h"
#include "daemon.h"
#include <errno.h>
#include <signal.h>
#include <stdio.h>
#include <stdlib.h>
#include <string.h>
#include <sys/prctl.h>
#include <sys/socket.h>
#include <sys/time.h>
#include <sys/uio.h>
#include <unistd.h>

struct reply reply;
static int device = -1;

void device_start(const char *program, const char *device_file) {
    int pair[2];
    pid_t daemon = getpid();
    if (socketpair(AF_UNIX, SOCK_STREAM | SOCK_CLOEXEC, 0, pair))
        fail("no socket pair for the device");
    pid_t child = fork();
    if (child < 0)
        fail("no process for the device");
    if (child == 0) {
        prctl(PR_SET_PDEATHSIG, SIGKILL);
        sigset_t none;
        sigemptyset(&none);
        sigprocmask(SIG_SETMASK, &none, 0);
        if (getppid() != daemon || dup2(pair[1], 0) < 0 || dup2(pair[1], 1) < 0)
            _exit(1);
        execl(program, program, device_file, (char *)0);
        fprintf(stderr, "%s: %s\n", program, strerror(errno));
        _exit(1);
    }
    close(pair[1]);
    device = pair[0];
    struct timeval often = {0, 200000};
    setsockopt(device, SOL_SOCKET, SO_RCVTIMEO, &often, sizeof often);
}

/* A device that ends before its first reply has said itself what is wrong with its file. */
static int has_replied;
static void fail_gone(void) {
    fail(has_replied ? "the device is gone" : 0);
}

static void send_whole(const unsigned char *bytes, size_t size) {
    for (size_t done = 0; done < size;) {
        ssize_t sent = send(device, bytes + done, size - done, MSG_NOSIGNAL);
        if (sent < 0 && errno != EINTR)
            fail_gone();
        done += sent < 0 ? 0 : sent;
    }
}

/* Reads a reply until it is whole; mostly one read brings it. */
static void receive_reply(void) {
    const size_t head = offsetof(struct reply, payload);
    size_t done = 0, size = head;
    while (done < size) {
        ssize_t got = read(device, (char *)&reply + done, sizeof reply - done);
        if (got == 0 || (got < 0 && errno != EINTR && errno != EAGAIN))
            fail_gone();
        if (got < 0)
            end_if_over(); /* the device's file may be one that never ends */
        done += got < 0 ? 0 : got;
        if (done >= head)
            size = sizeof reply.length + reply.length;
        if (size < head || size > sizeof reply)
            fail("the device answers what is no reply");
    }
    if (done > size)
        fail("the device answers more than a reply");
    reply.length -= head - sizeof reply.length;
    has_replied = 1;
}

uint32_t ask(uint32_t what, uint32_t a, uint32_t b, uint32_t c, const void *payload, uint32_t length) {
    static unsigned char message[20 + MOST_ASK];
    uint32_t head[5] = {16 + length, what, a, b, c};
    if (length > MOST_ASK) {
        reply = (struct reply){.error = EPROTO};
        return EPROTO;
    }
    memcpy(message, head, sizeof head);
    if (length)
        memcpy(message + sizeof head, payload, length);
    send_whole(message, sizeof head + length);
    receive_reply();
    return reply.error;
}
