/* Messages of every wrong kind at the camera's socket: bytes by chance, halves of packets, answers that nobody reads, connections
 * that do nothing, processes killed in mid call. Meanwhile a program goes on with its calls, and each of them has to return soon.
 * usage: hostile SEED MESSAGES */
#include "client.h"
#include "../wire.h"
#include <signal.h>
#include <stddef.h>
#include <sys/socket.h>
#include <sys/un.h>
#include <sys/wait.h>
#include <time.h>

static struct {
    struct call call;
    unsigned char payload[MOST_PAYLOAD + 4096];
} packet;

static int call_connection(void) {
    struct sockaddr_un address = {.sun_family = AF_UNIX};
    int descriptor = socket(AF_UNIX, SOCK_SEQPACKET | SOCK_CLOEXEC, 0);
    snprintf(address.sun_path, sizeof address.sun_path, "%s/calls", getenv("VCAM_DIR"));
    if (connect(descriptor, (struct sockaddr *)&address, sizeof address)) {
        close(descriptor);
        return -1;
    }
    struct timeval soon = {20, 0}; /* the daemon answers within this, or the test fails */
    setsockopt(descriptor, SOL_SOCKET, SO_RCVTIMEO, &soon, sizeof soon);
    setsockopt(descriptor, SOL_SOCKET, SO_SNDTIMEO, &soon, sizeof soon);
    return descriptor;
}

/* Opens a handle of a kind over a connection: its descriptor and its number, or -1 and the errno. */
static int raw_open(int calls, uint32_t kind, uint32_t *number) {
    char room[CMSG_SPACE(sizeof(int))];
    struct call call = {.what = CALL_OPEN, .number = kind};
    struct answer answer = {0};
    struct iovec part = {&answer, sizeof answer};
    struct msghdr message = {.msg_iov = &part, .msg_iovlen = 1, .msg_control = room, .msg_controllen = sizeof room};
    uint64_t mark = 0;
    socklen_t size = sizeof mark;
    int descriptor = -1;
    send(calls, &call, sizeof call, MSG_NOSIGNAL);
    CHECK(recvmsg(calls, &message, MSG_CMSG_CLOEXEC) == sizeof answer);
    *number = answer.error;
    if (answer.error || !CMSG_FIRSTHDR(&message))
        return -1;
    memcpy(&descriptor, CMSG_DATA(CMSG_FIRSTHDR(&message)), sizeof descriptor);
    CHECK(!getsockopt(descriptor, SOL_SOCKET, SO_MAX_PACING_RATE, &mark, &size) && IS_MARK(mark) && KIND_OF_MARK(mark) == (int)kind);
    *number = mark;
    return descriptor;
}

/* Another handle, of a kind that there is or of another one. */
static int some_handle(int calls, uint32_t *number) {
    static const uint32_t kinds[] = {VIDEO, MEDIA, REQUEST, 0, 'q', ~0u};
    return raw_open(calls, dice(4) ? VIDEO : kinds[dice(6)], number);
}

static void fill_packet(uint32_t handle) {
    static const uint32_t numbers[] = {
        VIDIOC_QUERYCAP, VIDIOC_S_CTRL,  VIDIOC_G_EXT_CTRLS,     VIDIOC_S_EXT_CTRLS, VIDIOC_QBUF,      VIDIOC_DQBUF,
        VIDIOC_REQBUFS,  VIDIOC_DQEVENT, VIDIOC_SUBSCRIBE_EVENT, VIDIOC_STREAMON,    VIDIOC_STREAMOFF, VIDIOC_VCAM_FORECAST,
        VIDIOC_EXPBUF};
    packet.call = (struct call){.what = dice(5) ? CALL_IOCTL : dice(8), .number = numbers[dice(13)], .may_wait = dice(2)};
    if (!dice(6))
        packet.call.number = dice(~0u);
    packet.call.handle = dice(8) ? handle : dice(~0u);
    packet.call.request = dice(3) ? 0 : dice(2) ? handle : dice(~0u);
    for (int i = 0; i < 400; i++)
        packet.payload[i] = dice(4) ? 0 : dice(256);
}

static unsigned some_size(void) {
    switch (dice(5)) {
    case 0:
        return dice(sizeof packet.call); /* half a head */
    case 1:
        return dice(sizeof packet);
    default:
        return sizeof packet.call + dice(300);
    }
}

/* Packets over one connection, some of whose answers are read; how many were sent. */
static int send_packets(int calls, uint32_t handle) {
    static unsigned char answer[MOST_PAYLOAD + 64];
    int sent = 0, count = 1 + dice(8), reads = dice(3);
    for (int i = 0; i < count; i++, sent++) {
        fill_packet(handle);
        if (send(calls, &packet, some_size(), MSG_NOSIGNAL) < 0)
            break; /* the daemon has closed it */
        int is_answered = packet.call.what != CALL_STOP && !(packet.call.may_wait && packet.call.what == CALL_IOCTL);
        if (reads && is_answered)
            CHECK(recv(calls, answer, sizeof answer, 0) >= 0 || errno == ECONNRESET);
    }
    return sent;
}

/* A packet with a descriptor, which nobody has asked for. */
static void send_descriptor(int calls) {
    char space[CMSG_SPACE(sizeof(int))] = {0};
    struct iovec part = {&packet, sizeof packet.call};
    struct msghdr message = {.msg_iov = &part, .msg_iovlen = 1, .msg_control = space, .msg_controllen = sizeof space};
    struct cmsghdr *head = CMSG_FIRSTHDR(&message);
    *head = (struct cmsghdr){.cmsg_len = CMSG_LEN(sizeof(int)), .cmsg_level = SOL_SOCKET, .cmsg_type = SCM_RIGHTS};
    memcpy(CMSG_DATA(head), &calls, sizeof(int));
    sendmsg(calls, &message, MSG_NOSIGNAL);
}

/* A round of wrong doings; how many messages it was. */
static int attack(void) {
    uint32_t number;
    int calls = call_connection(), handle = some_handle(calls, &number), sent = 0;
    if (dice(3) == 0)
        sent += send(handle, packet.payload, dice(5000), MSG_NOSIGNAL | MSG_DONTWAIT) >= 0;
    if (dice(6) == 0)
        shutdown(dice(2) ? handle : calls, dice(3));
    sent += send_packets(calls, number);
    if (dice(10) == 0)
        send_descriptor(calls);
    if (dice(2)) { /* the handle goes first, or the connection */
        close(handle);
        handle = -1;
    }
    close(calls);
    if (handle >= 0)
        close(handle);
    return sent + 1;
}

/* More connections than the daemon takes: those above its limit are told so, and the others stand. */
static void check_limits(void) {
    static int many[1100];
    struct answer refused = {0};
    uint32_t number;
    int handles = 0, calls = 0, opener = call_connection();
    for (int i = 0; i < 550; i++) {
        many[i] = raw_open(opener, VIDEO, &number);
        handles += many[i] < 0 && number == ENFILE;
    }
    for (int i = 550; i < 1100; i++) {
        many[i] = call_connection();
        packet.call = (struct call){.what = CALL_IOCTL, .number = VIDIOC_QUERYCAP};
        send(many[i], &packet, sizeof packet.call, MSG_NOSIGNAL);
        if (recv(many[i], &refused, sizeof refused, 0) == sizeof refused && refused.error == ENFILE)
            calls++;
    }
    CHECK(handles > 0 && calls > 0);
    for (int i = 0; i < 1100; i++)
        close(many[i]);
    close(opener);
}

/* A process that is killed while it waits. */
static void kill_in_call(void) {
    pid_t child = fork();
    if (child == 0) {
        struct v4l2_event event;
        struct v4l2_capability capability;
        int video = open(VIDEO_PATH, O_RDWR);
        for (int i = dice(20); i; i--)
            ioctl(video, VIDIOC_QUERYCAP, &capability);
        ioctl(video, VIDIOC_DQEVENT, &event);
        _exit(0);
    }
    usleep(dice(3000));
    kill(child, SIGKILL);
    waitpid(child, 0, 0);
}

/* The program that nobody may hinder: it goes on until the pipe ends; how much failed. */
static int go_on(int end) {
    int video = open(VIDEO_PATH, O_RDWR | O_NONBLOCK), calls = 0;
    find_controls(video);
    const struct v4l2_query_ext_ctrl *control = plain_control();
    while (!polled(end, POLLIN, 0)) {
        struct timespec before, after;
        struct v4l2_control it = {control->id, (int)control->minimum + calls++ % 2};
        clock_gettime(CLOCK_MONOTONIC, &before);
        CHECK(!ioctl(video, VIDIOC_S_CTRL, &it) || errno == EBUSY); /* another one's priority may be higher */
        CHECK(!ioctl(video, VIDIOC_G_CTRL, &it));
        clock_gettime(CLOCK_MONOTONIC, &after);
        CHECK(after.tv_sec - before.tv_sec < 10);
        usleep(500);
    }
    CHECK(calls > 0);
    return failed;
}

int main(int count, char **given) {
    int pair[2], status, messages = count > 2 ? atoi(given[2]) : 20000;
    dice_state = count > 1 ? strtoull(given[1], 0, 0) : 1;
    CHECK(!pipe2(pair, O_CLOEXEC));
    pid_t child = fork();
    if (child == 0) {
        close(pair[1]);
        _exit(go_on(pair[0]) != 0);
    }
    usleep(100000);
    for (int sent = 0, round = 0; sent < messages; round++) {
        sent += attack();
        if (round % 100 == 0)
            kill_in_call();
    }
    check_limits();
    close(pair[1]);
    CHECK(waitpid(child, &status, 0) == child && WIFEXITED(status) && WEXITSTATUS(status) == 0);
    struct v4l2_capability capability;
    int video = open(VIDEO_PATH, O_RDWR);
    CHECK(video >= 0 && !ioctl(video, VIDIOC_QUERYCAP, &capability));
    printf("%d messages, %d failed\n", messages, failed);
    return failed != 0;
}
