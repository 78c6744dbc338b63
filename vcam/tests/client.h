/* What the clients of the tests share: checks, dice, and the controls of the camera. */
#ifndef CLIENT_H
#define CLIENT_H
#define _GNU_SOURCE
#include "../vcam.h"
#include <errno.h>
#include <fcntl.h>
#include <linux/media.h>
#include <poll.h>
#include <stdint.h>
#include <stdio.h>
#include <stdlib.h>
#include <string.h>
#include <sys/ioctl.h>
#include <sys/mman.h>
#include <unistd.h>

#define VIDEO_PATH "/dev/video0"
#define MEDIA_PATH "/dev/media0"
#define CAPTURE V4L2_BUF_TYPE_VIDEO_CAPTURE

/* Says what doesn't hold, and counts it. */
static int checked, failed;
#define CHECK(condition)                                                                                                         \
    do {                                                                                                                         \
        checked++;                                                                                                               \
        if (!(condition)) {                                                                                                      \
            failed++;                                                                                                            \
            printf("line %d: %s: not so (errno %d)\n", __LINE__, #condition, errno);                                             \
        }                                                                                                                        \
    } while (0)
/* That a call is refused with an errno. */
#define REFUSED(call, error) CHECK((errno = 0, (long)(call) == -1) && errno == (error))

__attribute__((unused)) static int report(void) {
    printf("%d checks, %d failed\n", checked, failed);
    return failed != 0;
}

static uint64_t dice_state = 1;
/* A number below n. */
__attribute__((unused)) static unsigned dice(unsigned n) {
    dice_state = dice_state * 6364136223846793005u + 1442695040888963407u;
    return n ? (unsigned)(dice_state >> 33) % n : 0;
}

/* The controls that can be got and set, class headings and buttons apart. */
static struct v4l2_query_ext_ctrl controls[VCAM_MOST_CONTROLS];
static int control_count;
__attribute__((unused)) static void find_controls(int video) {
    const unsigned next = V4L2_CTRL_FLAG_NEXT_CTRL | V4L2_CTRL_FLAG_NEXT_COMPOUND;
    struct v4l2_query_ext_ctrl query = {.id = next};
    while (control_count < VCAM_MOST_CONTROLS && !ioctl(video, VIDIOC_QUERY_EXT_CTRL, &query)) {
        if (!(query.flags & (V4L2_CTRL_FLAG_READ_ONLY | V4L2_CTRL_FLAG_WRITE_ONLY)) && query.type != V4L2_CTRL_TYPE_BUTTON)
            controls[control_count++] = query;
        query.id |= next;
    }
}

__attribute__((unused)) static int has_payload(const struct v4l2_query_ext_ctrl *control) {
    return (control->flags & V4L2_CTRL_FLAG_HAS_PAYLOAD) != 0;
}

/* The first control that is a plain number with more than one value. */
__attribute__((unused)) static const struct v4l2_query_ext_ctrl *plain_control(void) {
    for (int i = 0; i < control_count; i++) {
        const struct v4l2_query_ext_ctrl *it = &controls[i];
        int is_free = !(it->flags & (V4L2_CTRL_FLAG_GRABBED | V4L2_CTRL_FLAG_INACTIVE | V4L2_CTRL_FLAG_UPDATE));
        if (is_free && it->type == V4L2_CTRL_TYPE_INTEGER && it->maximum > it->minimum)
            return it;
    }
    puts("there is no plain control");
    exit(1);
}

/* Sets or gets one control, in a request or (-1) outside of one; the bytes of an array lie in `bytes`. */
__attribute__((unused)) static int list_call(int video, unsigned long number, int request, struct v4l2_ext_control *entry) {
    struct v4l2_ext_controls list = {.count = 1, .controls = entry};
    if (request >= 0) {
        list.which = V4L2_CTRL_WHICH_REQUEST_VAL;
        list.request_fd = request;
    }
    return ioctl(video, number, &list);
}

__attribute__((unused)) static int ask_buffers(int video, unsigned count) {
    struct v4l2_requestbuffers it = {.count = count, .type = CAPTURE, .memory = V4L2_MEMORY_MMAP};
    return ioctl(video, VIDIOC_REQBUFS, &it) ? -1 : (int)it.count;
}

/* Queues a buffer, in a request or (-1) alone. */
__attribute__((unused)) static int queue_buffer(int video, unsigned index, int request) {
    struct v4l2_buffer it = {.index = index, .type = CAPTURE, .memory = V4L2_MEMORY_MMAP};
    if (request >= 0) {
        it.flags = V4L2_BUF_FLAG_REQUEST_FD;
        it.request_fd = request;
    }
    return ioctl(video, VIDIOC_QBUF, &it);
}

__attribute__((unused)) static int take_buffer(int video, struct v4l2_buffer *it) {
    *it = (struct v4l2_buffer){.type = CAPTURE, .memory = V4L2_MEMORY_MMAP};
    return ioctl(video, VIDIOC_DQBUF, it);
}

__attribute__((unused)) static int stream(int video, int on) {
    int type = CAPTURE;
    return ioctl(video, on ? VIDIOC_STREAMON : VIDIOC_STREAMOFF, &type);
}

__attribute__((unused)) static void *map_buffer(int video, unsigned index) {
    struct v4l2_buffer it = {.index = index, .type = CAPTURE, .memory = V4L2_MEMORY_MMAP};
    if (ioctl(video, VIDIOC_QUERYBUF, &it))
        return MAP_FAILED;
    return mmap(0, it.length, PROT_READ | PROT_WRITE, MAP_SHARED, video, it.m.offset);
}

/* What poll says of a descriptor within so many milliseconds. */
__attribute__((unused)) static int polled(int descriptor, int events, int milliseconds) {
    struct pollfd it = {descriptor, events, 0};
    return poll(&it, 1, milliseconds) == 1 ? it.revents : 0;
}

__attribute__((unused)) static int subscribe(int video, unsigned id, unsigned flags) {
    struct v4l2_event_subscription it = {.type = V4L2_EVENT_CTRL, .id = id, .flags = flags};
    return ioctl(video, VIDIOC_SUBSCRIBE_EVENT, &it);
}

__attribute__((unused)) static int set_control(int video, unsigned id, int value) {
    struct v4l2_control it = {id, value};
    return ioctl(video, VIDIOC_S_CTRL, &it) ? -1 : 0;
}
#endif
