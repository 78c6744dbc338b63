/* What poll, select and epoll say of a camera: POLLIN for frames alone, POLLPRI for events and complete requests alone, and nothing
 * else. Where the camera has no loopback, POLLPRI comes with POLLIN. usage: ready [--unix] */
#include "client.h"
#include <pthread.h>
#include <sys/epoll.h>
#include <sys/select.h>

#define ALL (POLLIN | POLLPRI | POLLOUT | POLLRDBAND | POLLRDHUP)
static int is_unix;

/* What the three say within a moment, in terms of poll; -1 where they don't agree. */
static int said(int descriptor) {
    struct epoll_event asked = {.events = EPOLLIN | EPOLLPRI | EPOLLOUT | EPOLLRDHUP}, got = {0};
    struct timeval moment = {0, 100000};
    fd_set sets[3];
    int by_poll = polled(descriptor, ALL, 100), by_select = 0, epoll = epoll_create1(EPOLL_CLOEXEC);
    CHECK(!epoll_ctl(epoll, EPOLL_CTL_ADD, descriptor, &asked));
    int by_epoll = epoll_wait(epoll, &got, 1, 100) == 1 ? (int)got.events : 0; /* the numbers are those of poll */
    close(epoll);
    for (int i = 0; i < 3; i++) {
        FD_ZERO(&sets[i]);
        FD_SET(descriptor, &sets[i]);
    }
    CHECK(select(descriptor + 1, &sets[0], &sets[1], &sets[2], &moment) >= 0);
    for (int i = 0; i < 3; i++)
        by_select |= FD_ISSET(descriptor, &sets[i]) ? (int[]){POLLIN, POLLOUT, POLLPRI}[i] : 0;
    return by_poll == by_select && by_poll == by_epoll ? by_poll : -1;
}

/* With the byte of an event a pair of unix is POLLIN, too. */
static int with_event(int others) {
    return others | POLLPRI | (is_unix ? POLLIN : 0);
}

static int take_event(int video) {
    struct v4l2_event event;
    return ioctl(video, VIDIOC_DQEVENT, &event);
}

static int queue_all(int video) {
    return queue_buffer(video, 0, -1) || queue_buffer(video, 1, -1);
}

/* Frames and events beside each other, each taken first once. */
static void check_both(int video, int other, const struct v4l2_query_ext_ctrl *control) {
    struct v4l2_buffer buffer;
    CHECK(!queue_all(video) && !stream(video, 1));
    CHECK(polled(video, POLLIN, 2000) == POLLIN);
    usleep(200000);               /* now both buffers have their frames, and no more come */
    CHECK(said(video) == POLLIN); /* frames alone */
    CHECK(!set_control(other, control->id, control->maximum));
    CHECK(said(video) == with_event(POLLIN)); /* both */
    CHECK(!take_event(video));
    CHECK(said(video) == POLLIN);
    CHECK(!set_control(other, control->id, control->minimum));
    CHECK(said(video) == with_event(POLLIN));
    CHECK(!take_buffer(video, &buffer));
    CHECK(said(video) == with_event(POLLIN));
    CHECK(!take_buffer(video, &buffer));
    CHECK(said(video) == with_event(0)); /* an event alone, while the stream runs */
    CHECK(!queue_all(video) && polled(video, POLLIN, 2000) & POLLIN);
    CHECK(!stream(video, 0));
    CHECK(said(video) == with_event(0)); /* its frames went with the stream */
    CHECK(!take_event(video));
    CHECK(said(video) == 0);
}

/* Many events in a row: each is there when the call has returned that raised it. */
static void check_each(int video, int other, const struct v4l2_query_ext_ctrl *control) {
    int at_once = 0;
    for (int i = 0; i < 1000; i++) {
        CHECK(!set_control(other, control->id, i % 2 ? control->minimum : control->maximum));
        at_once += polled(video, POLLPRI, 0) == POLLPRI;
        CHECK(polled(video, POLLPRI, 1000) == POLLPRI);
        CHECK(!take_event(video));
        CHECK(!polled(video, POLLPRI, 0));
    }
    CHECK(at_once >= 990); /* a loopback that is busy may take a moment */
}

static int closed;
static void *wait_on_closed(void *result) {
    struct v4l2_buffer buffer;
    *(int *)result = take_buffer(closed, &buffer);
    return 0;
}

/* A descriptor is closed while a call on it waits, and a copy of it stays: what the call took isn't left there. */
static void check_closed(int video) {
    struct v4l2_buffer buffer;
    pthread_t thread;
    int result = -1;
    closed = dup(video);
    CHECK(!queue_all(video) && !stream(video, 1) && !pthread_create(&thread, 0, wait_on_closed, &result));
    usleep(5000);
    CHECK(!close(closed) && !pthread_join(thread, 0));
    CHECK(!result || !take_buffer(video, &buffer)); /* it may have been closed before the call began */
    CHECK(!take_buffer(video, &buffer));
    fcntl(video, F_SETFL, O_RDWR | O_NONBLOCK);
    REFUSED(take_buffer(video, &buffer), EAGAIN);
    CHECK(said(video) == 0);
    fcntl(video, F_SETFL, O_RDWR);
    CHECK(!stream(video, 0) && said(video) == 0);
}

static void check_request(int video, int media) {
    struct v4l2_buffer buffer;
    int request;
    CHECK(!ioctl(media, MEDIA_IOC_REQUEST_ALLOC, &request));
    for (int i = 0; i < 3; i++) {
        CHECK(said(request) == 0);
        CHECK(!queue_buffer(video, 0, request) && !ioctl(request, MEDIA_REQUEST_IOC_QUEUE) && !stream(video, 1));
        CHECK(polled(request, POLLPRI, 2000) == POLLPRI);
        CHECK(said(request) == with_event(0));
        CHECK(said(video) == POLLIN);
        CHECK(!take_buffer(video, &buffer) && said(video) == 0);
        CHECK(!ioctl(request, MEDIA_REQUEST_IOC_REINIT));
    }
    CHECK(!stream(video, 0) && !close(request));
}

int main(int count, char **given) {
    is_unix = count > 1 && !strcmp(given[1], "--unix");
    int video = open(VIDEO_PATH, O_RDWR), media = open(MEDIA_PATH, O_RDWR), other = open(VIDEO_PATH, O_RDWR);
    find_controls(other);
    const struct v4l2_query_ext_ctrl *control = plain_control();
    CHECK(said(video) == 0 && said(media) == 0 && said(other) == 0);
    CHECK(ask_buffers(video, 2) == 2);
    CHECK(!set_control(other, control->id, control->minimum));
    CHECK(!subscribe(video, control->id, 0) && said(video) == 0);
    CHECK(!set_control(other, control->id, control->maximum));
    CHECK(said(video) == with_event(0)); /* an event alone, where no stream runs */
    CHECK(!take_event(video) && said(video) == 0);
    CHECK(!set_control(other, control->id, control->minimum) && !take_event(video));
    check_both(video, other, control);
    check_each(video, other, control);
    check_closed(video);
    check_request(video, media);
    CHECK(said(other) == 0);
    return report();
}
