/* The making of frames: one is due each time that the timer goes off while the stream runs. */
#define _GNU_SOURCE
#include "frames.h"
#include <stdlib.h>
#include <sys/timerfd.h>
#include <time.h>
#include <unistd.h>

static int timer = -1;
static uint64_t interval; /* nanoseconds */

void frames_start(void) {
    const char *given = getenv("VCAM_FRAME_NANOSECONDS");
    interval = 1000000000 / format.rate;
    if (given && strtoull(given, 0, 10))
        interval = strtoull(given, 0, 10);
    timer = timerfd_create(CLOCK_MONOTONIC, TFD_CLOEXEC | TFD_NONBLOCK);
    if (timer < 0)
        fail("no timer");
}

int frame_timer(void) {
    return timer;
}

void run_frames(int on) {
    struct timespec each = {interval / 1000000000, interval % 1000000000};
    struct itimerspec when = {.it_interval = each, .it_value = each};
    struct itimerspec never = {0};
    timerfd_settime(timer, 0, on ? &when : &never, 0);
}

static struct frame frame_now(uint32_t request, uint32_t refused) {
    struct timespec now;
    clock_gettime(CLOCK_MONOTONIC, &now);
    return (struct frame){.request = request, .refused = refused, .time = {now.tv_sec, now.tv_nsec / 1000}};
}

/* The frame of the first request that is queued, if one is. Its picture is painted while it runs. */
static void make_request_frame(void) {
    if (ask(ASK_BEGIN, 0, 0, 0, 0, 0))
        return;
    uint32_t request = reply.x, buffer = reply.y, refused = reply.z;
    struct handle *handle = request_numbered(request);
    log_line("%s frame in buffer %u, refused clusters: %u", handle ? handle->name : "a closed request", buffer, refused);
    struct frame frame = frame_now(request, refused);
    if (is_queued_in(buffer, request))
        fill_buffer(buffer, &frame);
    ask(ASK_COMPLETE, 0, 0, 0, 0, 0);
    if (handle)
        tell_request(handle);
    free_orphans();
    news |= NEW_EVENTS;
}

/* A frame that finds no buffer is lost, and so are those that were due while this process was busy, as with the painting of one. They
 * are counted behind the frame that is made now, so that the first one of a stream is 0 however late it is. */
void frame_due(void) {
    uint64_t times;
    uint32_t buffer;
    /* the stream may have ended in the same turn */
    if (read(timer, &times, sizeof times) != sizeof times || !is_running())
        return;
    if (first_waiting(&buffer)) {
        struct frame frame = frame_now(NONE, 0);
        fill_buffer(buffer, &frame);
    } else if (holds_requests())
        make_request_frame();
    pass_frames(times);
}

void end_requests(void) {
    ask(ASK_STREAM_OFF, 0, 0, 0, 0, 0);
    EACH(it, handles)
        if (it->kind == REQUEST && !ask_number(ASK_STATE, it->number) && reply.x == 3)
            tell_request(it);
    free_orphans();
}
