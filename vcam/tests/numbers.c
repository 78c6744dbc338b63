/* The numbers of a file handle's events go on as long as it is open: behind the end of its subscriptions, one by one or all at once,
 * behind a device that is begun anew, and where more handles have subscribed than the device has.
 * usage: numbers; numbers --anew, where the device is begun anew above some 1,000 steps */
#include "client.h"

static int video, other;
static const struct v4l2_query_ext_ctrl *control;
static unsigned next_number;

static int unsubscribe(int handle, unsigned type, unsigned id) {
    struct v4l2_event_subscription it = {.type = type, .id = id};
    return ioctl(handle, VIDIOC_UNSUBSCRIBE_EVENT, &it);
}

/* Subscribes, and makes and takes so many events, whose numbers go on from those before. */
static void count_events(int count) {
    struct v4l2_event event;
    CHECK(!subscribe(video, control->id, 0));
    for (int i = 0; i < count; i++) {
        CHECK(!set_control(other, control->id, control->minimum) && !set_control(other, control->id, control->maximum));
        CHECK(!ioctl(video, VIDIOC_DQEVENT, &event));
        next_number += 2; /* two changes, which are one event with the number of the second */
        CHECK(event.sequence == next_number - 1);
    }
}

/* More handles than a device has: each gets events while it has subscribed, and its numbers go on. */
static void check_many(void) {
    enum { MANY = 100 };
    int many[MANY];
    struct v4l2_event event;
    for (int i = 0; i < MANY; i++)
        many[i] = open(VIDEO_PATH, O_RDWR | O_NONBLOCK);
    for (int round = 0; round < 2; round++)
        for (int i = 0; i < MANY; i++) {
            CHECK(!set_control(other, control->id, control->minimum));
            CHECK(!subscribe(many[i], control->id, 0));
            CHECK(!set_control(other, control->id, control->maximum));
            CHECK(!ioctl(many[i], VIDIOC_DQEVENT, &event) && event.sequence == (unsigned)round);
            CHECK(!unsubscribe(many[i], round ? V4L2_EVENT_ALL : V4L2_EVENT_CTRL, round ? 0 : control->id));
        }
    int refused = 0;
    for (int i = 0; i < MANY; i++)
        refused += subscribe(many[i], control->id, 0) != 0;
    CHECK(refused > MANY - 64 && refused < MANY - 60);
    for (int i = 0; i < MANY; i++)
        CHECK(!close(many[i]));
}

int main(int count, char **given) {
    int is_anew = count > 1 && !strcmp(given[1], "--anew");
    video = open(VIDEO_PATH, O_RDWR | O_NONBLOCK);
    other = open(VIDEO_PATH, O_RDWR);
    find_controls(other);
    control = plain_control();
    CHECK(!set_control(other, control->id, control->maximum));
    count_events(3);
    CHECK(!unsubscribe(video, V4L2_EVENT_ALL, 0));
    count_events(2);
    CHECK(!unsubscribe(video, V4L2_EVENT_CTRL, control->id));
    count_events(2);
    CHECK(!unsubscribe(video, V4L2_EVENT_ALL, 0));
    for (int round = 0; is_anew && round < 3; round++) {
        for (int i = 0; i < 2500; i++)
            CHECK(!set_control(other, control->id, i % 2 ? control->maximum : control->minimum));
        count_events(2);
        CHECK(!unsubscribe(video, V4L2_EVENT_ALL, 0));
    }
    if (!is_anew)
        check_many();
    return report();
}
