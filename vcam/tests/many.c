/* Eight processes at once, each with handles of its own: they set, get, subscribe and take events. */
#include "client.h"
#include <sys/wait.h>
#define PROCESSES 8
#define ROUNDS 400

/* One process; how much failed. */
static int run(int number) {
    int video = open(VIDEO_PATH, O_RDWR | O_NONBLOCK), events = 0;
    struct v4l2_event event;
    dice_state = number + 1;
    find_controls(video);
    const struct v4l2_query_ext_ctrl *control = plain_control();
    CHECK(!subscribe(video, control->id, V4L2_EVENT_SUB_FL_ALLOW_FEEDBACK));
    for (int i = 0; i < ROUNDS; i++) {
        unsigned range = control->maximum - control->minimum + 1;
        struct v4l2_control it = {control->id, (int)control->minimum + (int)dice(range)};
        CHECK(!ioctl(video, VIDIOC_S_CTRL, &it));
        CHECK(!ioctl(video, VIDIOC_G_CTRL, &it) && it.value >= control->minimum && it.value <= control->maximum);
        if (i % 10 == 0 && polled(video, POLLPRI, 0) & POLLPRI)
            events += !ioctl(video, VIDIOC_DQEVENT, &event);
    }
    CHECK(events > 0);
    CHECK(!close(video));
    return failed;
}

int main(void) {
    int status, bad = 0;
    for (int i = 0; i < PROCESSES; i++)
        if (fork() == 0)
            _exit(run(i) != 0);
    for (int i = 0; i < PROCESSES; i++) {
        wait(&status);
        bad += !WIFEXITED(status) || WEXITSTATUS(status);
    }
    printf("%d processes, %d failed\n", PROCESSES, bad);
    return bad != 0;
}
