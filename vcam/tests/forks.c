/* Handles outlive what the process does that opened them: dup, fork, exec and close are as a kernel has them.
 * usage: forks; forks DESCRIPTOR ID VALUE is itself behind exec */
#include "client.h"
#include <sys/wait.h>

static int ended(pid_t child) {
    int status;
    return waitpid(child, &status, 0) == child && WIFEXITED(status) ? WEXITSTATUS(status) : -1;
}

/* A program that was given a descriptor: it takes the event that waits, and sets the control. */
static int behind_exec(int descriptor, unsigned id, int value) {
    struct v4l2_event event;
    CHECK(polled(descriptor, POLLPRI, 0) & POLLPRI);
    CHECK(!ioctl(descriptor, VIDIOC_DQEVENT, &event) && event.id == id && event.u.ctrl.value == value);
    CHECK(!polled(descriptor, POLLIN | POLLPRI, 0));
    int other = open(VIDEO_PATH, O_RDWR); /* this program counts its handles from 0 again */
    CHECK(other >= 0 && !set_control(other, id, value));
    return failed;
}

/* Calls in a child and in its parent at the same time, each of which has its own answers. */
static void call_in_both(int descriptor, unsigned id) {
    struct v4l2_capability capability;
    struct v4l2_control control = {.id = id};
    pid_t child = fork();
    for (int i = 0; i < 2000; i++)
        CHECK(child ? !ioctl(descriptor, VIDIOC_QUERYCAP, &capability) : !ioctl(descriptor, VIDIOC_G_CTRL, &control));
    if (child == 0)
        _exit(failed != 0);
    CHECK(ended(child) == 0);
}

int main(int count, char **given) {
    char words[3][16];
    struct v4l2_event event;
    if (count == 4)
        return behind_exec(atoi(given[1]), strtoul(given[2], 0, 0), atoi(given[3]));
    int video = open(VIDEO_PATH, O_RDWR), other = open(VIDEO_PATH, O_RDWR | O_CLOEXEC);
    find_controls(video);
    const struct v4l2_query_ext_ctrl *control = plain_control();
    CHECK(!set_control(other, control->id, control->minimum));
    int copy = dup(video);
    CHECK(!subscribe(copy, control->id, 0));
    CHECK(!close(video));
    struct v4l2_control changed = {control->id, (int)control->maximum};
    CHECK(!ioctl(other, VIDIOC_S_CTRL, &changed)); /* to a value that it says */
    CHECK(polled(copy, POLLPRI, 0) & POLLPRI);
    snprintf(words[0], sizeof words[0], "%d", copy);
    snprintf(words[1], sizeof words[1], "%u", control->id);
    snprintf(words[2], sizeof words[2], "%d", changed.value);
    pid_t child = fork();
    if (child == 0) {
        execl("/proc/self/exe", given[0], words[0], words[1], words[2], (char *)0);
        _exit(99);
    }
    CHECK(ended(child) == 0);
    CHECK(!polled(copy, POLLPRI, 0)); /* the child took it */
    call_in_both(copy, control->id);
    CHECK(!set_control(other, control->id, control->minimum));
    CHECK(!ioctl(copy, VIDIOC_DQEVENT, &event) && event.u.ctrl.value == control->minimum);
    struct v4l2_capability capability;
    REFUSED(ioctl(video, VIDIOC_QUERYCAP, &capability), EBADF);
    return report();
}
