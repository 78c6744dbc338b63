/* A program that stays while its camera is killed and another one takes its place, as it is told by a line on its standard input. */
#include "client.h"

static void say_and_wait(const char *what) {
    char line[16];
    puts(what);
    fflush(stdout);
    CHECK(fgets(line, sizeof line, stdin));
}

int main(void) {
    struct v4l2_capability capability;
    int video = open(VIDEO_PATH, O_RDWR);
    CHECK(video >= 0 && !ioctl(video, VIDIOC_QUERYCAP, &capability));
    say_and_wait("open"); /* it is killed */
    CHECK(polled(video, POLLPRI, 1000) & POLLHUP);
    REFUSED(ioctl(video, VIDIOC_QUERYCAP, &capability), ENODEV);
    REFUSED(open(VIDEO_PATH, O_RDWR), ENODEV);
    say_and_wait("gone"); /* there is another one */
    REFUSED(ioctl(video, VIDIOC_QUERYCAP, &capability), ENODEV);
    int now = open(VIDEO_PATH, O_RDWR);
    CHECK(now >= 0 && !ioctl(now, VIDIOC_QUERYCAP, &capability));
    say_and_wait("open again"); /* there is yet another one, while a connection to the last waits for the next call */
    int last = open(VIDEO_PATH, O_RDWR);
    CHECK(last >= 0 && !ioctl(last, VIDIOC_QUERYCAP, &capability));
    REFUSED(ioctl(now, VIDIOC_QUERYCAP, &capability), ENODEV);
    return report();
}
