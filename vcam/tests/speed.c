/* How long a G_CTRL takes, beside a bare round trip of as many bytes through as many processes and sockets of the same kinds, which do
 * nothing with them. Medians, in nanoseconds. usage: speed ROUNDS */
#include "client.h"
#include "../wire.h"
#include <signal.h>
#include <sys/socket.h>
#include <time.h>

/* The bytes of a G_CTRL: to the daemon, to the device, and back from each. */
enum { TO_DAEMON = sizeof(struct call) + 8, TO_DEVICE = 28, FROM_DEVICE = 28, FROM_DAEMON = sizeof(struct answer) + 8 };

static int compare(const void *a, const void *b) {
    const long *first = a, *second = b;
    return (*first > *second) - (*first < *second);
}

static long now(void) {
    struct timespec it;
    clock_gettime(CLOCK_MONOTONIC, &it);
    return it.tv_sec * 1000000000L + it.tv_nsec;
}

static int bare, video;
static struct v4l2_control control;
static char bytes[256];

static void bare_trip(void) {
    CHECK(send(bare, bytes, TO_DAEMON, 0) == TO_DAEMON && recv(bare, bytes, sizeof bytes, 0) == FROM_DAEMON);
}

static void get_control(void) {
    CHECK(!ioctl(video, VIDIOC_G_CTRL, &control));
}

static long median(void (*call)(void), long *times, int rounds) {
    for (int i = 0; i < rounds; i++) {
        long before = now();
        call();
        times[i] = now() - before;
    }
    qsort(times, rounds, sizeof *times, compare);
    return times[rounds / 2];
}

/* Passes on what comes, for ever: from one side to the other, and what comes back. */
static void relay(int near, int far) {
    while (recv(near, bytes, sizeof bytes, 0) > 0)
        if (send(far, bytes, TO_DEVICE, 0) < 0 || recv(far, bytes, sizeof bytes, 0) <= 0 || send(near, bytes, FROM_DAEMON, 0) < 0)
            break;
    _exit(0);
}

static void echo(int near) {
    while (recv(near, bytes, sizeof bytes, 0) > 0 && send(near, bytes, FROM_DEVICE, 0) > 0)
        ;
    _exit(0);
}

int main(int count, char **given) {
    int rounds = count > 1 ? atoi(given[1]) : 20000, near[2], far[2];
    long *times = malloc(rounds * sizeof *times);
    CHECK(times && !socketpair(AF_UNIX, SOCK_SEQPACKET, 0, near) && !socketpair(AF_UNIX, SOCK_STREAM, 0, far));
    pid_t device = fork();
    if (device == 0)
        echo(far[1]);
    pid_t daemon = fork();
    if (daemon == 0)
        relay(near[1], far[0]);
    bare = near[0];
    video = open(VIDEO_PATH, O_RDWR);
    find_controls(video);
    control.id = plain_control()->id;
    median(bare_trip, times, rounds / 10);
    median(get_control, times, rounds / 10);
    long trip = median(bare_trip, times, rounds), get = median(get_control, times, rounds);
    kill(daemon, SIGKILL);
    kill(device, SIGKILL);
    printf("G_CTRL %ld, a bare round trip %ld, %.2f of it; %d failed\n", get, trip, (double)get / trip, failed);
    return failed != 0;
}
