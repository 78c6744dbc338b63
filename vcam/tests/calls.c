/* What a kernel answers whatever the driver is: pointers to nothing, calls that wait, signals, poll, priorities, owners. */
#include "client.h"
#include <pthread.h>
#include <signal.h>
#include <sys/select.h>
#include <sys/stat.h>
#include <sys/syscall.h>
#include <sys/time.h>
#include <sys/wait.h>

static int video, other;
static const struct v4l2_query_ext_ctrl *control;
static void *const nowhere = (void *)0x10;

static void check_pointers(void) {
    struct v4l2_ext_control entry = {.id = control->id, .size = 8, .ptr = nowhere};
    struct v4l2_ext_controls list = {.count = 1, .controls = nowhere};
    unsigned char bytes[64];
    REFUSED(ioctl(video, VIDIOC_QUERYCAP, 0), EFAULT);
    REFUSED(ioctl(video, VIDIOC_S_CTRL, nowhere), EFAULT);
    REFUSED(ioctl(video, VIDIOC_G_EXT_CTRLS, nowhere), EFAULT);
    REFUSED(ioctl(video, VIDIOC_G_EXT_CTRLS, &list), EFAULT);
    REFUSED(ioctl(video, VIDIOC_QBUF, nowhere), EFAULT);
    REFUSED(ioctl(video, _IOWR('V', 180, int[4]), bytes), ENOTTY);
    REFUSED(ioctl(video, _IOWR('X', 1, int[4]), bytes), ENOTTY);
    CHECK(!list_call(video, VIDIOC_G_EXT_CTRLS, -1, &entry)); /* a number has no payload to read */
    for (int i = 0; i < control_count; i++)
        if (has_payload(&controls[i])) {
            struct v4l2_ext_control array = {.id = controls[i].id, .size = controls[i].elems, .ptr = nowhere};
            REFUSED(list_call(video, VIDIOC_S_EXT_CTRLS, -1, &array), EFAULT);
            array.ptr = bytes;
            CHECK(!list_call(video, VIDIOC_G_EXT_CTRLS, -1, &array));
            CHECK(!list_call(video, VIDIOC_S_EXT_CTRLS, -1, &array));
        }
    REFUSED(list_call(video, VIDIOC_S_EXT_CTRLS, 0, &entry), EINVAL); /* standard input is no request */
}

/* The index of a list that is taken is that of its last entry; where a list has more entries than any may have, nothing of it is looked
 * at. */
static void check_indexes(void) {
    static const unsigned long numbers[] = {VIDIOC_G_EXT_CTRLS, VIDIOC_S_EXT_CTRLS, VIDIOC_TRY_EXT_CTRLS};
    struct v4l2_ext_control entries[2000] = {{.id = control->id}, {.id = control->id}};
    for (int i = 0; i < 3; i++) {
        struct v4l2_ext_controls list = {.count = 2, .error_idx = 77, .controls = entries};
        CHECK(!ioctl(video, numbers[i], &list) && list.error_idx == 1);
        list.count = 1;
        CHECK(!ioctl(video, numbers[i], &list) && list.error_idx == 0);
        list.count = 0;
        list.error_idx = 77;
        CHECK(!ioctl(video, numbers[i], &list) && list.error_idx == 0);
        list.count = 1024;
        list.error_idx = 77;
        REFUSED(ioctl(video, numbers[i], &list), EINVAL);
        CHECK(list.error_idx == 1024);
        list.count = 1025;
        list.error_idx = 77;
        REFUSED(ioctl(video, numbers[i], &list), EINVAL);
        CHECK(list.error_idx == 77);
        list.controls = nowhere;
        REFUSED(ioctl(video, numbers[i], &list), EINVAL);
    }
}

static void check_nodes(void) {
    struct stat status;
    char byte = 0;
    CHECK(!stat(VIDEO_PATH, &status) && S_ISCHR(status.st_mode));
    CHECK(!fstat(video, &status) && S_ISCHR(status.st_mode));
    CHECK(!fstatat(AT_FDCWD, MEDIA_PATH, &status, 0) && S_ISCHR(status.st_mode));
    CHECK(!access(VIDEO_PATH, R_OK | W_OK));
    REFUSED(open("/dev/video0/", O_RDWR), ENOENT);
    REFUSED(read(video, &byte, 1), EINVAL);
    REFUSED(write(video, &byte, 1), EINVAL);
    int raw = syscall(SYS_openat, AT_FDCWD, VIDEO_PATH, O_RDWR);
    struct v4l2_capability capability;
    CHECK(raw >= 0 && !syscall(SYS_ioctl, raw, VIDIOC_QUERYCAP, &capability));
    CHECK(!close(raw));
}

/* More handles than the device has: all that subscribe to nothing share one. */
static void check_many_handles(void) {
    int handles[100], refused = 0;
    for (int i = 0; i < 100; i++) {
        handles[i] = open(VIDEO_PATH, O_RDWR);
        CHECK(handles[i] >= 0);
    }
    for (int i = 0; i < 100; i++)
        if (subscribe(handles[i], control->id, 0)) {
            CHECK(errno == ENOSPC || errno == ENOMEM);
            refused++;
        }
    CHECK(refused > 0 && refused < 50);
    for (int i = 0; i < 100; i++)
        CHECK(!close(handles[i]));
    CHECK(!subscribe(other, control->id, 0));
    struct v4l2_event_subscription all = {.type = V4L2_EVENT_ALL};
    CHECK(!ioctl(other, VIDIOC_UNSUBSCRIBE_EVENT, &all));
}

static void check_priorities(void) {
    unsigned record = V4L2_PRIORITY_RECORD, background = V4L2_PRIORITY_BACKGROUND, none = 9, got;
    struct v4l2_control it = {control->id, (int)control->minimum};
    CHECK(!ioctl(video, VIDIOC_S_PRIORITY, &record));
    REFUSED(ioctl(other, VIDIOC_S_CTRL, &it), EBUSY);
    REFUSED(ioctl(other, VIDIOC_S_PRIORITY, &background), EBUSY);
    CHECK(!ioctl(other, VIDIOC_G_CTRL, &it));
    CHECK(!ioctl(other, VIDIOC_G_PRIORITY, &got) && got == record);
    REFUSED(ioctl(video, VIDIOC_S_PRIORITY, &none), EINVAL);
    unsigned interactive = V4L2_PRIORITY_INTERACTIVE;
    CHECK(!ioctl(video, VIDIOC_S_PRIORITY, &interactive));
    CHECK(!ioctl(other, VIDIOC_S_CTRL, &it));
}

static void check_owner(void) {
    int first = open(VIDEO_PATH, O_RDWR);
    CHECK(ask_buffers(first, 2) == 2);
    REFUSED(ask_buffers(other, 2), EBUSY);
    REFUSED(queue_buffer(other, 0, -1), EBUSY);
    REFUSED(stream(other, 1), EBUSY);
    REFUSED(mmap(0, 4096, PROT_READ, MAP_SHARED, first, 4096), EINVAL);
    REFUSED(mmap(0, 4096, PROT_READ, MAP_PRIVATE, first, 0), EINVAL);
    REFUSED(mmap(0, 1 << 20, PROT_READ, MAP_SHARED, first, 0), EINVAL);
    unsigned char *picture = map_buffer(first, 0);
    CHECK(picture != MAP_FAILED);
    CHECK(!close(first)); /* at once its buffers are nobody's */
    CHECK(ask_buffers(other, 2) == 2 && ask_buffers(other, 0) == 0);
    picture[0] = 1; /* what is mapped stays */
    CHECK(!munmap(picture, 4096));
}

/* Sets the control from another handle to a value that it doesn't have; which. */
static int change_control(void) {
    struct v4l2_control it = {control->id, 0};
    CHECK(!ioctl(other, VIDIOC_G_CTRL, &it));
    it.value = it.value == control->minimum ? control->maximum : control->minimum;
    CHECK(!ioctl(other, VIDIOC_S_CTRL, &it));
    return it.value;
}

static void *change_soon(void *unused) {
    (void)unused;
    usleep(50000);
    change_control();
    return 0;
}

static void *end_stream_soon(void *unused) {
    (void)unused;
    usleep(50000);
    CHECK(!stream(video, 0));
    return 0;
}

static void check_events(void) {
    struct v4l2_event event;
    pthread_t thread;
    CHECK(!subscribe(video, control->id, 0));
    CHECK(!polled(video, POLLIN | POLLPRI, 0));
    int value = change_control();
    CHECK(polled(video, POLLPRI, 0) == POLLPRI);
    fd_set set;
    struct timeval none = {0, 0};
    FD_ZERO(&set);
    FD_SET(video, &set);
    CHECK(select(video + 1, 0, 0, &set, &none) == 1);
    CHECK(!ioctl(video, VIDIOC_DQEVENT, &event) && event.id == control->id && event.u.ctrl.value == value);
    CHECK(!polled(video, POLLIN | POLLPRI, 0));
    CHECK(!pthread_create(&thread, 0, change_soon, 0)); /* meanwhile this thread waits */
    CHECK(!ioctl(video, VIDIOC_DQEVENT, &event) && event.id == control->id);
    CHECK(!pthread_join(thread, 0));
    CHECK(!polled(video, POLLIN | POLLPRI, 0));
    CHECK(!fcntl(video, F_SETFL, O_RDWR | O_NONBLOCK));
    REFUSED(ioctl(video, VIDIOC_DQEVENT, &event), ENOENT);
    CHECK(!fcntl(video, F_SETFL, O_RDWR));
}

static void on_alarm(int number) {
    (void)number;
}

/* A call that waits goes on behind a signal with SA_RESTART. */
static void check_restart(void) {
    struct sigaction action = {.sa_handler = on_alarm, .sa_flags = SA_RESTART}, before;
    struct itimerval soon = {.it_value = {0, 50000}};
    struct v4l2_event event;
    CHECK(!sigaction(SIGALRM, &action, &before) && !setitimer(ITIMER_REAL, &soon, 0));
    pid_t child = fork();
    if (child == 0) {
        usleep(400000);
        change_control();
        _exit(failed != 0);
    }
    CHECK(!ioctl(video, VIDIOC_DQEVENT, &event) && event.id == control->id);
    CHECK(waitpid(child, 0, 0) == child && !sigaction(SIGALRM, &before, 0));
}

/* A stream and events on one handle: frames that are taken take no event away. */
static void check_frames(void) {
    struct v4l2_buffer buffer;
    struct v4l2_event event;
    pthread_t thread;
    CHECK(ask_buffers(video, 2) == 2 && !queue_buffer(video, 0, -1) && !queue_buffer(video, 1, -1));
    CHECK(!stream(video, 1));
    for (int i = 0; i < 10; i++) {
        CHECK(polled(video, POLLIN, 10000) & POLLIN);
        change_control();
        CHECK(!take_buffer(video, &buffer) && !queue_buffer(video, buffer.index, -1));
        CHECK(polled(video, POLLPRI, 0) == POLLPRI);
        CHECK(!ioctl(video, VIDIOC_DQEVENT, &event) && event.sequence > 0);
        CHECK(!polled(video, POLLPRI, 0));
    }
    for (int i = 0; i < 2; i++)
        CHECK(!take_buffer(video, &buffer));
    CHECK(!polled(video, POLLIN, 0));
    /* no buffer is queued: only a signal or the stream's end ends the wait */
    struct sigaction action = {.sa_handler = on_alarm}, before;
    CHECK(!sigaction(SIGALRM, &action, &before));
    struct itimerval often = {{0, 50000}, {0, 50000}}, never = {{0, 0}, {0, 0}};
    CHECK(!setitimer(ITIMER_REAL, &often, 0));
    REFUSED(take_buffer(video, &buffer), EINTR);
    CHECK(!setitimer(ITIMER_REAL, &never, 0));
    CHECK(!pthread_create(&thread, 0, end_stream_soon, 0));
    REFUSED(take_buffer(video, &buffer), EINVAL);
    CHECK(!pthread_join(thread, 0));
    CHECK(!queue_buffer(video, 0, -1) && !queue_buffer(video, 1, -1) && !stream(video, 1));
    CHECK(polled(video, POLLIN, 10000) & POLLIN);
    CHECK(!stream(video, 0));
    CHECK(!polled(video, POLLIN, 0));
    CHECK(ask_buffers(video, 0) == 0);
}

int main(void) {
    video = open(VIDEO_PATH, O_RDWR);
    other = open(VIDEO_PATH, O_RDWR);
    CHECK(video >= 0 && other >= 0);
    find_controls(video);
    control = plain_control();
    check_pointers();
    check_indexes();
    check_nodes();
    check_many_handles();
    check_priorities();
    check_owner();
    check_events();
    check_restart();
    check_frames();
    return report();
}
