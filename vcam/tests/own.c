/* What a program does with its own descriptors: it closes all that it doesn't know, copies others over them, forks, and begins other
 * programs, and meanwhile calls the camera, whose connections are among them. No file of its own is closed or written to by that, and
 * each call succeeds, but for one whose connection was closed while it waited for its answer: ENODEV.
 * usage: own [SECONDS]; own --behind DESCRIPTOR is itself behind exec */
#include "client.h"
#include <linux/filter.h>
#include <linux/seccomp.h>
#include <pthread.h>
#include <signal.h>
#include <stdatomic.h>
#include <stddef.h>
#include <sys/prctl.h>
#include <sys/resource.h>
#include <sys/socket.h>
#include <sys/syscall.h>
#include <sys/wait.h>
#include <time.h>

static int most = 1200; /* above the numbers that are looked at; some below the limit stay free */
static int video;
static const struct v4l2_query_ext_ctrl *control;
static char directory[] = "/tmp/vcam-own.XXXXXX";

/* A call whose struct is all that it needs, and one that has a list behind a pointer. */
static int call(void) {
    struct v4l2_control it = {.id = control->id};
    struct v4l2_ext_control entry = {.id = control->id};
    return ioctl(video, VIDIOC_G_CTRL, &it) || list_call(video, VIDIOC_G_EXT_CTRLS, -1, &entry);
}

static int new_file(void) {
    char path[64];
    static atomic_int number;
    snprintf(path, sizeof path, "%s/%d", directory, number++);
    int file = open(path, O_RDWR | O_CREAT | O_TRUNC | O_CLOEXEC, 0600);
    unlink(path);
    return file;
}

/* Whether a file has the four bytes that were written to it, and no others. */
static int is_whole(int file, const char *bytes) {
    char got[64] = "";
    return pwrite(file, bytes, 4, 0) == 4 && syscall(SYS_pread64, file, got, sizeof got, 0) == 4 && !memcmp(got, bytes, 4);
}

/* All descriptors but the camera's and the standard ones are closed, and new files stand at their numbers: as a daemon does at its
 * start, and then opens its log. */
static void check_closed(void) {
    int files[64];
    for (int round = 0; round < 3; round++) {
        CHECK(!call());
        if (round == 1) {
            for (int i = 3; i < most; i++)
                if (i != video)
                    syscall(SYS_close, i);
        } else {
            if (video > 3)
                CHECK(!close_range(3, video - 1, 0));
            CHECK(!close_range(video + 1, ~0u, 0));
        }
        for (int i = 0; i < 64; i++)
            CHECK((files[i] = new_file()) >= 0);
        CHECK(!call() && !call());
        for (int i = 0; i < 64; i++)
            CHECK(is_whole(files[i], "line") && !close(files[i]));
    }
}

/* A file, and then a socket whose other end sees what comes, at each number that isn't known. */
static void check_copied(void) {
    static char is_copy[4096];
    int pair[2], file = new_file();
    char byte;
    CHECK(!socketpair(AF_UNIX, SOCK_SEQPACKET | SOCK_CLOEXEC, 0, pair));
    for (int turn = 0; turn < 2; turn++) {
        CHECK(!call());
        int given = turn ? pair[0] : file, copied = 0;
        for (int i = 3; i < most; i++) {
            int is_known = i == video || i == file || i == pair[0] || i == pair[1];
            is_copy[i] = !is_known && (i % 2 ? dup2(given, i) : dup3(given, i, O_CLOEXEC)) == i;
            copied += is_copy[i];
        }
        CHECK(copied > 100);
        CHECK(!call() && !call());
        CHECK(recv(pair[1], &byte, 1, MSG_DONTWAIT) < 0 && errno == EAGAIN);
        CHECK(is_whole(file, "copy"));
        for (int i = 3; i < most; i++)
            if (is_copy[i]) {
                int one = 1;
                socklen_t size = sizeof one;
                /* the copies stand yet, and nobody closed one in place of the program */
                CHECK(turn ? !getsockopt(i, SOL_SOCKET, SO_TYPE, &one, &size) : is_whole(i, "copy"));
                copied -= !close(i);
            }
        CHECK(copied == 0);
    }
    CHECK(!close(file) && !close(pair[0]) && !close(pair[1]));
}

static int ended(pid_t child) {
    int status;
    return waitpid(child, &status, 0) == child && WIFEXITED(status) ? WEXITSTATUS(status) : -1;
}

/* A child, and a program that it begins, do the same with what they were left. */
static void check_children(const char *program) {
    char number[16];
    snprintf(number, sizeof number, "%d", video);
    for (int behind = 0; behind < 2; behind++) {
        CHECK(!call());
        pid_t child = fork();
        if (child == 0 && behind) {
            fcntl(video, F_SETFD, 0);
            execl("/proc/self/exe", program, "--behind", number, (char *)0);
        }
        if (child == 0) {
            check_closed();
            check_copied();
            _exit(failed != 0);
        }
        for (int i = 0; i < 50; i++)
            CHECK(!call());
        CHECK(ended(child) == 0);
        CHECK(!call());
    }
}

static atomic_int is_over, calls, gone;

/* Gets one control all the time, whose value is no other one's. */
static void *go_on(void *given) {
    const struct v4l2_query_ext_ctrl *own = given;
    for (; !is_over; calls++) {
        struct v4l2_control it = {.id = own->id};
        int error = ioctl(video, VIDIOC_G_CTRL, &it) ? errno : 0;
        CHECK(error ? error == ENODEV : it.id == own->id && it.value == own->default_value);
        CHECK(!call() || errno == ENODEV);
        gone += error != 0;
    }
    return 0;
}

/* A call waits for an event, and meanwhile a socket stands at each number at which its connection may be. A signal, a time in which
 * nothing comes, and then the event: nothing of it is read or written by that. */
static void *wait_for_event(void *event) {
    CHECK(!ioctl(video, VIDIOC_DQEVENT, event));
    return 0;
}
static void on_signal(int number) {
    (void)number;
}
static void check_waiting(void) {
    struct v4l2_event event = {0};
    pthread_t waits;
    int pair[2], kept = -1, other = open(VIDEO_PATH, O_RDWR | O_CLOEXEC);
    char bytes[64];
    CHECK(!sigaction(SIGUSR1, &(struct sigaction){.sa_handler = on_signal, .sa_flags = SA_RESTART}, 0));
    CHECK(!subscribe(video, control->id, 0) && !pthread_create(&waits, 0, wait_for_event, &event));
    usleep(100000);
    CHECK(!socketpair(AF_UNIX, SOCK_STREAM | SOCK_CLOEXEC, 0, pair) && (kept = dup(pair[0])) >= 0);
    for (int i = 100; i < 1024; i++)
        if (i != video && i != other)
            dup2(pair[0], i);
    CHECK(write(pair[1], "to the program", 14) == 14);
    sleep(11);
    CHECK(!set_control(other, control->id, control->maximum) && !pthread_join(waits, 0) && event.id == control->id);
    CHECK(recv(pair[1], bytes, sizeof bytes, MSG_DONTWAIT) < 0 && errno == EAGAIN);
    CHECK(recv(kept, bytes, sizeof bytes, MSG_DONTWAIT) == 14);
    CHECK(!close_range(100, 1023, 0) && !close(kept) && !close(pair[1]) && !close(other));
    CHECK(!set_control(video, control->id, control->default_value));
}

/* Two threads call, while another one closes all that it doesn't know and makes files in turn. */
static void check_race(int seconds) {
    pthread_t callers[2];
    struct timespec now, end;
    clock_gettime(CLOCK_MONOTONIC, &end);
    end.tv_sec += seconds;
    int strange = 0, files[16];
    is_over = calls = gone = 0;
    for (int i = 0; i < 2; i++)
        CHECK(!pthread_create(&callers[i], 0, go_on, &controls[i]));
    for (int round = 0; clock_gettime(CLOCK_MONOTONIC, &now), now.tv_sec < end.tv_sec; round++) {
        if (round % 2)
            close_range(video + 1, ~0u, 0);
        else
            for (int i = video + 1; i < most; i++)
                syscall(SYS_close, i);
        for (int i = 0; i < 16; i++)
            files[i] = new_file();
        usleep(300);
        for (int i = 0; i < 16; i++)
            strange += !is_whole(files[i], "race");
    }
    is_over = 1;
    for (int i = 0; i < 2; i++)
        pthread_join(callers[i], 0);
    CHECK(strange == 0);
    CHECK(calls > 100);
    CHECK(gone < calls / 4);
}

/* From here on the memory of a process can't be read by another one's calls, not even by its own: as in a sandbox. */
static void go_into_sandbox(void) {
    struct sock_filter filter[] = {
        BPF_STMT(BPF_LD | BPF_W | BPF_ABS, offsetof(struct seccomp_data, nr)),
        BPF_JUMP(BPF_JMP | BPF_JEQ | BPF_K, SYS_process_vm_readv, 1, 0),
        BPF_JUMP(BPF_JMP | BPF_JEQ | BPF_K, SYS_process_vm_writev, 0, 1),
        BPF_STMT(BPF_RET | BPF_K, SECCOMP_RET_ERRNO | EPERM),
        BPF_STMT(BPF_RET | BPF_K, SECCOMP_RET_ALLOW),
    };
    struct sock_fprog program = {sizeof filter / sizeof *filter, filter};
    CHECK(!prctl(PR_SET_NO_NEW_PRIVS, 1, 0, 0, 0) && !prctl(PR_SET_SECCOMP, SECCOMP_MODE_FILTER, &program));
}

int main(int count, char **given) {
    int is_behind = count > 2 && !strcmp(given[1], "--behind");
    struct rlimit limit = {200, 200}, now;
    CHECK(!getrlimit(RLIMIT_NOFILE, &now));
    most = now.rlim_cur == 200 ? 180 : most;
    video = is_behind ? atoi(given[2]) : open(VIDEO_PATH, O_RDWR | O_CLOEXEC);
    find_controls(video);
    control = plain_control();
    CHECK(mkdtemp(directory));
    check_closed();
    check_copied();
    if (!is_behind) {
        check_children(given[0]);
        check_race(count > 1 ? atoi(given[1]) : 2);
        struct rlimit fixed = {1024, 1024};
        CHECK(!setrlimit(RLIMIT_NOFILE, &fixed)); /* connections stand at numbers below it from here on */
        close_range(video + 1, ~0u, 0);
        check_waiting();
        CHECK(!setrlimit(RLIMIT_NOFILE, &limit)); /* numbers above it can't be had from here on */
        close_range(video + 1, ~0u, 0);
        most = 180;
        check_closed();
        check_copied();
        check_children(given[0]);
        check_race(count > 1 ? atoi(given[1]) : 2);
        go_into_sandbox();
        struct v4l2_ext_controls nowhere = {.count = 1, .controls = (void *)0x10};
        REFUSED(ioctl(video, VIDIOC_G_EXT_CTRLS, &nowhere), EFAULT);
        check_closed();
        check_race(count > 1 ? atoi(given[1]) : 2);
    }
    CHECK(!call() && !rmdir(directory));
    return report();
}
