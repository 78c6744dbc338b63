/* A daemon that means harm, and a program that calls it: whatever is answered, no byte is written outside of the structs that the
 * program handed in, no memory is mapped that isn't there, no descriptor stays, and each call returns.
 * usage: harm SEED MESSAGES; harm --silent: it doesn't answer; harm --serve DIR SEED: the daemon alone, at a directory; harm --open:
 * an open, its errno, and what became of the program's memory */
#include "client.h"
#include "../wire.h"
#include <dirent.h>
#include <signal.h>
#include <stddef.h>
#include <sys/socket.h>
#include <sys/time.h>
#include <sys/un.h>
#include <sys/wait.h>
#include <time.h>

/* --- the daemon --- */

static struct {
    struct call call;
    _Alignas(16) unsigned char payload[MOST_PAYLOAD + 4096];
} packet;

static int listen_at(const char *directory) {
    struct sockaddr_un address = {.sun_family = AF_UNIX};
    int listener = socket(AF_UNIX, SOCK_SEQPACKET | SOCK_CLOEXEC, 0);
    snprintf(address.sun_path, sizeof address.sun_path, "%s/calls", directory);
    if (listener < 0 || bind(listener, (struct sockaddr *)&address, sizeof address) || listen(listener, 8))
        return -1;
    return listener;
}

static int marked_socket(int kind) {
    int pair[2];
    uint64_t mark = MARK(kind, 1 + dice(~0u - 1));
    socketpair(AF_UNIX, SOCK_STREAM | SOCK_CLOEXEC, 0, pair);
    setsockopt(pair[1], SOL_SOCKET, SO_MAX_PACING_RATE, &mark, sizeof mark);
    for (int i = dice(200); i > 0; i--)
        send(pair[0], "", 1, MSG_DONTWAIT | (dice(9) ? 0 : MSG_OOB));
    static int kept[16];
    static unsigned at;
    close(kept[at++ % 16]);
    kept[(at - 1) % 16] = pair[0];
    return pair[1];
}

/* A descriptor of some kind: a handle, or memory that is as it should be, or cut short, or may be cut, or something else. */
static int some_descriptor(int is_handle, int kind) {
    if (is_handle && dice(8))
        return marked_socket(dice(12) ? kind : "vmrx"[dice(4)]);
    int file = memfd_create("harm", MFD_CLOEXEC | (dice(4) ? MFD_ALLOW_SEALING : 0));
    CHECK(!ftruncate(file, dice(3) ? 1 << 20 : dice(5000)));
    if (dice(3))
        fcntl(file, F_ADD_SEALS, F_SEAL_SHRINK);
    return dice(8) ? file : (close(file), dup(2));
}

static void *near(const void *pointer) {
    return (void *)((uintptr_t)pointer + dice(8192) - 4096);
}

/* Entries whose pointers show elsewhere into the program, near the one that it has for its list. */
static void turn_pointers(size_t size) {
    struct v4l2_ext_controls *list = (void *)packet.payload;
    struct v4l2_ext_control *entries = (void *)(list + 1);
    if (size < sizeof *list + sizeof *entries)
        return;
    for (uint32_t i = 0; i < list->count && i < MOST_ENTRIES && (unsigned char *)&entries[i + 1] <= packet.payload + size; i++)
        if (dice(3)) {
            entries[i].ptr = near(list->controls);
            entries[i].size = dice(2) ? dice(40) : dice(~0u);
            entries[i].reserved2[0] = dice(3);
        }
    list->controls = near(list->controls);
    list->count = dice(2) ? list->count : dice(~0u);
}

/* Answers one call; 0 where the connection is closed instead. */
static int answer(int connection, size_t size) {
    static const uint32_t errors[] = {0, 0, 0, 0, 0, 0, EINVAL, ENODEV, 133, 134, 4095, 4096, 0x80000000u, ~0u};
    static const uint32_t flags[] = {0, 0, 0, 1, 1, 2, ~0u};
    char room[CMSG_SPACE(10 * sizeof(int))] = {0};
    int is_open = packet.call.what == CALL_OPEN, is_map = packet.call.what == CALL_MAP || packet.call.number == VIDIOC_EXPBUF;
    int is_calm = !dice(3), count = is_calm || dice(6) ? is_open || is_map : dice(11), given[10];
    size_t back = packet.call.what == CALL_IOCTL && _IOC_DIR(packet.call.number) & _IOC_READ ? _IOC_SIZE(packet.call.number) : 0;
    struct answer head = {is_calm ? 0 : errors[dice(14)], is_calm ? 0 : flags[dice(7)]};
    if (size > back && back)
        back = size; /* a list */
    if (!dice(60))
        return 0;
    turn_pointers(size);
    for (int i = dice(2) ? 0 : dice(40); i > 0; i--)
        packet.payload[dice(back + 64)] = dice(256);
    if (!is_calm && !dice(4))
        back = dice(3) ? dice(400) : dice(sizeof packet.payload);
    struct iovec parts[2] = {{&head, !is_calm && !dice(30) ? dice(sizeof head) : sizeof head}, {packet.payload, back}};
    struct msghdr message = {.msg_iov = parts, .msg_iovlen = 2};
    if (count) {
        message.msg_control = room;
        message.msg_controllen = CMSG_SPACE(count * sizeof(int));
        struct cmsghdr *part = CMSG_FIRSTHDR(&message);
        *part = (struct cmsghdr){.cmsg_len = CMSG_LEN(count * sizeof(int)), .cmsg_level = SOL_SOCKET, .cmsg_type = SCM_RIGHTS};
        for (int i = 0; i < count; i++)
            given[i] = some_descriptor(is_open, packet.call.number);
        memcpy(CMSG_DATA(part), given, count * sizeof(int));
    }
    sendmsg(connection, &message, MSG_NOSIGNAL | MSG_DONTWAIT);
    for (int i = 0; i < count; i++)
        close(given[i]);
    return 1;
}

static void serve(int listener) {
    struct pollfd polled[40] = {{listener, POLLIN, 0}};
    int count = 1;
    for (;;) {
        poll(polled, count, -1);
        for (int i = count - 1; i > 0; i--) {
            ssize_t got = polled[i].revents ? recv(polled[i].fd, &packet, sizeof packet, MSG_DONTWAIT) : 0;
            if (polled[i].revents && (got < (ssize_t)sizeof packet.call || !answer(polled[i].fd, got - sizeof packet.call))) {
                close(polled[i].fd);
                polled[i] = polled[--count];
            }
        }
        if (polled[0].revents && count < 40)
            polled[count++] = (struct pollfd){accept4(listener, 0, 0, SOCK_CLOEXEC), POLLIN, 0};
    }
}

/* --- the program --- */

/* Where its structs lie; all around them is to stay as it is. */
static unsigned char arena[1 << 16], shadow[1 << 16];

static int is_whole(const void *at, size_t size, const void *other, size_t other_size) {
    memcpy(shadow + ((unsigned char *)at - arena), at, size);
    if (other)
        memcpy(shadow + ((unsigned char *)other - arena), other, other_size);
    int same = !memcmp(arena, shadow, sizeof arena);
    memcpy(arena, shadow, sizeof arena);
    return same;
}

static void *place(size_t size) {
    return arena + 16384 + dice(16384 - size) / 16 * 16;
}

static void call_list(int video) {
    static const unsigned long numbers[] = {VIDIOC_G_EXT_CTRLS, VIDIOC_S_EXT_CTRLS, VIDIOC_TRY_EXT_CTRLS};
    unsigned count = dice(4) ? 1 + dice(8) : dice(70);
    struct v4l2_ext_control *entries = place(70 * sizeof *entries + 70 * 32);
    unsigned char *payloads = (unsigned char *)(entries + 70);
    unsigned char before[70 * 32];
    for (unsigned i = 0; i < count; i++) {
        unsigned size = dice(2) ? 0 : 1 + dice(32);
        entries[i] = (struct v4l2_ext_control){.id = dice(~0u), .size = size};
        entries[i].ptr = size ? payloads + i * 32 : (void *)(uintptr_t)dice(~0u);
    }
    memcpy(before, payloads, sizeof before);
    struct v4l2_ext_control own[70];
    memcpy(own, entries, count * sizeof *own);
    struct v4l2_ext_controls list = {.count = count, .controls = entries};
    ioctl(video, numbers[dice(3)], &list);
    CHECK(list.count == count && list.controls == entries);
    /* of a payload at most the program's own size is written, of an entry only its size and its value */
    for (unsigned i = 0; i < 70; i++) {
        unsigned size = i < count ? own[i].size : 0;
        CHECK(!memcmp(payloads + i * 32 + size, before + i * 32 + size, 32 - size));
        CHECK(i >= count || (entries[i].id == own[i].id && entries[i].reserved2[0] == own[i].reserved2[0]));
    }
    CHECK(is_whole(entries, 70 * sizeof *entries, payloads, 70 * 32));
}

static void call_struct(int video) {
    static const unsigned long numbers[] = {VIDIOC_G_CTRL,   VIDIOC_S_CTRL,  VIDIOC_QUERYCTRL,  VIDIOC_QUERYCAP, VIDIOC_QUERYBUF,
                                            VIDIOC_DQBUF,    VIDIOC_QBUF,    VIDIOC_DQEVENT,    VIDIOC_REQBUFS,  VIDIOC_STREAMOFF,
                                            VIDIOC_ENUM_FMT, VIDIOC_G_FMT,   VIDIOC_G_PRIORITY, VIDIOC_S_PARM,   VIDIOC_VCAM_FORECAST};
    unsigned long number = numbers[dice(15)];
    size_t size = _IOC_SIZE(number);
    void *it = place(size);
    ioctl(video, number, it);
    CHECK(is_whole(it, size, 0, 0));
}

static void call_for_descriptor(int video, int media) {
    struct v4l2_exportbuffer exported = {.type = CAPTURE, .flags = O_CLOEXEC};
    int request;
    size_t length = 4096 * (1 + dice(300));
    switch (dice(3)) {
    case 0:
        if (!ioctl(video, VIDIOC_EXPBUF, &exported))
            close(exported.fd);
        break;
    case 1:
        if (!ioctl(media, MEDIA_IOC_REQUEST_ALLOC, &request))
            close(request);
        break;
    default: {
        volatile char *mapped = mmap(0, length, PROT_READ, MAP_SHARED, video, 0);
        if (mapped != MAP_FAILED) {
            (void)(mapped[0] + mapped[length - 1]); /* ends the program where it isn't there */
            munmap((void *)mapped, length);
        }
    }
    }
    CHECK(is_whole(arena, 0, 0, 0));
}

static int count_descriptors(void) {
    DIR *all = opendir("/proc/self/fd");
    int count = 0;
    while (readdir(all))
        count++;
    closedir(all);
    return count;
}

static int be_client(int messages) {
    int video = -1, media = -1, before = count_descriptors();
    for (size_t i = 0; i < sizeof arena; i++)
        arena[i] = shadow[i] = dice(256);
    for (int i = 0; i < messages; i++) {
        if (video < 0 || !dice(100)) {
            close(video);
            video = open(VIDEO_PATH, O_RDWR | O_NONBLOCK);
        }
        if (media < 0 || !dice(100)) {
            close(media);
            media = open(MEDIA_PATH, O_RDWR);
        }
        switch (dice(5)) {
        case 0:
            call_for_descriptor(video, media);
            break;
        case 1:
            call_struct(video);
            break;
        default:
            call_list(video);
        }
    }
    close(video);
    close(media);
    CHECK(count_descriptors() <= before + 1); /* the connection that waits for the next call */
    printf("%d calls, %d failed\n", messages, failed);
    return failed != 0;
}

/* --- a daemon that is silent --- */

static int seconds_of(int (*it)(void), int error) {
    struct timespec before, after;
    clock_gettime(CLOCK_MONOTONIC, &before);
    REFUSED(it(), error);
    clock_gettime(CLOCK_MONOTONIC, &after);
    return after.tv_sec - before.tv_sec;
}

static int open_it(void) {
    return open(VIDEO_PATH, O_RDWR);
}

static int video;
static int take_it(void) {
    struct v4l2_buffer buffer;
    return take_buffer(video, &buffer);
}
static int get_it(void) {
    struct v4l2_control it = {.id = 1};
    return ioctl(video, VIDIOC_G_CTRL, &it);
}

static void do_nothing(int signal) {
    (void)signal;
}

/* What a program sees: 0 nobody takes its connection, 1 nobody answers, 2 the same where a signal comes each second, 3 a call on a
 * handle isn't answered, 4 nor is one that waits, until the daemon is gone after 13 seconds. */
static int see(int what) {
    struct itimerval each = {{1, 0}, {1, 0}};
    if (what == 2) {
        sigaction(SIGALRM, &(struct sigaction){.sa_handler = do_nothing}, 0);
        setitimer(ITIMER_REAL, &each, 0);
    }
    if (what >= 3)
        CHECK((video = open_it()) >= 0);
    int seconds = seconds_of(what < 3 ? open_it : what == 3 ? get_it : take_it, ENODEV);
    CHECK(what == 4 ? seconds >= 12 && seconds < 20 : seconds >= 9 && seconds < 25);
    return failed != 0;
}

/* The daemon of it. */
static void be_silent(int listener, int what) {
    if (what == 0)
        for (;;)
            pause();
    int connection = accept(listener, 0, 0);
    if (what >= 3 && recv(connection, &packet, sizeof packet, 0) > 0) {
        char room[CMSG_SPACE(sizeof(int))] = {0};
        struct answer head = {0};
        struct iovec part = {&head, sizeof head};
        struct msghdr message = {.msg_iov = &part, .msg_iovlen = 1, .msg_control = room, .msg_controllen = sizeof room};
        int handle = marked_socket(VIDEO);
        *CMSG_FIRSTHDR(&message) = (struct cmsghdr){CMSG_LEN(sizeof(int)), SOL_SOCKET, SCM_RIGHTS};
        memcpy(CMSG_DATA(CMSG_FIRSTHDR(&message)), &handle, sizeof handle);
        sendmsg(connection, &message, 0);
    }
    sleep(what == 4 ? 13 : 60);
    exit(0);
}

/* --- */

static char directory[] = "/tmp/vcam-harm.XXXXXX";

/* Begins a daemon at a directory of its own, and this program anew as its client. */
static int begin(const char *program, void (*daemon)(int, int), int what, const char *mode, const char *first, const char *second) {
    char path[64];
    int status = 1, listener = mkdtemp(directory) ? listen_at(directory) : -1;
    snprintf(path, sizeof path, "%s/calls", directory);
    pid_t server = fork();
    if (server == 0)
        daemon(listener, what);
    close(listener);
    if (what == 0 && daemon == be_silent) /* its backlog is full */
        for (int i = 0, more = 0; i < 64 && !more; i++) {
            struct sockaddr_un address = {.sun_family = AF_UNIX};
            strcpy(address.sun_path, path);
            more = connect(socket(AF_UNIX, SOCK_SEQPACKET | SOCK_NONBLOCK, 0), (struct sockaddr *)&address, sizeof address);
        }
    pid_t client = fork();
    if (client == 0) {
        setenv("VCAM_DIR", directory, 1);
        execl("/proc/self/exe", program, mode, first, second, (char *)0);
        _exit(99);
    }
    waitpid(client, &status, 0);
    kill(server, SIGKILL);
    waitpid(server, 0, 0);
    unlink(path);
    rmdir(directory);
    CHECK(WIFEXITED(status) && WEXITSTATUS(status) == 0);
    return failed != 0;
}

static void serve_and(int listener, int unused) {
    (void)unused;
    serve(listener);
}

/* All ways of being silent at once. */
static int be_silent_to_all(const char *program) {
    int status, bad = 0;
    for (int what = 0; what < 5; what++)
        if (fork() == 0) {
            char number[] = {'0' + what, 0};
            _exit(begin(program, be_silent, what, "--see", number, 0));
        }
    while (wait(&status) > 0)
        bad += !WIFEXITED(status) || WEXITSTATUS(status);
    printf("silent: %d failed\n", bad);
    return bad != 0;
}

/* An open, and whether the memory about what a call hands in is as it was. */
static int open_once(void) {
    char around[2][4096];
    struct v4l2_ext_control entry = {.id = 1};
    struct v4l2_ext_controls list = {.count = 1, .controls = &entry};
    int it = -1;
    memset(around, 'u', sizeof around);
    for (int tries = 0; it < 0 && tries < 50; tries++) /* a daemon that means harm may refuse one */
        it = open(VIDEO_PATH, O_RDWR);
    printf("open: %s\n", it < 0 ? strerrorname_np(errno) : "ok");
    for (int i = 0; it >= 0 && i < 100; i++)
        ioctl(it, VIDIOC_G_EXT_CTRLS, &list);
    for (size_t i = 0; i < sizeof around; i++)
        CHECK(around[0][i] == 'u');
    return failed != 0;
}

int main(int count, char **given) {
    const char *mode = count > 1 ? given[1] : "1";
    signal(SIGPIPE, SIG_IGN);
    if (!strcmp(mode, "--serve") && count == 4) {
        dice_state = strtoull(given[3], 0, 0);
        int listener = listen_at(given[2]);
        if (listener >= 0)
            serve(listener);
        return 1;
    }
    if (!strcmp(mode, "--silent"))
        return be_silent_to_all(given[0]);
    if (!strcmp(mode, "--see"))
        return see(atoi(given[2]));
    if (!strcmp(mode, "--open"))
        return open_once();
    if (!strcmp(mode, "--call")) {
        dice_state = strtoull(given[3], 0, 0);
        return be_client(atoi(given[2]));
    }
    dice_state = strtoull(mode, 0, 0);
    return begin(given[0], serve_and, 0, "--call", count > 2 ? given[2] : "20000", mode);
}
