/* The daemon's life: its words, and the loop in which it waits for whoever wants something. */
#define _GNU_SOURCE
#include "daemon.h"
#include <errno.h>
#include <fcntl.h>
#include <limits.h>
#include <poll.h>
#include <signal.h>
#include <stdio.h>
#include <stdlib.h>
#include <string.h>
#include <sys/resource.h>
#include <sys/signalfd.h>
#include <sys/stat.h>
#include <sys/syscall.h>
#include <sys/wait.h>
#include <unistd.h>

static const char usage[] =
    "usage: vcamd --serve PROGRAM --device FILE [--dir DIR] [--log FILE] [--until PROCESS] [--size WIDTHxHEIGHT] [--rate N]\n"
    "Serves the camera of a device file at DIR, by the program that answers for the device. With --until it goes into the background\n"
    "once it is ready, prints its directory, which it makes where none is named, and ends with that process.\n";

static struct {
    const char *serve, *device, *dir, *log, *until, *size, *rate;
} words = {"", "", "", "", "", "", ""};

static int calls; /* the socket at which it listens */
static int signals, end_of_process = -1;

void fail(const char *why) {
    if (why)
        fprintf(stderr, "vcamd: %s\n", why);
    place_leave();
    exit(1);
}

void refuse(const char *why) {
    fprintf(stderr, "vcamd: %s\n", why);
    place_leave();
    exit(2);
}

void fail_at(const char *path) {
    fprintf(stderr, "vcamd: %s: %s\n", path, strerror(errno));
    place_leave();
    exit(1);
}

static void read_words(int count, char **given) {
    static const struct {
        const char *word, **to;
    } table[] = {{"--serve", &words.serve},
                 {"--device", &words.device},
                 {"--dir", &words.dir},
                 {"--log", &words.log},
                 {"--until", &words.until},
                 {"--size", &words.size},
                 {"--rate", &words.rate}};
    size_t i = 0, known = sizeof table / sizeof *table;
    for (int at = 1; at < count; at += 2) {
        for (i = 0; i < known && strcmp(table[i].word, given[at]); i++)
            ;
        if (i == known || at + 1 == count)
            break;
        *table[i].to = given[at + 1];
    }
    if (i == known || count % 2 == 0 || !*words.serve || !*words.device || (!*words.dir && !*words.until)) {
        fputs(usage, stderr);
        exit(2);
    }
    formats_start(words.size, words.rate);
}

/* As many descriptors as the system lets it have. */
static void raise_limit(void) {
    struct rlimit limit;
    if (getrlimit(RLIMIT_NOFILE, &limit))
        return;
    limit.rlim_cur = limit.rlim_max;
    setrlimit(RLIMIT_NOFILE, &limit);
}

static void watch_signals(void) {
    sigset_t set;
    sigemptyset(&set);
    sigaddset(&set, SIGTERM);
    sigaddset(&set, SIGINT);
    sigaddset(&set, SIGHUP);
    sigprocmask(SIG_BLOCK, &set, 0);
    signal(SIGPIPE, SIG_IGN);
    signals = signalfd(-1, &set, SFD_CLOEXEC);
    if (*words.until)
        end_of_process = syscall(SYS_pidfd_open, atoi(words.until), 0);
}

/* Whether the process is gone with which this ends. */
static int is_over(void) {
    return *words.until && end_of_process < 0 && kill(atoi(words.until), 0) && errno == ESRCH;
}

void end_if_over(void) {
    struct pollfd ends[] = {{signals, POLLIN, 0}, {end_of_process, POLLIN, 0}};
    if (poll(ends, 2, 0) > 0 || is_over())
        fail(0);
}

enum { SIGNALS, PROCESS, CALLS, TIMER, FIXED };

/* Whom the loop waits for. Handles stand last: where a call is seen, each close that came before it is seen, too. */
static int collect(struct pollfd *polled) {
    int count = FIXED;
    polled[SIGNALS] = (struct pollfd){signals, POLLIN, 0};
    polled[PROCESS] = (struct pollfd){end_of_process, POLLIN, 0};
    polled[CALLS] = (struct pollfd){calls, POLLIN, 0};
    polled[TIMER] = (struct pollfd){frame_timer(), POLLIN, 0};
    EACH(it, callers)
        polled[count++] = (struct pollfd){it->descriptor, POLLIN, 0};
    EACH(it, handles)
        polled[count++] = (struct pollfd){it->descriptor, POLLRDHUP, 0};
    return count;
}

/* Looks after the programs' connections, closes first. Whoever was accepted meanwhile has its turn in the next round. */
static void serve_connections(const struct pollfd *polled) {
    int place = FIXED, first = FIXED;
    EACH(it, callers)
        place++;
    EACH(it, handles)
        if (polled[place++].revents)
            forget(it);
    for (struct caller *it = callers; it < callers + MOST_CALLERS; it++)
        if (it->descriptor >= 0 && polled[first++].revents)
            hear(it);
}

static void serve(void) {
    static struct pollfd polled[FIXED + MOST_CALLERS + MOST_HANDLES];
    for (;;) {
        int count = collect(polled);
        if (poll(polled, count, *words.until && end_of_process < 0 ? 500 : -1) < 0)
            continue;
        if (polled[SIGNALS].revents || polled[PROCESS].revents || is_over())
            return;
        serve_connections(polled);
        if (polled[CALLS].revents)
            greet(calls);
        if (polled[TIMER].revents)
            frame_due();
        answer_waiting();
        if (news & NEW_EVENTS)
            announce();
        news = 0;
        renew();
    }
}

/* Goes into the background; the process that stays there says when it is ready, and this one prints where. */
static int start_background(void) {
    int pair[2], status = 0;
    char said[PATH_MAX];
    if (pipe2(pair, O_CLOEXEC))
        fail("no pipe");
    pid_t child = fork();
    if (child < 0)
        fail("no process");
    if (child == 0) {
        setsid();
        close(pair[0]);
        return pair[1];
    }
    close(pair[1]);
    ssize_t got = read(pair[0], said, sizeof said);
    if (got > 0) {
        printf("%.*s\n", (int)got, said);
        exit(0);
    }
    waitpid(child, &status, 0);
    exit(WIFEXITED(status) && WEXITSTATUS(status) ? WEXITSTATUS(status) : 1);
}

/* Nothing is read, and said on standard error alone. */
static void leave_terminal(void) {
    int null = open("/dev/null", O_RDWR | O_CLOEXEC);
    dup2(null, 0);
    dup2(null, 1);
    close(null);
}

int main(int count, char **given) {
    read_words(count, given);
    umask(077);
    close_range(3, ~0u, 0); /* what whoever started it had open */
    int ready = *words.until ? start_background() : -1;
    leave_terminal();
    watch_signals();
    raise_limit();
    clients_start();
    place_take(words.dir);
    log_open(words.log);
    device_start(words.serve, words.device);
    controls_start();
    picture_start();
    frames_start();
    calls = place_listen();
    if (ready >= 0 && write(ready, place_path(), strlen(place_path())) < 0)
        fail("whoever started it is gone");
    if (ready >= 0)
        close(ready);
    else
        fprintf(stderr, "vcam: the camera is at %s\n", place_path());
    serve();
    place_leave();
    return 0;
}
