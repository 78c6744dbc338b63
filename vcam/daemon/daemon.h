/* The daemon: one virtual camera for many programs. Controls, events, requests and forecasts are the proved device's; here are the
 * sockets, the buffers, one format, and pictures. */
#ifndef DAEMON_H
#define DAEMON_H
#include "device.h"
#include "../wire.h"
#include <stddef.h>
#include <stdint.h>
#include <sys/time.h>

#define CARD "Tugosier virtual camera"
#define MOST_WIDTH 4096
#define MOST_HEIGHT 2160
#define ROW_BYTES (format.width * 2)
#define PICTURE_BYTES (format.height * ROW_BYTES)

/* A file handle of a program; `descriptor`, this end of it, is -1 where the slot is free. */
struct handle {
    int descriptor, kind;
    uint32_t id;      /* by which calls name it */
    char name[24];    /* by which the log names it: the process that opened it, and the how manieth it was */
    uint32_t number;  /* of a request; of a video handle that has subscribed to events its file handle of the device, else NONE */
    uint32_t counted; /* events of those that it had of devices before */
    int priority;     /* of a video handle */
    int frames;       /* bytes of frames that lie in it */
    int is_told;      /* the urgent byte lies in it */
    int takers;       /* calls that are taking all out of it; meanwhile nothing is put in */
    int has_buffer;   /* a request was given a buffer */
};

/* A connection of calls; `descriptor` is -1 where the slot is free. */
struct caller {
    int descriptor;
    int process;           /* that made it */
    struct handle *taking; /* the handle out of which its last answer takes all */
    int waits;             /* whether a call of it waits */
    struct call waiting;
    uint32_t size;
    unsigned char payload[256]; /* of the call that waits, and its size */
};

/* A call while it is answered. */
struct asked {
    struct handle *handle, *request;
    uint32_t number;
    void *argument; /* the call's struct, written anew */
    uint32_t size;
    struct answer answer;
    int passed;       /* a descriptor that goes with the answer, or -1 */
    int is_given;     /* and is the program's alone from then on */
    int is_of_device; /* the device was asked */
};

/* Both fit into the 1,024 descriptors that a process has at least. */
#define MOST_HANDLES 400
#define MOST_CALLERS MOST_HANDLES
extern struct handle handles[MOST_HANDLES];
extern struct caller callers[MOST_CALLERS];
#define EACH(it, slots)                                                                                                          \
    for (__typeof__(&slots[0]) it = slots; it < slots + sizeof slots / sizeof slots[0]; it++)                                    \
        if (it->descriptor >= 0)

/* daemon.c */
/* Ends the daemon, and says why where it is known. */
void fail(const char *why) __attribute__((noreturn));
/* The same, by errno. */
void fail_at(const char *path) __attribute__((noreturn));
/* Ends it because of a word that it was begun with. */
void refuse(const char *why) __attribute__((noreturn));
/* Ends it where it is to end by now. */
void end_if_over(void);

/* place.c */
/* Takes a directory for the camera, which it makes where it isn't there, or where none is named. */
void place_take(const char *given);
/* Listens there for programs. */
int place_listen(void);
const char *place_path(void);
/* Removes what it made. */
void place_leave(void);

/* tree.c: what is found of the camera by its paths, in an entry of this name in the camera's open directory */
#define TREE "root"
void tree_make(int place);
void tree_remove(int place);

/* What changed since the calls that wait were looked at. */
enum { NEW_FRAMES = 1, NEW_EVENTS = 2 };
extern int news;

/* clients.c */
void clients_start(void);
struct handle *handle_named(uint32_t id);
struct handle *request_numbered(uint32_t number);
/* Which request keeps the device from being begun anew just now; null where none does. */
const char *not_quiet(void);
void greet(int listener);
/* Opens a handle of a kind for a process. */
uint32_t open_call(struct asked *asked, int kind, int process);
void forget(struct handle *handle);
void forget_caller(struct caller *caller);
void free_orphans(void);
/* Puts an urgent byte into each handle for which an event waits. */
void announce(void);
void tell_frame(struct handle *handle);
void tell_request(struct handle *handle);
/* Has the answer say that what lies in its handle is to be taken out, since it isn't so any more. Meanwhile nothing is put in; then
 * it is looked anew at what is so. */
void take_out(struct asked *asked);
/* The same where urgent bytes stand for events, and none waits any more. */
void take_event(struct asked *asked);
/* What an answer wanted taken out of a handle is out, or its program is gone; or it couldn't be taken out. */
void taken(struct caller *caller, int is_out);

/* pair.c: two sockets that are connected, the second one for a program, with its mark; the errno where they can't be had */
int make_pair(int pair[2], uint64_t mark);

/* calls.c */
void hear(struct caller *caller);
/* Answers the calls that wait, where they can be answered now. */
void answer_waiting(void);
const char *call_name(int kind, uint32_t number);

/* controls.c: calls that go to the device */
uint32_t control_call(struct asked *asked);
uint32_t line_call(struct asked *asked);
uint32_t event_call(struct asked *asked);
uint32_t forecast_call(struct asked *asked);
uint32_t request_call(struct asked *asked);
uint32_t highest_priority(void);
/* The file handle of the device that a video handle has. */
uint32_t device_handle(const struct handle *handle);
void controls_start(void);
/* Begins the device anew, with its history of steps empty, where that is due and nobody is in the way. */
void renew(void);

/* formats.c */
extern struct format {
    uint32_t width, height, rate; /* frames a second */
} format;
/* Takes the words for it, each of which may be empty. */
void formats_start(const char *size, const char *rate);
uint32_t format_call(struct asked *asked);
uint32_t priority_call(struct asked *asked);
uint32_t media_call(struct asked *asked);

/* buffers.c */
uint32_t buffer_call(struct asked *asked);
uint32_t map_call(struct asked *asked, const struct map *map);
int has_buffers(void);
/* What a request's queueing, its being made as new and its end do with its buffer. */
int has_bound_buffer(uint32_t request);
void queue_buffer(uint32_t request);
void unbind_buffer(uint32_t request);
/* What is left where a handle ends. */
void release_buffers(const struct handle *handle);
/* How many frames wait for a handle. */
uint32_t frames_for(const struct handle *handle);

/* frames.c */
void frames_start(void);
int frame_timer(void);
void frame_due(void);
void run_frames(int on);

/* picture.c */
void picture_start(void);
/* Paints the picture of a frame, with the device's present values. */
struct frame {
    uint32_t sequence, request, refused;
    struct timeval time;
};
void paint(unsigned char *picture, const struct frame *frame);
/* Writes the values of the last reply, with the ids of their controls; how many they are. */
struct vcam_value;
uint32_t put_values(struct vcam_value *values);

/* log.c */
void log_open(const char *path);
/* Keeps why the device refused the call that is being answered. */
void log_reason(void);
void log_line(const char *format, ...) __attribute__((format(printf, 1, 2)));
/* A call that was answered with an errno: `before` is its struct as it came. */
void log_call(const struct asked *asked, const void *before, uint32_t error);
#endif
