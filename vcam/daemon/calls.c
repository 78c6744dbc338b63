/* Packets of programs: which call one is, who answers it, and what goes back. */
#define _GNU_SOURCE
#include "../vcam.h"
#include "daemon.h"
#include <errno.h>
#include <linux/media.h>
#include <linux/sockios.h>
#include <string.h>
#include <sys/ioctl.h>
#include <sys/socket.h>
#include <unistd.h>

enum {
    CHANGES = 1,    /* refused to a handle whose priority isn't the highest */
    ALWAYS_BACK = 2 /* its struct comes back where it is refused, too */
};

/* The calls that there are; any other one is ENOTTY. */
static const struct ioctl_call {
    uint32_t number;
    int kind, flags;
    const char *name;
    uint32_t (*answer)(struct asked *asked);
} table[] = {
    {VIDIOC_QUERYCAP, VIDEO, 0, "QUERYCAP", format_call},
    {VIDIOC_G_PRIORITY, VIDEO, 0, "G_PRIORITY", priority_call},
    {VIDIOC_S_PRIORITY, VIDEO, CHANGES, "S_PRIORITY", priority_call},
    {VIDIOC_ENUMINPUT, VIDEO, 0, "ENUMINPUT", format_call},
    {VIDIOC_G_INPUT, VIDEO, 0, "G_INPUT", format_call},
    {VIDIOC_S_INPUT, VIDEO, CHANGES, "S_INPUT", format_call},
    {VIDIOC_ENUM_FMT, VIDEO, 0, "ENUM_FMT", format_call},
    {VIDIOC_G_FMT, VIDEO, 0, "G_FMT", format_call},
    {VIDIOC_S_FMT, VIDEO, CHANGES, "S_FMT", format_call},
    {VIDIOC_TRY_FMT, VIDEO, 0, "TRY_FMT", format_call},
    {VIDIOC_ENUM_FRAMESIZES, VIDEO, 0, "ENUM_FRAMESIZES", format_call},
    {VIDIOC_ENUM_FRAMEINTERVALS, VIDEO, 0, "ENUM_FRAMEINTERVALS", format_call},
    {VIDIOC_G_PARM, VIDEO, 0, "G_PARM", format_call},
    {VIDIOC_S_PARM, VIDEO, CHANGES, "S_PARM", format_call},
    {VIDIOC_REQBUFS, VIDEO, CHANGES, "REQBUFS", buffer_call},
    {VIDIOC_CREATE_BUFS, VIDEO, CHANGES, "CREATE_BUFS", buffer_call},
    {VIDIOC_QUERYBUF, VIDEO, 0, "QUERYBUF", buffer_call},
    {VIDIOC_PREPARE_BUF, VIDEO, 0, "PREPARE_BUF", buffer_call},
    {VIDIOC_QBUF, VIDEO, 0, "QBUF", buffer_call},
    {VIDIOC_DQBUF, VIDEO, 0, "DQBUF", buffer_call},
    {VIDIOC_EXPBUF, VIDEO, 0, "EXPBUF", buffer_call},
    {VIDIOC_STREAMON, VIDEO, CHANGES, "STREAMON", buffer_call},
    {VIDIOC_STREAMOFF, VIDEO, CHANGES, "STREAMOFF", buffer_call},
    {VIDIOC_QUERYCTRL, VIDEO, 0, "QUERYCTRL", control_call},
    {VIDIOC_QUERY_EXT_CTRL, VIDEO, 0, "QUERY_EXT_CTRL", control_call},
    {VIDIOC_QUERYMENU, VIDEO, 0, "QUERYMENU", control_call},
    {VIDIOC_G_CTRL, VIDEO, 0, "G_CTRL", control_call},
    {VIDIOC_S_CTRL, VIDEO, CHANGES, "S_CTRL", control_call},
    {VIDIOC_G_EXT_CTRLS, VIDEO, ALWAYS_BACK, "G_EXT_CTRLS", control_call},
    {VIDIOC_S_EXT_CTRLS, VIDEO, CHANGES | ALWAYS_BACK, "S_EXT_CTRLS", control_call},
    {VIDIOC_TRY_EXT_CTRLS, VIDEO, ALWAYS_BACK, "TRY_EXT_CTRLS", control_call},
    {VIDIOC_SUBSCRIBE_EVENT, VIDEO, 0, "SUBSCRIBE_EVENT", event_call},
    {VIDIOC_UNSUBSCRIBE_EVENT, VIDEO, 0, "UNSUBSCRIBE_EVENT", event_call},
    {VIDIOC_DQEVENT, VIDEO, 0, "DQEVENT", event_call},
    {VIDIOC_VCAM_FORECAST, VIDEO, 0, "FORECAST", forecast_call},
    {MEDIA_IOC_DEVICE_INFO, MEDIA, 0, "MEDIA_IOC_DEVICE_INFO", media_call},
    {MEDIA_REQUEST_IOC_QUEUE, REQUEST, 0, "MEDIA_REQUEST_IOC_QUEUE", request_call},
    {MEDIA_REQUEST_IOC_REINIT, REQUEST, 0, "MEDIA_REQUEST_IOC_REINIT", request_call},
};

/* A packet as it comes. Its payload is also where the call's struct is answered. */
static struct {
    struct call call;
    _Alignas(16) unsigned char payload[MOST_PAYLOAD];
} packet;
_Static_assert(offsetof(__typeof__(packet), payload) == sizeof packet.call, "the payload follows its head");

static const struct ioctl_call *call_of(int kind, uint32_t number) {
    for (size_t i = 0; i < sizeof table / sizeof *table; i++)
        if (table[i].number == number && table[i].kind == kind)
            return &table[i];
    return 0;
}

const char *call_name(int kind, uint32_t number) {
    const struct ioctl_call *call = call_of(kind, number);
    return call ? call->name : "?";
}

/* Whether an answer is that nothing is there yet, for which a program may wait. */
static int is_early(uint32_t number, uint32_t error) {
    return (number == VIDIOC_DQBUF && error == EAGAIN) || (number == VIDIOC_DQEVENT && error == ENOENT);
}

/* Answers an ioctl, whose struct has come or is to come back; its errno. */
static uint32_t answer_ioctl(struct asked *asked, const struct call *head, uint32_t *back) {
    const struct ioctl_call *call = call_of(asked->handle->kind, head->number);
    uint32_t size = _IOC_SIZE(head->number);
    _Alignas(16) static unsigned char before[MOST_PAYLOAD];
    *back = 0;
    if (!call)
        return ENOTTY;
    if (_IOC_DIR(head->number) & _IOC_WRITE) {
        if (asked->size < size)
            return EPROTO;
    } else {
        memset(asked->argument, 0, size);
        asked->size = size;
    }
    if (call->flags & CHANGES && asked->handle->priority < (int)highest_priority())
        return EBUSY;
    memcpy(before, asked->argument, asked->size);
    uint32_t error = call->answer(asked);
    if (!(is_early(head->number, error) && head->may_wait))
        log_call(asked, before, error);
    if (_IOC_DIR(head->number) & _IOC_READ && (!error || call->flags & ALWAYS_BACK))
        *back = asked->size;
    return error;
}

/* Sends an answer and so many bytes of its struct. Who doesn't take it is forgotten: a caller reads each answer before it asks anew. */
static void send_answer(struct caller *caller, struct asked *asked, uint32_t back) {
    char room[CMSG_SPACE(sizeof(int))] = {0};
    struct iovec parts[2] = {{&asked->answer, sizeof asked->answer}, {asked->argument, back}};
    struct msghdr message = {.msg_iov = parts, .msg_iovlen = 2};
    if (asked->passed >= 0) {
        message.msg_control = room;
        message.msg_controllen = sizeof room;
        struct cmsghdr *part = CMSG_FIRSTHDR(&message);
        *part = (struct cmsghdr){.cmsg_len = CMSG_LEN(sizeof(int)), .cmsg_level = SOL_SOCKET, .cmsg_type = SCM_RIGHTS};
        memcpy(CMSG_DATA(part), &asked->passed, sizeof(int));
    }
    if (asked->answer.is_stale) {
        asked->handle->takers++;
        caller->taking = asked->handle;
    }
    if (sendmsg(caller->descriptor, &message, MSG_NOSIGNAL | MSG_DONTWAIT) < 0)
        forget_caller(caller);
    if (asked->is_given)
        close(asked->passed);
}

/* Does what a call on a handle wants, whose struct has come or is to come back; its errno. */
static uint32_t answer_handle(struct asked *asked, const struct call *call, uint32_t *back) {
    if (!asked->handle)
        return ENODEV; /* it is one of another camera */
    if (call->what == CALL_MAP)
        return asked->size == sizeof(struct map) ? map_call(asked, asked->argument) : EPROTO;
    return call->what == CALL_IOCTL ? answer_ioctl(asked, call, back) : EPROTO;
}

/* Answers a call, or says that it waits. */
static int answer(struct caller *caller, const struct call *call, unsigned char *payload, uint32_t size) {
    struct asked asked = {.number = call->number, .argument = payload, .size = size, .passed = -1};
    uint32_t error = 0, back = 0;
    asked.handle = handle_named(call->handle);
    asked.request = handle_named(call->request);
    if (asked.request && asked.request->kind != REQUEST)
        asked.request = 0;
    if (call->what == CALL_TAKEN && asked.handle && !caller->taking) { /* the connection is gone over which its answer went */
        caller->taking = asked.handle;
        asked.handle->takers++;
    }
    taken(caller, call->what != CALL_TAKEN || call->number);
    if (call->what == CALL_OPEN)
        error = open_call(&asked, call->number, caller->process);
    else if (call->what == CALL_LINE) {
        error = line_call(&asked);
        back = asked.size;
    } else if (call->what != CALL_TAKEN)
        error = answer_handle(&asked, call, &back);
    if (call->may_wait && is_early(call->number, error))
        return 1;
    if (news & NEW_EVENTS)
        announce(); /* an event is there before the call that raised it returns */
    asked.answer.error = error;
    send_answer(caller, &asked, back);
    return 0;
}

static void keep_waiting(struct caller *caller, uint32_t size) {
    if (size > sizeof caller->payload)
        size = sizeof caller->payload;
    caller->waits = 1;
    caller->waiting = packet.call;
    caller->size = size;
    memcpy(caller->payload, packet.payload, size);
}

static void stop_waiting(struct caller *caller) {
    struct asked asked = {.answer = {.error = EINTR}, .passed = -1};
    if (!caller->waits)
        return; /* its answer is on the way already */
    caller->waits = 0;
    send_answer(caller, &asked, 0);
}

void hear(struct caller *caller) {
    ssize_t got = recv(caller->descriptor, &packet, sizeof packet, MSG_DONTWAIT | MSG_TRUNC);
    int unread = 0;
    if (got < 0 && (errno == EAGAIN || errno == EINTR))
        return;
    if (got < (ssize_t)sizeof packet.call || got > (ssize_t)sizeof packet) {
        forget_caller(caller);
        return;
    }
    if (packet.call.what == CALL_STOP) {
        stop_waiting(caller);
        return;
    }
    /* what answers nobody reads would fill this side's memory */
    ioctl(caller->descriptor, SIOCOUTQ, &unread);
    if (unread || caller->waits) {
        forget_caller(caller);
        return;
    }
    uint32_t size = got - sizeof packet.call;
    if (answer(caller, &packet.call, packet.payload, size))
        keep_waiting(caller, size);
}

/* Whether a call that waits may have an answer now. */
static int is_worth_asking(const struct caller *caller, int what_is_new) {
    return what_is_new & (caller->waiting.number == VIDIOC_DQBUF ? NEW_FRAMES : NEW_EVENTS);
}

void answer_waiting(void) {
    int what_is_new = news;
    EACH(it, callers) {
        if (!it->waits || !is_worth_asking(it, what_is_new))
            continue;
        memcpy(packet.payload, it->payload, it->size);
        it->waits = 0;
        it->waits = answer(it, &it->waiting, packet.payload, it->size);
    }
}
