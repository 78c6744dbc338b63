/* The log: a line for each call of controls, events and requests, its answer, and of a refusal the device's reason. */
#define _GNU_SOURCE
#include "../vcam.h"
#include "daemon.h"
#include <errno.h>
#include <linux/media.h>
#include <stdarg.h>
#include <stdio.h>
#include <string.h>

static FILE *log_file;
static char reason[512]; /* why the call that is being answered was refused */

void log_open(const char *path) {
    if (!*path)
        return;
    log_file = fopen(path, "ae");
    if (!log_file)
        fail("the log can't be opened");
    setvbuf(log_file, 0, _IOLBF, BUFSIZ);
}

void log_line(const char *format, ...) {
    va_list arguments;
    char line[2048];
    if (!log_file)
        return;
    va_start(arguments, format);
    vsnprintf(line, sizeof line, format, arguments);
    va_end(arguments);
    line[strcspn(line, "\n")] = 0;
    fprintf(log_file, "%s\n", line);
}

void log_reason(void) {
    if (!log_file || *reason || ask(ASK_WHY, 0, 0, 0, 0, 0))
        return;
    snprintf(reason, sizeof reason, "%.*s", (int)reply.length, (char *)reply.payload);
}

/* Adds words to the text. */
#define ADD(...) (at += snprintf(at, at < end ? end - at : 0, __VA_ARGS__), at = at < end ? at : end)

/* An entry's value, or how many bytes its payload has. */
static char *add_entry(char *at, char *end, const struct v4l2_ext_control *entry) {
    if (entry->size)
        ADD("(%u bytes)", entry->size);
    else
        ADD("%d", entry->value);
    return at;
}

/* The entries of a list: those that are asked for, or the values that they are answered. */
static char *add_list(char *at, char *end, const struct asked *asked, const void *argument, int is_answer) {
    const struct v4l2_ext_controls *list = argument;
    const struct v4l2_ext_control *entries = (const void *)(list + 1);
    uint32_t there = (asked->size - sizeof *list) / (sizeof *entries + SLOT);
    if (!is_answer && list->which == V4L2_CTRL_WHICH_REQUEST_VAL)
        ADD(" request %s", asked->request ? asked->request->name : "none");
    else if (!is_answer && list->which)
        ADD(" which 0x%08x", list->which);
    for (uint32_t i = 0; i < list->count && i < there; i++) {
        ADD(" ");
        if (!is_answer)
            ADD("0x%08x%s", entries[i].id, asked->number == VIDIOC_G_EXT_CTRLS ? "" : "=");
        if (is_answer || asked->number != VIDIOC_G_EXT_CTRLS)
            at = add_entry(at, end, &entries[i]);
    }
    return at;
}

static char *add_asked(char *at, char *end, const struct asked *asked, const void *argument) {
    const uint32_t *numbers = argument;
    switch (asked->number) {
    case VIDIOC_S_CTRL:
        ADD(" 0x%08x=%d", numbers[0], (int)numbers[1]);
        break;
    case VIDIOC_G_CTRL:
    case VIDIOC_QUERYCTRL:
    case VIDIOC_QUERY_EXT_CTRL:
        ADD(" 0x%08x", numbers[0]);
        break;
    case VIDIOC_QUERYMENU:
        ADD(" 0x%08x item %u", numbers[0], numbers[1]);
        break;
    case VIDIOC_SUBSCRIBE_EVENT:
    case VIDIOC_UNSUBSCRIBE_EVENT:
        ADD(" type %u id 0x%08x flags %u", numbers[0], numbers[1], numbers[2]);
        break;
    case VIDIOC_VCAM_FORECAST:
        ADD(" place %u", numbers[0]);
        break;
    case VIDIOC_QBUF:
        ADD(" buffer %u request %s", numbers[0], asked->request ? asked->request->name : "none");
        break;
    case VIDIOC_G_EXT_CTRLS:
    case VIDIOC_S_EXT_CTRLS:
    case VIDIOC_TRY_EXT_CTRLS:
        at = add_list(at, end, asked, argument, 0);
    }
    return at;
}

static char *add_event(char *at, char *end, const struct v4l2_event *event) {
    ADD(" event %u of 0x%08x", event->type, event->id);
    if (event->type == V4L2_EVENT_CTRL)
        ADD(": changes %u value %lld flags 0x%x", event->u.ctrl.changes, (long long)event->u.ctrl.value64, event->u.ctrl.flags);
    return at;
}

static char *add_answer(char *at, char *end, const struct asked *asked) {
    const uint32_t *numbers = asked->argument;
    const struct v4l2_query_ext_ctrl *query = asked->argument;
    switch (asked->number) {
    case VIDIOC_S_CTRL:
    case VIDIOC_G_CTRL:
        ADD(" %d", (int)numbers[1]);
        break;
    case VIDIOC_QUERYCTRL:
    case VIDIOC_QUERY_EXT_CTRL: /* the two begin alike */
        ADD(" 0x%08x %.32s", query->id, query->name);
        break;
    case VIDIOC_DQEVENT:
        at = add_event(at, end, asked->argument);
        break;
    case VIDIOC_VCAM_FORECAST:
        ADD(" request %u buffer %u refused clusters: %u", numbers[1], numbers[2], numbers[3]);
        break;
    case VIDIOC_G_EXT_CTRLS:
    case VIDIOC_S_EXT_CTRLS:
    case VIDIOC_TRY_EXT_CTRLS:
        at = add_list(at, end, asked, asked->argument, 1);
    }
    return at;
}

/* Of the calls of buffers those are of interest that name a request. */
static int is_of_interest(const struct asked *asked) {
    if (asked->is_of_device)
        return 1;
    if (asked->number == VIDIOC_QBUF)
        return ((const struct v4l2_buffer *)asked->argument)->flags & V4L2_BUF_FLAG_REQUEST_FD;
    return asked->number == VIDIOC_S_CTRL || asked->number == VIDIOC_S_EXT_CTRLS; /* refused by priority */
}

void log_call(const struct asked *asked, const void *before, uint32_t error) {
    char line[2048], *at = line, *end = line + sizeof line - 1;
    if (!log_file || !is_of_interest(asked))
        return;
    ADD("%s %s", asked->handle->name, call_name(asked->handle->kind, asked->number));
    at = add_asked(at, end, asked, before);
    if (error) {
        if (asked->is_of_device)
            log_reason();
        ADD(" -> %s%s%s", strerrorname_np(error), *reason ? ": " : "", reason);
    } else {
        ADD(" -> ok");
        at = add_answer(at, end, asked);
    }
    *reason = 0;
    log_line("%s", line);
}
