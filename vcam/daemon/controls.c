/* The calls that the proved device answers: controls, events, requests, forecasts, lines of scripts; and its long life. */
#define _GNU_SOURCE
#include "../vcam.h"
#include "daemon.h"
#include <errno.h>
#include <linux/media.h>
#include <stdio.h>
#include <stdlib.h>
#include <string.h>
#include <time.h>

/* The file handle of the device that all share who have subscribed to nothing: such a one has no events, so nobody sees it shared. */
static uint32_t common;
static uint32_t renew_at = 900000;
static uint32_t asks;

static void open_common(void) {
    if (ask_number(ASK_OPEN, NONE))
        fail("the device has no handler");
    common = reply.x;
}

void controls_start(void) {
    const char *given = getenv("VCAM_RENEW_AT");
    if (given && *given)
        renew_at = strtoul(given, 0, 10);
    open_common();
}

uint32_t device_handle(const struct handle *handle) {
    return handle->number == NONE ? common : handle->number;
}

uint32_t highest_priority(void) {
    int highest = V4L2_PRIORITY_UNSET;
    EACH(it, handles)
        if (it->kind == VIDEO && it->priority > highest)
            highest = it->priority;
    return highest;
}

/* Has the device answer the call; its struct is written anew. */
static uint32_t device_call(struct asked *asked) {
    uint32_t request = asked->request ? asked->request->number : NONE;
    asks++;
    asked->is_of_device = 1;
    ask(ASK_CALL, device_handle(asked->handle), request, asked->number, asked->argument, asked->size);
    if (reply.length == asked->size)
        memcpy(asked->argument, reply.payload, asked->size);
    return reply.error;
}

uint32_t control_call(struct asked *asked) {
    uint32_t error = device_call(asked);
    if (asked->number == VIDIOC_S_CTRL || asked->number == VIDIOC_S_EXT_CTRLS)
        news |= NEW_EVENTS;
    return error;
}

/* A video handle has a file handle of the device from its first subscription on, which counts its events. Where that one goes before
 * it, the count goes on from there. */
static void give_up(struct handle *handle) {
    if (!ask_number(ASK_EVENTS, handle->number))
        handle->counted += reply.x;
    ask_number(ASK_CLOSE, handle->number);
    handle->number = NONE;
}

/* Gives one up that has no subscription; whether there was one. */
static int give_up_idle(void) {
    EACH(it, handles)
        if (it->kind == VIDEO && it->number != NONE && !ask_number(ASK_EVENTS, it->number) && !reply.y) {
            give_up(it);
            return 1;
        }
    return 0;
}

/* A device has at most 64 file handles. */
static uint32_t take_up(struct handle *handle) {
    uint32_t error = ask_number(ASK_OPEN, NONE);
    if (error && give_up_idle())
        error = ask_number(ASK_OPEN, NONE);
    if (!error)
        handle->number = reply.x;
    return error;
}

static uint32_t subscribe(struct asked *asked) {
    struct handle *handle = asked->handle;
    int is_first = handle->number == NONE;
    uint32_t error = is_first ? take_up(handle) : 0;
    if (error)
        return error;
    error = device_call(asked);
    if (error && is_first) {
        log_reason(); /* while it is known */
        give_up(handle);
    }
    return error;
}

static uint32_t take_one_event(struct asked *asked) {
    struct v4l2_event *event = asked->argument;
    uint32_t error = device_call(asked);
    if (!error) {
        clock_gettime(CLOCK_MONOTONIC, &event->timestamp);
        event->sequence += asked->handle->counted;
    }
    take_event(asked);
    return error;
}

uint32_t event_call(struct asked *asked) {
    if (asked->number == VIDIOC_DQEVENT)
        return take_one_event(asked);
    uint32_t error = asked->number == VIDIOC_SUBSCRIBE_EVENT ? subscribe(asked) : device_call(asked);
    if (asked->number == VIDIOC_UNSUBSCRIBE_EVENT)
        take_event(asked);
    news |= NEW_EVENTS;
    return error;
}

uint32_t forecast_call(struct asked *asked) {
    struct vcam_forecast *forecast = asked->argument;
    asked->is_of_device = 1;
    uint32_t error = ask_number(ASK_FORECAST, forecast->place);
    if (error)
        return error;
    forecast->request = reply.x;
    forecast->buffer = reply.y;
    forecast->refused = reply.z;
    forecast->reserved = 0;
    forecast->count = put_values(forecast->values);
    return 0;
}

static uint32_t queue_request(struct handle *request) {
    /* its buffer may have gone with the stream's end or the buffers' */
    if (request->has_buffer && !has_bound_buffer(request->number)) {
        uint32_t error = ask_number(ASK_STATE, request->number);
        if (!error && reply.x == 0)
            return ENOENT;
    }
    uint32_t error = ask_number(ASK_QUEUE, request->number);
    if (!error)
        queue_buffer(request->number);
    return error;
}

uint32_t request_call(struct asked *asked) {
    struct handle *request = asked->handle;
    asked->is_of_device = 1;
    if (asked->number == MEDIA_REQUEST_IOC_QUEUE)
        return queue_request(request);
    uint32_t error = ask_number(ASK_REINIT, request->number);
    if (error)
        return error;
    unbind_buffer(request->number);
    request->has_buffer = 0;
    take_out(asked);
    return 0;
}

/* How many steps the device has taken, and file handles of it there are, in words. */
static uint32_t count_call(struct asked *asked) {
    uint32_t error = ask(ASK_COUNTS, 0, 0, 0, 0, 0);
    asked->size = snprintf(asked->argument, MOST_PAYLOAD, "%u steps, %u file handles, %u requests\n", reply.x, reply.y, reply.z);
    return error;
}

uint32_t line_call(struct asked *asked) {
    asks++;
    if (asked->size == 5 && !memcmp(asked->argument, "steps", 5))
        return count_call(asked);
    int length = asked->size;
    uint32_t error = ask(ASK_LINE, 0, 0, 0, asked->argument, asked->size);
    int is_accepted = !error && reply.x == 1;
    log_line("line %.*s -> %.*s", length, (char *)asked->argument, (int)reply.length, (char *)reply.payload);
    asked->size = reply.length < MOST_PAYLOAD ? reply.length : MOST_PAYLOAD;
    memcpy(asked->argument, reply.payload, asked->size);
    news |= NEW_EVENTS;
    return error ? error : is_accepted ? 0 : EINVAL;
}

/* The device keeps at most 1,000,000 steps. Nobody sees it begun anew who has subscribed to nothing and has no request: its ranges,
 * values, flags and grabs are the same. */
static void begin_anew(uint32_t steps) {
    static uint32_t try_at, say_at; /* after a failure a while goes by */
    const char *hindrance = not_quiet();
    if (!hindrance && steps >= try_at) {
        while (give_up_idle()) /* a fresh device has none of the file handles of the one before it */
            ;
        uint32_t error = ask(ASK_RENEW, 0, 0, 0, 0, 0);
        if (!error) {
            log_line("the device is begun anew: %u steps became %u", reply.x, reply.y);
            try_at = say_at = 0;
            open_common();
            return;
        }
        try_at = steps + 10000;
        hindrance = error == EBUSY ? "somebody has subscribed to events" : strerrorname_np(error);
    }
    if (hindrance && steps >= say_at) {
        log_line("the device has taken %u steps of 1000000, and isn't begun anew: %s", steps, hindrance);
        say_at = steps + 10000;
    }
}

void renew(void) {
    static uint32_t looked_at;
    uint32_t often = renew_at > 1000 ? 256 : 1;
    if (asks - looked_at < often)
        return;
    looked_at = asks;
    ask(ASK_COUNTS, 0, 0, 0, 0, 0);
    if (!reply.error && reply.x >= renew_at)
        begin_anew(reply.x);
}
