/* File handles and connections of programs, and the bytes by which a handle is ready for poll. No program is trusted: whatever it
 * sends, and whether it reads or ends, nothing here waits for it. */
#define _GNU_SOURCE
#include "../peer.h"
#include "daemon.h"
#include <errno.h>
#include <linux/videodev2.h>
#include <stdio.h>
#include <string.h>
#include <sys/random.h>
#include <sys/socket.h>
#include <unistd.h>

/* So many bytes of frames lie in a handle at most: each makes an edge for who waits for edges, and more would wait for the kernel to
 * acknowledge them, an urgent one behind them too. */
#define MOST_FRAME_BYTES 4

struct handle handles[MOST_HANDLES];
struct caller callers[MOST_CALLERS];
int news;

/* Requests that were closed while they were queued: the device lets them go once they are complete. */
static uint32_t orphans[MOST_HANDLES];
static int orphan_count;

void clients_start(void) {
    for (int i = 0; i < MOST_HANDLES; i++)
        handles[i].descriptor = callers[i].descriptor = -1;
}

struct handle *handle_named(uint32_t id) {
    EACH(it, handles)
        if (it->id == id)
            return it;
    return 0;
}

struct handle *request_numbered(uint32_t number) {
    EACH(it, handles)
        if (it->kind == REQUEST && it->number == number)
            return it;
    return 0;
}

const char *not_quiet(void) {
    if (orphan_count)
        return "a request that was closed is queued";
    EACH(it, handles)
        if (it->kind == REQUEST)
            return "a request is there";
    return 0;
}

static struct handle *free_handle(void) {
    for (int i = 0; i < MOST_HANDLES; i++)
        if (handles[i].descriptor < 0)
            return &handles[i];
    return 0;
}

/* A number that no handle has, of this camera and, by all chance, of any other one. */
static uint32_t new_id(void) {
    uint32_t id;
    do
        while (getrandom(&id, sizeof id, 0) != sizeof id)
            ;
    while (!id || handle_named(id));
    return id;
}

uint32_t open_call(struct asked *asked, int kind, int process) {
    static unsigned opened;
    struct handle *handle = free_handle(), it = {.kind = kind, .number = NONE, .priority = V4L2_PRIORITY_DEFAULT};
    int pair[2];
    if (kind != VIDEO && kind != MEDIA && kind != REQUEST)
        return EPROTO;
    snprintf(it.name, sizeof it.name, "%x.%x", process, opened++);
    if (!handle) {
        log_line("%s is refused: %d file handles are open", it.name, MOST_HANDLES);
        return ENFILE;
    }
    it.id = new_id();
    uint32_t error = make_pair(pair, MARK(kind, it.id));
    if (error)
        return error;
    if (kind == REQUEST) {
        error = ask(ASK_ALLOC, 0, 0, 0, 0, 0);
        it.number = reply.x;
        log_line("%s MEDIA_IOC_REQUEST_ALLOC -> %s", it.name, error ? strerrorname_np(error) : "ok");
    }
    if (error) {
        close(pair[0]);
        close(pair[1]);
        return error;
    }
    it.descriptor = pair[0];
    *handle = it;
    asked->passed = pair[1];
    asked->is_given = 1;
    return 0;
}

/* An answer gets lost where a connection is closed over a packet that wasn't read. */
static void refuse_caller(int descriptor) {
    struct answer refused = {.error = ENFILE};
    char byte;
    shutdown(descriptor, SHUT_RD);
    while (recv(descriptor, &byte, 1, MSG_DONTWAIT) > 0)
        ;
    send(descriptor, &refused, sizeof refused, MSG_NOSIGNAL | MSG_DONTWAIT);
    close(descriptor);
}

/* Accepts a connection of this user or root; what another one wants is said on the log. */
static int accept_own(int listener, struct ucred *peer) {
    int descriptor = accept4(listener, 0, 0, SOCK_CLOEXEC | SOCK_NONBLOCK);
    if (descriptor < 0 || is_trusted(descriptor, peer))
        return descriptor;
    log_line("process %d of user %u is refused: the camera is of user %u", peer->pid, peer->uid, geteuid());
    close(descriptor);
    return -1;
}

void greet(int listener) {
    struct ucred peer = {0};
    int descriptor = accept_own(listener, &peer);
    if (descriptor < 0)
        return;
    for (int i = 0; i < MOST_CALLERS; i++)
        if (callers[i].descriptor < 0) {
            callers[i] = (struct caller){.descriptor = descriptor, .process = peer.pid};
            return;
        }
    refuse_caller(descriptor);
    log_line("a connection is refused: %d are there", MOST_CALLERS);
}

void free_orphans(void) {
    for (int i = orphan_count - 1; i >= 0; i--)
        if (ask_number(ASK_FREE, orphans[i]) != EBUSY)
            orphans[i] = orphans[--orphan_count];
}

static void free_request(uint32_t number) {
    uint32_t error = ask_number(ASK_FREE, number);
    if (error == EBUSY && orphan_count < MOST_HANDLES)
        orphans[orphan_count++] = number;
    else
        unbind_buffer(number);
}

void forget(struct handle *handle) {
    EACH(it, callers)
        if (it->taking == handle)
            it->taking = 0;
    close(handle->descriptor);
    handle->descriptor = -1;
    if (handle->kind == REQUEST)
        free_request(handle->number);
    if (handle->kind == VIDEO) {
        release_buffers(handle);
        if (handle->number != NONE)
            ask_number(ASK_CLOSE, handle->number);
    }
    news |= NEW_FRAMES | NEW_EVENTS; /* who waits on it is to hear that it is gone */
}

static void put_byte(struct handle *handle, int flags) {
    send(handle->descriptor, "", 1, flags | MSG_NOSIGNAL | MSG_DONTWAIT);
}

void tell_frame(struct handle *handle) {
    if (!handle->takers && handle->frames < MOST_FRAME_BYTES) {
        put_byte(handle, 0);
        handle->frames++;
    }
    news |= NEW_FRAMES;
}

void tell_request(struct handle *handle) {
    if (handle->is_told || handle->takers)
        return;
    put_byte(handle, MSG_OOB);
    handle->is_told = 1;
}

static int has_event(const struct handle *handle) {
    return handle->kind == VIDEO && handle->number != NONE && !ask_number(ASK_WAITS, handle->number) && reply.x;
}

void announce(void) {
    EACH(it, handles)
        if (!it->is_told && !it->takers && has_event(it)) {
            put_byte(it, MSG_OOB);
            it->is_told = 1;
        }
}

void take_out(struct asked *asked) {
    asked->answer.is_stale = asked->handle->frames || asked->handle->is_told;
}

void take_event(struct asked *asked) {
    if (asked->handle->is_told && !has_event(asked->handle))
        take_out(asked);
}

void taken(struct caller *caller, int is_out) {
    struct handle *handle = caller->taking;
    caller->taking = 0;
    if (handle && is_out)
        handle->is_told = handle->frames = 0;
    if (!handle || --handle->takers)
        return;
    if (frames_for(handle))
        tell_frame(handle);
    if (handle->kind == REQUEST && !ask_number(ASK_STATE, handle->number) && reply.x == 3)
        tell_request(handle);
    news |= NEW_EVENTS;
}

void forget_caller(struct caller *caller) {
    taken(caller, 1);
    close(caller->descriptor);
    caller->descriptor = -1;
}
