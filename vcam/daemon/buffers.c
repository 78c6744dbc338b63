/* The queue of buffers: memory that programs map, and the frames that wait for them. One file handle owns it, that which asked for
 * the buffers. */
#define _GNU_SOURCE
#include "daemon.h"
#include "frames.h"
#include <errno.h>
#include <fcntl.h>
#include <linux/videodev2.h>
#include <string.h>
#include <sys/mman.h>
#include <unistd.h>

#define MOST_BUFFERS 32
#define MOST_SIZE 0x2000000u /* of one buffer; also how far their offsets for mmap are apart */
#define CAPABILITIES (V4L2_BUF_CAP_SUPPORTS_MMAP | V4L2_BUF_CAP_SUPPORTS_REQUESTS | V4L2_BUF_CAP_SUPPORTS_ORPHANED_BUFS)

enum state { FREE, IN_REQUEST, QUEUED, DONE };

struct buffer {
    int file; /* its memory, and where that is mapped here */
    unsigned char *bytes;
    uint32_t size;
    enum state state;
    int is_prepared, is_mapped;
    uint32_t request; /* the number of its request, or NONE */
    int request_fd;   /* as the program named it */
    int has_frame;
    struct frame frame;
};

static struct buffer buffers[MOST_BUFFERS];
static uint32_t count;
static struct handle *owner;
static int is_streaming;
/* Buffers without requests and with requests don't stand in one queue. */
static enum { UNUSED, WITHOUT_REQUESTS, WITH_REQUESTS } mode;
static uint32_t sequence; /* of the frame that is due next */

/* The numbers of buffers that wait for a frame, and of those whose frame waits for the program, the first one first. */
static struct line {
    uint32_t length, numbers[MOST_BUFFERS];
} waiting, done;

static void append(struct line *line, uint32_t number) {
    line->numbers[line->length++] = number;
}

static uint32_t take_first(struct line *line) {
    uint32_t first = line->numbers[0];
    line->length--;
    memmove(line->numbers, line->numbers + 1, line->length * sizeof *line->numbers);
    return first;
}

uint32_t frames_for(const struct handle *handle) {
    return owner == handle ? done.length : 0;
}

int has_buffers(void) {
    return count != 0;
}

static int is_of_another(const struct asked *asked) {
    return owner && owner != asked->handle;
}

static struct buffer *buffer_of(uint32_t request) {
    for (uint32_t i = 0; i < count; i++)
        if (request != NONE && buffers[i].request == request)
            return &buffers[i];
    return 0;
}

int has_bound_buffer(uint32_t request) {
    return buffer_of(request) != 0;
}

void queue_buffer(uint32_t request) {
    struct buffer *buffer = buffer_of(request);
    if (buffer && buffer->state == IN_REQUEST)
        buffer->state = QUEUED;
}

void unbind_buffer(uint32_t request) {
    struct buffer *buffer = buffer_of(request);
    if (!buffer)
        return;
    buffer->request = NONE;
    if (buffer->state == IN_REQUEST)
        buffer->state = FREE;
}

/* Ends the stream: all buffers are the program's again, and all requests that are queued are complete. */
static void end_stream(struct asked *asked) {
    int has_requests = mode == WITH_REQUESTS;
    run_frames(0);
    is_streaming = 0;
    mode = UNUSED;
    waiting.length = done.length = 0;
    for (uint32_t i = 0; i < count; i++) {
        buffers[i].state = FREE;
        buffers[i].is_prepared = 0;
        buffers[i].request = NONE;
    }
    if (has_requests)
        end_requests();
    if (asked)
        take_out(asked);
    news |= NEW_FRAMES | NEW_EVENTS;
}

/* Their memory lasts as long as a program maps it. */
static void free_buffers(void) {
    for (uint32_t i = 0; i < count; i++) {
        munmap(buffers[i].bytes, buffers[i].size);
        close(buffers[i].file);
    }
    count = 0;
}

static int add_buffer(uint32_t size) {
    struct buffer *buffer = &buffers[count];
    *buffer = (struct buffer){.file = memfd_create("buffer", MFD_CLOEXEC | MFD_ALLOW_SEALING), .size = size, .request = NONE};
    if (buffer->file < 0)
        return ENOMEM;
    /* sealed, so that who maps it need not fear for what it maps */
    if (!ftruncate(buffer->file, size) && !fcntl(buffer->file, F_ADD_SEALS, F_SEAL_SHRINK | F_SEAL_GROW | F_SEAL_SEAL))
        buffer->bytes = mmap(0, size, PROT_READ | PROT_WRITE, MAP_SHARED, buffer->file, 0);
    if (!buffer->bytes || buffer->bytes == MAP_FAILED) {
        close(buffer->file);
        return ENOMEM;
    }
    count++;
    return 0;
}

/* Adds as many as there are room and memory for; how many. */
static uint32_t add_buffers(uint32_t wanted, uint32_t size) {
    uint32_t added = 0;
    uint32_t page = sysconf(_SC_PAGESIZE);
    while (added < wanted && count < MOST_BUFFERS && !add_buffer((size + page - 1) / page * page))
        added++;
    return added;
}

void release_buffers(const struct handle *handle) {
    if (!owner || owner != handle)
        return;
    end_stream(0);
    free_buffers();
    owner = 0;
}

static uint32_t request_buffers(struct asked *asked) {
    struct v4l2_requestbuffers *it = asked->argument;
    if (it->type != V4L2_BUF_TYPE_VIDEO_CAPTURE || it->memory != V4L2_MEMORY_MMAP)
        return EINVAL;
    if (is_of_another(asked) || is_streaming)
        return EBUSY;
    it->capabilities = CAPABILITIES;
    it->flags = 0;
    memset(it->reserved, 0, sizeof it->reserved);
    end_stream(asked);
    free_buffers();
    owner = 0;
    if (!it->count)
        return 0;
    it->count = add_buffers(it->count < 2 ? 2 : it->count, PICTURE_BYTES);
    if (!it->count)
        return ENOMEM;
    owner = asked->handle;
    return 0;
}

static uint32_t create_buffers(struct asked *asked) {
    struct v4l2_create_buffers *it = asked->argument;
    uint32_t size = it->format.fmt.pix.sizeimage;
    if (it->format.type != V4L2_BUF_TYPE_VIDEO_CAPTURE || it->memory != V4L2_MEMORY_MMAP)
        return EINVAL;
    it->capabilities = CAPABILITIES;
    it->index = count;
    it->flags = 0;
    memset(it->reserved, 0, sizeof it->reserved);
    if (!it->count)
        return 0;
    if (is_of_another(asked))
        return EBUSY;
    if (size < PICTURE_BYTES || size > MOST_SIZE)
        return EINVAL;
    if (count == MOST_BUFFERS)
        return ENOBUFS;
    it->count = add_buffers(it->count, size);
    if (!it->count)
        return ENOMEM;
    owner = asked->handle;
    return 0;
}

/* What a program is told of a buffer. */
static void tell_buffer(struct v4l2_buffer *it, uint32_t number) {
    static const uint32_t flags[] = {
        [IN_REQUEST] = V4L2_BUF_FLAG_IN_REQUEST, [QUEUED] = V4L2_BUF_FLAG_QUEUED, [DONE] = V4L2_BUF_FLAG_DONE};
    const struct buffer *buffer = &buffers[number];
    *it = (struct v4l2_buffer){.index = number, .type = V4L2_BUF_TYPE_VIDEO_CAPTURE, .memory = V4L2_MEMORY_MMAP};
    it->length = buffer->size;
    it->m.offset = number * MOST_SIZE;
    it->field = V4L2_FIELD_NONE;
    it->flags = V4L2_BUF_FLAG_TIMESTAMP_MONOTONIC | V4L2_BUF_FLAG_TSTAMP_SRC_EOF | flags[buffer->state];
    if (buffer->is_mapped)
        it->flags |= V4L2_BUF_FLAG_MAPPED;
    if (buffer->is_prepared && (buffer->state == FREE || buffer->state == IN_REQUEST))
        it->flags |= V4L2_BUF_FLAG_PREPARED;
    if (buffer->request != NONE) {
        it->flags |= V4L2_BUF_FLAG_REQUEST_FD;
        it->request_fd = buffer->request_fd;
    }
    if (buffer->has_frame) {
        it->bytesused = PICTURE_BYTES;
        it->sequence = buffer->frame.sequence;
        it->timestamp = buffer->frame.time;
    }
}

static uint32_t query_buffer(struct v4l2_buffer *it) {
    if (it->type != V4L2_BUF_TYPE_VIDEO_CAPTURE || it->index >= count)
        return EINVAL;
    tell_buffer(it, it->index);
    return 0;
}

static uint32_t prepare_buffer(struct v4l2_buffer *it, struct buffer *buffer) {
    if (it->flags & V4L2_BUF_FLAG_REQUEST_FD || buffer->state != FREE || buffer->is_prepared)
        return EINVAL;
    buffer->is_prepared = 1;
    return 0;
}

static uint32_t queue_in_request(struct asked *asked, struct v4l2_buffer *it, struct buffer *buffer) {
    if (mode == WITHOUT_REQUESTS)
        return EBUSY;
    if (!asked->request)
        return EINVAL;
    asked->is_of_device = 1;
    uint32_t error = ask(ASK_ADD_BUFFER, asked->request->number, it->index, 0, 0, 0);
    if (error)
        return error;
    mode = WITH_REQUESTS;
    buffer->state = IN_REQUEST;
    buffer->request = asked->request->number;
    buffer->request_fd = it->request_fd;
    asked->request->has_buffer = 1;
    return 0;
}

static uint32_t queue_alone(struct v4l2_buffer *it, struct buffer *buffer) {
    if (mode == WITH_REQUESTS)
        return EBUSY;
    mode = WITHOUT_REQUESTS;
    buffer->state = QUEUED;
    append(&waiting, it->index);
    return 0;
}

static uint32_t queue_or_prepare(struct asked *asked) {
    struct v4l2_buffer *it = asked->argument;
    if (is_of_another(asked))
        return EBUSY;
    if (it->type != V4L2_BUF_TYPE_VIDEO_CAPTURE || it->index >= count || it->memory != V4L2_MEMORY_MMAP)
        return EINVAL;
    struct buffer *buffer = &buffers[it->index];
    uint32_t error;
    if (asked->number == VIDIOC_PREPARE_BUF)
        error = prepare_buffer(it, buffer);
    else if (buffer->state != FREE)
        error = EINVAL;
    else if (it->flags & V4L2_BUF_FLAG_REQUEST_FD)
        error = queue_in_request(asked, it, buffer);
    else
        error = queue_alone(it, buffer);
    if (error)
        return error;
    if (asked->number == VIDIOC_QBUF)
        buffer->has_frame = 0;
    tell_buffer(it, it->index);
    return 0;
}

static uint32_t take_buffer(struct asked *asked) {
    struct v4l2_buffer *it = asked->argument;
    if (is_of_another(asked))
        return EBUSY;
    if (it->type != V4L2_BUF_TYPE_VIDEO_CAPTURE || !is_streaming)
        return EINVAL;
    asked->answer.is_stale = !done.length && asked->handle->frames; /* what a call had to leave whose descriptor was closed */
    if (!done.length)
        return EAGAIN;
    uint32_t number = take_first(&done);
    buffers[number].state = FREE;
    tell_buffer(it, number);
    buffers[number].request = NONE;
    take_out(asked);
    return 0;
}

static uint32_t start_or_stop(struct asked *asked) {
    if (*(uint32_t *)asked->argument != V4L2_BUF_TYPE_VIDEO_CAPTURE)
        return EINVAL;
    if (is_of_another(asked))
        return EBUSY;
    if (asked->number == VIDIOC_STREAMOFF) {
        end_stream(asked);
        return 0;
    }
    if (!count)
        return EINVAL;
    if (!is_streaming) {
        sequence = 0;
        is_streaming = 1;
        run_frames(1);
    }
    return 0;
}

/* A buffer's memory goes to the program as a descriptor, which the shim writes into the struct. */
static uint32_t export_buffer(struct asked *asked) {
    struct v4l2_exportbuffer *it = asked->argument;
    if (it->type != V4L2_BUF_TYPE_VIDEO_CAPTURE || it->index >= count || it->plane || it->flags & ~(O_CLOEXEC | O_ACCMODE))
        return EINVAL;
    if (is_of_another(asked))
        return EBUSY;
    memset(it->reserved, 0, sizeof it->reserved);
    asked->passed = buffers[it->index].file;
    return 0;
}

uint32_t buffer_call(struct asked *asked) {
    switch (asked->number) {
    case VIDIOC_REQBUFS:
        return request_buffers(asked);
    case VIDIOC_CREATE_BUFS:
        return create_buffers(asked);
    case VIDIOC_QUERYBUF:
        return query_buffer(asked->argument);
    case VIDIOC_QBUF:
    case VIDIOC_PREPARE_BUF:
        return queue_or_prepare(asked);
    case VIDIOC_DQBUF:
        return take_buffer(asked);
    case VIDIOC_EXPBUF:
        return export_buffer(asked);
    case VIDIOC_STREAMON:
    case VIDIOC_STREAMOFF:
        return start_or_stop(asked);
    default:
        return ENOTTY;
    }
}

uint32_t map_call(struct asked *asked, const struct map *map) {
    uint32_t number = map->offset / MOST_SIZE;
    if (asked->handle->kind != VIDEO || map->offset % MOST_SIZE || map->offset / MOST_SIZE >= count)
        return EINVAL;
    if (map->length > buffers[number].size)
        return EINVAL;
    buffers[number].is_mapped = 1;
    asked->passed = buffers[number].file;
    return 0;
}

int is_running(void) {
    return is_streaming;
}

int first_waiting(uint32_t *number) {
    if (!waiting.length)
        return 0;
    *number = take_first(&waiting);
    return 1;
}

int holds_requests(void) {
    return mode == WITH_REQUESTS;
}

int is_queued_in(uint32_t number, uint32_t request) {
    return number < count && buffers[number].state == QUEUED && buffers[number].request == request;
}

void fill_buffer(uint32_t number, struct frame *frame) {
    struct buffer *buffer = &buffers[number];
    frame->sequence = sequence;
    paint(buffer->bytes, frame);
    buffer->frame = *frame;
    buffer->has_frame = 1;
    buffer->is_prepared = 0;
    buffer->state = DONE;
    append(&done, number);
    tell_frame(owner);
}

void pass_frames(uint32_t count) {
    sequence += count;
}
