/* A camera that was begun with a size and a rate: what it says of them, and that its pictures and the time between them are so.
 * usage: sizes WIDTH HEIGHT RATE */
#include "client.h"
#include <time.h>
#define BUFFERS 2

static int video, media;
static unsigned width, height, rate, size;
static unsigned char *pictures[BUFFERS];

static int is_told(const struct v4l2_fract *interval) {
    return interval->numerator == 1 && interval->denominator == rate;
}

static void check_formats(void) {
    struct v4l2_format now = {.type = CAPTURE}, tried = {.type = CAPTURE, .fmt.pix = {.width = 333, .height = 9}};
    struct v4l2_frmsizeenum frame_size = {.pixel_format = V4L2_PIX_FMT_YUYV};
    struct v4l2_frmivalenum interval = {.pixel_format = V4L2_PIX_FMT_YUYV, .width = width, .height = height};
    struct v4l2_streamparm parameters = {.type = CAPTURE}, other = {.type = CAPTURE, .parm.capture.timeperframe = {1, 7}};
    CHECK(!ioctl(video, VIDIOC_G_FMT, &now) && now.fmt.pix.width == width && now.fmt.pix.height == height);
    CHECK(now.fmt.pix.bytesperline == 2 * width && now.fmt.pix.sizeimage == size);
    CHECK(!ioctl(video, VIDIOC_TRY_FMT, &tried) && tried.fmt.pix.width == width && tried.fmt.pix.height == height);
    CHECK(!ioctl(video, VIDIOC_ENUM_FRAMESIZES, &frame_size) && frame_size.type == V4L2_FRMSIZE_TYPE_DISCRETE);
    CHECK(frame_size.discrete.width == width && frame_size.discrete.height == height);
    frame_size.index = 1;
    REFUSED(ioctl(video, VIDIOC_ENUM_FRAMESIZES, &frame_size), EINVAL);
    CHECK(!ioctl(video, VIDIOC_ENUM_FRAMEINTERVALS, &interval) && interval.type == V4L2_FRMIVAL_TYPE_DISCRETE);
    CHECK(is_told(&interval.discrete));
    interval.width += 2;
    REFUSED(ioctl(video, VIDIOC_ENUM_FRAMEINTERVALS, &interval), EINVAL);
    CHECK(!ioctl(video, VIDIOC_G_PARM, &parameters) && is_told(&parameters.parm.capture.timeperframe));
    CHECK(!ioctl(video, VIDIOC_S_PARM, &other) && is_told(&other.parm.capture.timeperframe));
}

/* Queues a buffer alone, or in a new request, whose descriptor is kept until the end. */
static void queue(unsigned index, int in_request) {
    int request = -1;
    CHECK(!in_request || !ioctl(media, MEDIA_IOC_REQUEST_ALLOC, &request));
    CHECK(!queue_buffer(video, index, request));
    CHECK(!in_request || !ioctl(request, MEDIA_REQUEST_IOC_QUEUE));
}

/* The head, and behind the values letters on their ground down to the last row; the memory behind the picture isn't painted. */
static void check_picture(const struct v4l2_buffer *buffer) {
    const unsigned char *bytes = pictures[buffer->index];
    const struct vcam_picture *head = (const void *)bytes;
    unsigned strange = 0;
    CHECK(buffer->bytesused == size && buffer->length >= size);
    CHECK(head->magic == VCAM_MAGIC && head->sequence == buffer->sequence && head->count > 0 && head->size <= size);
    CHECK(head->size == sizeof *head + head->count * sizeof(struct vcam_value));
    for (unsigned i = head->size; i < size; i += 2)
        strange += (bytes[i] != 16 && bytes[i] != 235) || bytes[i + 1] != 128;
    for (unsigned i = size; i < buffer->length; i++)
        strange += bytes[i] != 0;
    CHECK(!strange);
}

static double seconds(void) {
    struct timespec now;
    clock_gettime(CLOCK_MONOTONIC, &now);
    return now.tv_sec + now.tv_nsec / 1e9;
}

/* Streams, and withholds the buffers for some frames: these have no buffer, and are counted. */
static void check_gap(int in_request) {
    struct v4l2_buffer first, second;
    struct v4l2_control control;
    for (unsigned i = 0; i < BUFFERS; i++)
        queue(i, in_request);
    double began = seconds();
    CHECK(!stream(video, 1));
    CHECK(!take_buffer(video, &first) && first.sequence == 0 && !take_buffer(video, &second) && second.sequence > 0);
    check_picture(&first);
    check_picture(&second);
    unsigned last = second.sequence, lost = rate < 10 ? 2 : 10 + rate / 10;
    control.id = plain_control()->id;
    for (unsigned i = 0; i < 10; i++) {
        CHECK(!ioctl(video, VIDIOC_G_CTRL, &control));
        usleep(lost * 100000 / rate);
    }
    /* the first may be one that was due before, and that the camera was late with */
    for (unsigned i = 0; i < BUFFERS; i++)
        queue(i, in_request);
    CHECK(!take_buffer(video, &first) && first.sequence > last && !take_buffer(video, &second));
    CHECK(second.sequence > first.sequence && second.sequence >= last + lost);
    double at = second.timestamp.tv_sec + second.timestamp.tv_usec / 1e6;
    CHECK(second.sequence + 1 <= (at - began) * rate + 0.1); /* there are no more than the rate says */
    check_picture(&second);
    CHECK(!stream(video, 0));
    /* each stream begins with 0 */
    queue(0, 0);
    CHECK(!stream(video, 1) && !take_buffer(video, &first) && first.sequence == 0 && !stream(video, 0));
}

/* Buffers wait all the time: calls are answered however long a picture takes, and where that is longer than a frame some are lost. */
static void check_busy(void) {
    struct v4l2_control control = {.id = plain_control()->id};
    struct v4l2_buffer buffer;
    unsigned next = 0, frames = rate < 30 ? 5 : 30;
    for (unsigned i = 0; i < BUFFERS; i++)
        queue(i, 0);
    CHECK(!stream(video, 1));
    for (unsigned i = 0; i < frames; i++, next = buffer.sequence + 1) {
        CHECK(!ioctl(video, VIDIOC_G_CTRL, &control));
        CHECK(!take_buffer(video, &buffer) && buffer.sequence >= next && !queue_buffer(video, buffer.index, -1));
    }
    CHECK((uint64_t)size * rate < 10000000000 || next > frames);
    CHECK(!stream(video, 0));
}

int main(int count, char **given) {
    if (count != 4)
        return 2;
    width = atoi(given[1]);
    height = atoi(given[2]);
    rate = atoi(given[3]);
    size = 2 * width * height;
    video = open(VIDEO_PATH, O_RDWR);
    media = open(MEDIA_PATH, O_RDWR);
    check_formats();
    find_controls(video);
    CHECK(ask_buffers(video, BUFFERS) == BUFFERS);
    for (unsigned i = 0; i < BUFFERS; i++) {
        pictures[i] = map_buffer(video, i);
        CHECK(pictures[i] != MAP_FAILED);
    }
    check_gap(0);
    check_gap(1);
    check_busy();
    return report();
}
