/* A client of the Request API on any device: three frames, each with every third control at its maximum. Before the stream begins
 * the forecast of each is read; then each frame has to be what was forecast, in its picture and in its request. */
#include "client.h"
#define FRAMES 3

static int video, media, requests[FRAMES];
static unsigned char *pictures[FRAMES];
static struct vcam_forecast forecasts[FRAMES];

/* Fills an entry with a control's maximum, whose bytes lie in `bytes` where it is an array. */
static struct v4l2_ext_control at_maximum(const struct v4l2_query_ext_ctrl *control, unsigned char bytes[32]) {
    struct v4l2_ext_control entry = {.id = control->id};
    if (has_payload(control)) {
        memset(bytes, (int)control->maximum, 32);
        entry.size = control->elems * control->elem_size;
        entry.p_u8 = bytes;
    } else
        entry.value64 = control->maximum;
    return entry;
}

static void queue_frame(int frame) {
    unsigned char bytes[32];
    int stored = 0;
    CHECK(!ioctl(media, MEDIA_IOC_REQUEST_ALLOC, &requests[frame]));
    REFUSED(ioctl(requests[frame], MEDIA_REQUEST_IOC_QUEUE), ENOENT); /* it has no buffer */
    for (int i = frame; i < control_count; i += FRAMES) {
        struct v4l2_ext_control entry = at_maximum(&controls[i], bytes);
        stored += !list_call(video, VIDIOC_S_EXT_CTRLS, requests[frame], &entry);
    }
    struct v4l2_ext_control entry = {.id = plain_control()->id};
    REFUSED(list_call(video, VIDIOC_G_EXT_CTRLS, requests[frame], &entry), EACCES); /* it isn't complete */
    CHECK(!queue_buffer(video, frame, requests[frame]));
    REFUSED(queue_buffer(video, frame, requests[frame]), EINVAL);
    REFUSED(queue_buffer(video, FRAMES, requests[frame]), EBUSY); /* it has one */
    CHECK(!ioctl(requests[frame], MEDIA_REQUEST_IOC_QUEUE));
    REFUSED(list_call(video, VIDIOC_S_EXT_CTRLS, requests[frame], &entry), EBUSY);
    REFUSED(ioctl(requests[frame], MEDIA_REQUEST_IOC_QUEUE), EBUSY);
    REFUSED(ioctl(requests[frame], MEDIA_REQUEST_IOC_REINIT), EBUSY);
    CHECK(!polled(requests[frame], POLLPRI, 0));
    printf("request %d: %d controls stored\n", frame, stored);
}

/* How many snapshot values of a complete request the picture has, too. */
static int same_in_request(int frame, const struct vcam_value *values, unsigned count) {
    int same = 0;
    for (int i = 0; i < control_count; i++) {
        unsigned char bytes[32] = {0};
        struct v4l2_ext_control entry = at_maximum(&controls[i], bytes);
        CHECK(!list_call(video, VIDIOC_G_EXT_CTRLS, requests[frame], &entry));
        int64_t number = controls[i].type == V4L2_CTRL_TYPE_INTEGER64 ? (int64_t)entry.value64 : entry.value;
        const void *got = has_payload(&controls[i]) ? (void *)bytes : (void *)&number;
        unsigned size = has_payload(&controls[i]) ? controls[i].elems : sizeof number;
        int is_found = 0; /* two handlers may have a control of one id */
        for (unsigned j = 0; j < count; j++)
            is_found |= values[j].id == controls[i].id && values[j].length == size && !memcmp(values[j].bytes, got, size);
        same += is_found;
    }
    return same;
}

static void take_frame(int frame) {
    struct v4l2_buffer buffer;
    CHECK(polled(requests[frame], POLLPRI, 10000) & POLLPRI);
    static unsigned next; /* those between are lost where the camera is late */
    CHECK(!take_buffer(video, &buffer) && buffer.index == (unsigned)frame && buffer.sequence >= next);
    next = buffer.sequence + 1;
    struct vcam_picture *picture = (struct vcam_picture *)pictures[frame];
    const struct vcam_value *values = (struct vcam_value *)(picture + 1);
    const struct vcam_forecast *forecast = &forecasts[frame];
    CHECK(picture->magic == VCAM_MAGIC && picture->sequence == buffer.sequence && picture->count == forecast->count);
    CHECK(picture->size == sizeof *picture + picture->count * sizeof *values);
    CHECK(picture->seconds == buffer.timestamp.tv_sec && picture->microseconds == buffer.timestamp.tv_usec);
    CHECK(picture->request == forecast->request && picture->refused == forecast->refused);
    int is_same = !memcmp(values, forecast->values, forecast->count * sizeof *values);
    CHECK(is_same);
    int same = same_in_request(frame, values, picture->count);
    CHECK(same == control_count);
    printf("frame %d: %s what was forecast, %u clusters refused; %d of %d values of the request are the picture's\n", frame,
           is_same ? "is" : "ISN'T", picture->refused, same, control_count);
}

int main(void) {
    video = open(VIDEO_PATH, O_RDWR);
    media = open(MEDIA_PATH, O_RDWR);
    find_controls(video);
    CHECK(ask_buffers(video, FRAMES + 1) == FRAMES + 1);
    for (int i = 0; i < FRAMES; i++) {
        pictures[i] = map_buffer(video, i);
        CHECK(pictures[i] != MAP_FAILED);
        queue_frame(i);
    }
    for (unsigned i = 0; i <= FRAMES; i++) {
        struct vcam_forecast *it = &forecasts[i % FRAMES], past = {.place = i};
        if (i == FRAMES) {
            REFUSED(ioctl(video, VIDIOC_VCAM_FORECAST, &past), ENOENT);
            break;
        }
        it->place = i;
        CHECK(!ioctl(video, VIDIOC_VCAM_FORECAST, it) && it->buffer == i);
    }
    REFUSED(queue_buffer(video, 0, -1), EINVAL); /* it is in a request */
    CHECK(!stream(video, 1));
    for (int i = 0; i < FRAMES; i++)
        take_frame(i);
    REFUSED(queue_buffer(video, 0, -1), EBUSY); /* this queue is one of requests */
    CHECK(!ioctl(requests[0], MEDIA_REQUEST_IOC_REINIT));
    CHECK(!polled(requests[0], POLLPRI, 0));
    CHECK(!queue_buffer(video, 0, requests[0]) && !ioctl(requests[0], MEDIA_REQUEST_IOC_QUEUE));
    CHECK(polled(requests[0], POLLPRI, 10000) & POLLPRI);
    CHECK(!stream(video, 0));
    CHECK(!queue_buffer(video, 0, -1)); /* the end of the stream freed all */
    return report();
}
