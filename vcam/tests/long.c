/* A long life. usage: long sets N: so many sets of a control, each read back; long frames N: so many frames without requests */
#include "client.h"

static int sets(int video, long count) {
    const struct v4l2_query_ext_ctrl *control = plain_control();
    struct v4l2_control high = {control->id, (int)control->maximum}; /* it may be taken as another value */
    CHECK(!ioctl(video, VIDIOC_S_CTRL, &high));
    for (long i = 0; i < count; i++) {
        struct v4l2_control it = {control->id, i % 2 ? high.value : (int)control->minimum}, got = {control->id, -1};
        if (ioctl(video, VIDIOC_S_CTRL, &it) || ioctl(video, VIDIOC_G_CTRL, &got) || got.value != it.value)
            failed++;
    }
    return printf("%ld sets, %d failed\n", count, failed);
}

static int frames(int video, long count) {
    struct v4l2_buffer buffer;
    unsigned next = 0; /* frames for which no buffer waits are lost */
    CHECK(ask_buffers(video, 4) == 4);
    for (int i = 0; i < 4; i++)
        CHECK(!queue_buffer(video, i, -1));
    CHECK(!stream(video, 1));
    for (long i = 0; i < count; i++, next = buffer.sequence + 1)
        if (take_buffer(video, &buffer) || buffer.sequence < next || (!i && buffer.sequence) || queue_buffer(video, buffer.index, -1))
            failed++;
    CHECK(!stream(video, 0));
    return printf("%ld frames, %d failed\n", count, failed);
}

int main(int count, char **given) {
    int video = open(VIDEO_PATH, O_RDWR);
    if (count != 3)
        return 2;
    find_controls(video);
    if (strcmp(given[1], "sets"))
        frames(video, atol(given[2]));
    else
        sets(video, atol(given[2]));
    return failed != 0;
}
