/* What the camera is, its one format, and priorities. */
#include "daemon.h"
#include <errno.h>
#include <linux/media.h>
#include <linux/videodev2.h>
#include <stdio.h>
#include <stdlib.h>
#include <string.h>

#define DRIVER "tugosier"
#define BUS "platform:tugosier-000"
#define VERSION 0x060100
#define MOST_RATE 1000

struct format format = {320, 240, 30};

void formats_start(const char *size, const char *rate) {
    char first[5] = "", second[5] = "", more;
    const char *nanoseconds = getenv("VCAM_FRAME_NANOSECONDS");
    if (*size) {
        int parts = sscanf(size, "%4[0-9]x%4[0-9]%c", first, second, &more);
        format.width = atoi(first);
        format.height = atoi(second);
        int is_wrong = format.width < 64 || format.width > MOST_WIDTH || format.width % 2 || format.height > MOST_HEIGHT;
        if (parts != 2 || is_wrong || !format.height)
            refuse("--size is WIDTHxHEIGHT: an even width from 64 to 4096, and at most 2160 rows");
    }
    if (*rate) {
        int parts = sscanf(rate, "%4[0-9]%c", first, &more);
        format.rate = atoi(first);
        if (parts != 1 || !format.rate || format.rate > MOST_RATE)
            refuse("--rate is a number of frames a second, from 1 to 1000");
        if (nanoseconds && *nanoseconds)
            refuse("--rate doesn't stand beside VCAM_FRAME_NANOSECONDS");
    }
}

static uint32_t query_capability(struct v4l2_capability *it) {
    *it = (struct v4l2_capability){.driver = DRIVER, .card = CARD, .bus_info = BUS, .version = VERSION};
    it->device_caps = V4L2_CAP_VIDEO_CAPTURE | V4L2_CAP_STREAMING | V4L2_CAP_EXT_PIX_FORMAT;
    it->capabilities = it->device_caps | V4L2_CAP_DEVICE_CAPS;
    return 0;
}

static uint32_t enumerate_input(struct v4l2_input *it) {
    if (it->index)
        return EINVAL;
    *it = (struct v4l2_input){.name = "Camera", .type = V4L2_INPUT_TYPE_CAMERA};
    return 0;
}

static uint32_t enumerate_format(struct v4l2_fmtdesc *it) {
    if (it->index || it->type != V4L2_BUF_TYPE_VIDEO_CAPTURE)
        return EINVAL;
    *it = (struct v4l2_fmtdesc){.type = it->type, .description = "YUYV 4:2:2", .pixelformat = V4L2_PIX_FMT_YUYV};
    return 0;
}

/* Whatever format is asked for, it is this one. */
static uint32_t get_format(struct v4l2_format *it) {
    if (it->type != V4L2_BUF_TYPE_VIDEO_CAPTURE)
        return EINVAL;
    it->fmt.pix = (struct v4l2_pix_format){
        .width = format.width,
        .height = format.height,
        .pixelformat = V4L2_PIX_FMT_YUYV,
        .field = V4L2_FIELD_NONE,
        .bytesperline = ROW_BYTES,
        .sizeimage = PICTURE_BYTES,
        .colorspace = V4L2_COLORSPACE_SRGB,
        .priv = V4L2_PIX_FMT_PRIV_MAGIC,
        .ycbcr_enc = V4L2_YCBCR_ENC_601,
        .quantization = V4L2_QUANTIZATION_LIM_RANGE,
        .xfer_func = V4L2_XFER_FUNC_SRGB,
    };
    return 0;
}

static uint32_t enumerate_size(struct v4l2_frmsizeenum *it) {
    if (it->index || it->pixel_format != V4L2_PIX_FMT_YUYV)
        return EINVAL;
    it->type = V4L2_FRMSIZE_TYPE_DISCRETE;
    it->discrete.width = format.width;
    it->discrete.height = format.height;
    memset(it->reserved, 0, sizeof it->reserved);
    return 0;
}

static uint32_t enumerate_interval(struct v4l2_frmivalenum *it) {
    if (it->index || it->pixel_format != V4L2_PIX_FMT_YUYV || it->width != format.width || it->height != format.height)
        return EINVAL;
    it->type = V4L2_FRMIVAL_TYPE_DISCRETE;
    it->discrete = (struct v4l2_fract){1, format.rate};
    memset(it->reserved, 0, sizeof it->reserved);
    return 0;
}

static uint32_t get_parameters(struct v4l2_streamparm *it) {
    if (it->type != V4L2_BUF_TYPE_VIDEO_CAPTURE)
        return EINVAL;
    memset(&it->parm, 0, sizeof it->parm);
    it->parm.capture.capability = V4L2_CAP_TIMEPERFRAME;
    it->parm.capture.timeperframe = (struct v4l2_fract){1, format.rate};
    return 0;
}

uint32_t format_call(struct asked *asked) {
    void *it = asked->argument;
    switch (asked->number) {
    case VIDIOC_QUERYCAP:
        return query_capability(it);
    case VIDIOC_ENUMINPUT:
        return enumerate_input(it);
    case VIDIOC_G_INPUT:
        *(uint32_t *)it = 0;
        return 0;
    case VIDIOC_S_INPUT:
        return *(uint32_t *)it ? EINVAL : 0;
    case VIDIOC_ENUM_FMT:
        return enumerate_format(it);
    case VIDIOC_S_FMT:
        if (((struct v4l2_format *)it)->type == V4L2_BUF_TYPE_VIDEO_CAPTURE && has_buffers())
            return EBUSY;
        return get_format(it);
    case VIDIOC_G_FMT:
    case VIDIOC_TRY_FMT:
        return get_format(it);
    case VIDIOC_ENUM_FRAMESIZES:
        return enumerate_size(it);
    case VIDIOC_ENUM_FRAMEINTERVALS:
        return enumerate_interval(it);
    case VIDIOC_G_PARM:
    case VIDIOC_S_PARM:
        return get_parameters(it);
    default:
        return ENOTTY;
    }
}

/* That a lower priority is refused, stands at the table of calls. */
uint32_t priority_call(struct asked *asked) {
    uint32_t *priority = asked->argument;
    if (asked->number == VIDIOC_G_PRIORITY)
        *priority = highest_priority();
    else if (*priority < V4L2_PRIORITY_BACKGROUND || *priority > V4L2_PRIORITY_RECORD)
        return EINVAL;
    else
        asked->handle->priority = *priority;
    return 0;
}

uint32_t media_call(struct asked *asked) {
    *(struct media_device_info *)asked->argument = (struct media_device_info){
        .driver = DRIVER, .model = CARD, .bus_info = BUS, .media_version = VERSION, .driver_version = VERSION};
    return 0;
}
