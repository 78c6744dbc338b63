/* What a program may ask of the virtual camera beyond V4L2, and what it finds in each picture. */
#ifndef VCAM_H
#define VCAM_H
#include <linux/types.h>
#include <linux/videodev2.h>

#define VCAM_MAGIC 0x4d414356u /* "VCAM" */
#define VCAM_NONE 0xffffffffu
#define VCAM_MOST_CONTROLS 256

/* The value of a control: `length` 8 and a number of 64 bits in the first of the bytes, or the length of an array and its bytes. */
struct vcam_value {
    __u32 id, length;
    __u8 bytes[32];
};

/* The first bytes of each picture. Behind it stand `count` values, in the order of the controls of the device file. */
struct vcam_picture {
    __u32 magic, size; /* of this and of the values, in bytes: size / bytesperline rows of pixels, the last one in part */
    __u32 sequence;    /* as in the frame's struct v4l2_buffer */
    __u32 request;     /* the number of the frame's request, or VCAM_NONE */
    __u32 refused;     /* how many clusters of the request were refused */
    __u32 count;
    __u32 seconds, microseconds; /* as in the frame's struct v4l2_buffer */
};

/* What the queued frame at a place (from 0) will have, if nobody sets, grabs, or changes a range before. `place` goes in, the rest
 * comes back; ENOENT where no frame is queued there. */
struct vcam_forecast {
    __u32 place;
    __u32 request; /* its number, which the picture has, too */
    __u32 buffer, refused, count, reserved;
    struct vcam_value values[VCAM_MOST_CONTROLS];
};
#define VIDIOC_VCAM_FORECAST _IOWR('V', BASE_VIDIOC_PRIVATE, struct vcam_forecast)
#endif
