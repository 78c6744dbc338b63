/* Random calls of many kinds on several handles, most of them wrong somewhere: numbers, pointers, sizes, states. The daemon and this
 * process have to live, and each call has to return. usage: fuzz SEED CALLS */
#include "client.h"
#define HANDLES 6
#define REQUESTS 8

static int videos[HANDLES], media, requests[REQUESTS];
static unsigned char room[1 << 15]; /* more than any call takes */
static void *mapped = MAP_FAILED;

static int some_video(void) {
    return videos[dice(HANDLES)];
}

static int some_request(void) {
    return dice(10) ? requests[dice(REQUESTS)] : (int)dice(30) - 2;
}

/* Memory that can't be read, that ends behind a few bytes, or that is there. */
static void *some_pointer(void) {
    static unsigned char *edge;
    long page = sysconf(_SC_PAGESIZE);
    if (!edge) {
        edge = mmap(0, 2 * page, PROT_READ | PROT_WRITE, MAP_PRIVATE | MAP_ANONYMOUS, -1, 0);
        munmap(edge + page, page);
    }
    switch (dice(8)) {
    case 0:
        return (void *)(uintptr_t)dice(4096);
    case 1:
        return edge + page - dice(64);
    default:
        return room + dice(64);
    }
}

static unsigned some_id(void) {
    unsigned id = control_count ? controls[dice(control_count)].id : 0;
    switch (dice(12)) {
    case 0:
        return id | V4L2_CTRL_FLAG_NEXT_CTRL | (dice(2) ? V4L2_CTRL_FLAG_NEXT_COMPOUND : 0);
    case 1:
        return V4L2_CID_PRIVATE_BASE + dice(4);
    case 2:
        return dice(~0u);
    default:
        return id;
    }
}

static long long some_value(void) {
    return dice(2) ? (long long)dice(300) - 20 : (long long)(dice(~0u) * (uint64_t)dice(~0u));
}

static void call_list(void) {
    static const unsigned long numbers[] = {VIDIOC_G_EXT_CTRLS, VIDIOC_S_EXT_CTRLS, VIDIOC_TRY_EXT_CTRLS};
    static struct v4l2_ext_control entries[80];
    unsigned count = dice(10) ? dice(5) : dice(80);
    for (unsigned i = 0; i < count; i++) {
        entries[i] = (struct v4l2_ext_control){.id = some_id(), .value64 = some_value()};
        if (!dice(3)) {
            entries[i].size = dice(3) ? dice(40) : dice(~0u);
            entries[i].ptr = some_pointer();
        }
    }
    struct v4l2_ext_controls list = {.count = dice(20) ? count : dice(~0u), .controls = entries};
    list.which = dice(3) ? 0 : dice(2) ? V4L2_CTRL_WHICH_REQUEST_VAL : some_id() & 0x0fff0000;
    if (list.count > 80)
        list.controls = some_pointer();
    list.request_fd = some_request();
    ioctl(some_video(), numbers[dice(3)], dice(20) ? &list : some_pointer());
}

static void call_control(void) {
    static const unsigned long numbers[] = {VIDIOC_G_CTRL,    VIDIOC_S_CTRL,          VIDIOC_QUERYCTRL,         VIDIOC_QUERY_EXT_CTRL,
                                            VIDIOC_QUERYMENU, VIDIOC_SUBSCRIBE_EVENT, VIDIOC_UNSUBSCRIBE_EVENT, VIDIOC_DQEVENT};
    unsigned words[64] = {some_id(), dice(2) ? dice(8) : (unsigned)some_value()};
    unsigned which = dice(8);
    if (which == 5 || which == 6) {
        words[0] = dice(6) ? V4L2_EVENT_CTRL : dice(5);
        words[1] = some_id();
        words[2] = dice(4);
    }
    ioctl(some_video(), numbers[which], dice(20) ? words : some_pointer());
}

static void call_buffer(void) {
    struct v4l2_buffer it = {.index = dice(6), .type = dice(20) ? CAPTURE : dice(14), .memory = dice(20) ? V4L2_MEMORY_MMAP : dice(5)};
    int type = it.type, video = videos[dice(2)];
    struct v4l2_create_buffers more = {.count = dice(3), .memory = it.memory, .format = {.type = it.type}};
    more.format.fmt.pix.sizeimage = dice(3) ? 153600 : dice(~0u);
    if (dice(2)) {
        it.flags = V4L2_BUF_FLAG_REQUEST_FD;
        it.request_fd = some_request();
    }
    switch (dice(12)) {
    case 0:
        ask_buffers(video, dice(6));
        break;
    case 1:
        ioctl(video, VIDIOC_CREATE_BUFS, &more);
        break;
    case 2:
        ioctl(video, VIDIOC_STREAMOFF, &type);
        break;
    case 3:
    case 4:
        ioctl(video, VIDIOC_STREAMON, &type);
        break;
    case 5:
        ioctl(video, dice(2) ? VIDIOC_PREPARE_BUF : VIDIOC_QUERYBUF, &it);
        break;
    case 6:
    case 7:
        ioctl(video, VIDIOC_DQBUF, &it);
        break;
    default:
        ioctl(video, VIDIOC_QBUF, &it);
    }
}

static void call_request(void) {
    int *it = &requests[dice(REQUESTS)];
    switch (dice(6)) {
    case 0:
        close(*it);
        *it = -1;
        break;
    case 1:
        if (*it < 0 && ioctl(media, MEDIA_IOC_REQUEST_ALLOC, it))
            *it = -1;
        break;
    case 2:
        ioctl(*it, MEDIA_REQUEST_IOC_REINIT);
        break;
    default:
        ioctl(*it, MEDIA_REQUEST_IOC_QUEUE);
    }
}

/* The graph, into arrays by chance. */
static void call_graph(void) {
    struct media_v2_topology all = {.num_entities = dice(4), .num_interfaces = dice(3), .num_pads = dice(4), .num_links = dice(4)};
    struct media_links_enum links = {.entity = dice(5) | (dice(2) ? MEDIA_ENT_ID_FLAG_NEXT : 0)};
    all.ptr_entities = (uintptr_t)some_pointer();
    all.ptr_interfaces = (uintptr_t)some_pointer();
    all.ptr_pads = (uintptr_t)some_pointer();
    all.ptr_links = (uintptr_t)some_pointer();
    links.pads = some_pointer();
    links.links = some_pointer();
    ioctl(media, MEDIA_IOC_G_TOPOLOGY, &all);
    ioctl(media, MEDIA_IOC_ENUM_LINKS, &links);
    ioctl(media, MEDIA_IOC_ENUM_ENTITIES, some_pointer());
}

/* Maps and unmaps, closes and opens, and calls of any number on any bytes. */
static void call_other(void) {
    int *video = &videos[dice(HANDLES)];
    switch (dice(8)) {
    case 0:
        if (mapped != MAP_FAILED)
            munmap(mapped, 4096);
        mapped = mmap(0, 4096, dice(4) ? PROT_READ : PROT_WRITE, dice(4) ? MAP_SHARED : MAP_PRIVATE, *video, dice(6) * 0x1000000);
        break;
    case 1:
        close(*video);
        *video = open(VIDEO_PATH, O_RDWR | O_NONBLOCK);
        break;
    case 2: {
        int copy = dup(*video);
        close(*video);
        *video = copy;
        break;
    }
    case 3:
        polled(*video, POLLIN | POLLPRI | POLLOUT, 0);
        break;
    case 5:
        call_graph();
        break;
    case 4: { /* the number of a call that there is, or nearly */
        unsigned size = dice(4) ? dice(300) : dice(1 << 14);
        ioctl(dice(8) ? *video : media, _IOC(dice(4), dice(8) ? 'V' : '|', dice(110), size), dice(8) ? room : some_pointer());
        break;
    }
    default: {
        static const unsigned long numbers[] = {
            VIDIOC_QUERYCAP,        VIDIOC_ENUM_FMT,      VIDIOC_G_FMT,   VIDIOC_S_FMT, VIDIOC_TRY_FMT, VIDIOC_G_PARM,
            VIDIOC_ENUM_FRAMESIZES, VIDIOC_VCAM_FORECAST, VIDIOC_REQBUFS, VIDIOC_QBUF,  VIDIOC_S_CTRL,  VIDIOC_QUERY_EXT_CTRL,
            VIDIOC_S_INPUT,         VIDIOC_S_EXT_CTRLS};
        for (unsigned i = 0; i < 300; i++)
            room[i] = dice(3) ? 0 : dice(256);
        ioctl(*video, numbers[dice(sizeof numbers / sizeof *numbers)], dice(10) ? room : some_pointer());
    }
    }
}

int main(int count, char **given) {
    dice_state = count > 1 ? strtoull(given[1], 0, 0) : 1;
    int calls = count > 2 ? atoi(given[2]) : 20000;
    for (int i = 0; i < HANDLES; i++)
        videos[i] = open(VIDEO_PATH, O_RDWR | O_NONBLOCK);
    media = open(MEDIA_PATH, O_RDWR);
    memset(requests, -1, sizeof requests);
    find_controls(videos[0]);
    for (int i = 0; i < calls; i++) {
        switch (dice(6)) {
        case 0:
            call_list();
            break;
        case 1:
            call_control();
            break;
        case 2:
        case 3:
            call_buffer();
            break;
        case 4:
            call_request();
            break;
        default:
            call_other();
        }
    }
    for (int i = 0; i < HANDLES; i++)
        close(videos[i]);
    struct v4l2_capability capability;
    int video = open(VIDEO_PATH, O_RDWR);
    CHECK(video >= 0 && !ioctl(video, VIDIOC_QUERYCAP, &capability));
    CHECK(ask_buffers(video, 2) == 2 && ask_buffers(video, 0) == 0); /* nothing was left */
    printf("%d calls\n", calls);
    return report();
}
