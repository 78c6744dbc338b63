/* The calls on a handle, as messages to the daemon. What a call means, and its errno, is the daemon's and the device's; here stands
 * only what lies behind a pointer or a descriptor of the program. */
#define _GNU_SOURCE
#include "shim.h"
#include <errno.h>
#include <fcntl.h>
#include <linux/media.h>
#include <linux/videodev2.h>
#include <string.h>
#include <sys/mman.h>
#include <sys/stat.h>
#include <unistd.h>

/* A control list with its entries and their payloads. */
struct list {
    struct v4l2_ext_controls head;
    union {
        struct v4l2_ext_control entries[MOST_ENTRIES];
        unsigned char bytes[MOST_ENTRIES * (sizeof(struct v4l2_ext_control) + SLOT)];
    };
};

static unsigned char *slot_of(struct list *list, uint32_t count, uint32_t place) {
    return list->bytes + count * sizeof(struct v4l2_ext_control) + place * SLOT;
}

/* How many of its entries a list is sent with: of one that has more than any may have none are looked at. */
static uint32_t carried(const struct v4l2_ext_controls *head) {
    uint32_t few = head->count < MOST_ENTRIES ? head->count : MOST_ENTRIES;
    return head->count > V4L2_CID_MAX_CTRLS ? 0 : few;
}

static uint32_t payload_of(const struct v4l2_ext_control *entry) {
    return entry->size < SLOT ? entry->size : SLOT;
}

/* Reads a list behind the program's pointers. */
static int read_list(struct list *list, const void *argument) {
    if (copy_in(&list->head, argument, sizeof list->head))
        return EFAULT;
    uint32_t count = carried(&list->head);
    struct v4l2_ext_control *entries = list->entries;
    if (copy_in(entries, list->head.controls, count * sizeof *entries))
        return EFAULT;
    memset(slot_of(list, count, 0), 0, count * SLOT);
    for (uint32_t i = 0; i < count; i++) {
        uint32_t size = payload_of(&entries[i]);
        entries[i].reserved2[0] = size && !copy_in(slot_of(list, count, i), entries[i].ptr, size);
    }
    return 0;
}

/* Writes an entry that came back: its value, or where the program's own pointer shows, as far as its own size says. A refused list
 * changes no values. */
static int write_entry(struct v4l2_ext_control *to, struct list *list, const struct v4l2_ext_control *own, uint32_t place, int is_refused) {
    struct v4l2_ext_control *entry = &list->entries[place];
    if (copy_out(&to->size, &entry->size, sizeof to->size))
        return EFAULT;
    if (is_refused)
        return 0;
    uint32_t size = payload_of(own) < payload_of(entry) ? payload_of(own) : payload_of(entry);
    if (own->reserved2[0] && entry->reserved2[0])
        return copy_out(own->ptr, slot_of(list, carried(&list->head), place), size);
    return copy_out(&to->value64, &entry->value64, sizeof to->value64);
}

/* The program's pointer may point anywhere, so nothing is reached through it as through a struct. */
static int write_list(char *to, struct list *list, const struct list *own, int is_refused) {
    const uint32_t *index = &list->head.error_idx;
    int error = copy_out(to + offsetof(struct v4l2_ext_controls, error_idx), index, sizeof *index);
    list->head = own->head;
    for (uint32_t i = 0; !error && i < carried(&own->head); i++)
        error = write_entry(&own->head.controls[i], list, &own->entries[i], i, is_refused);
    return error;
}

/* Names the request that a descriptor is; where it is none the name stays empty. */
static void name_request(struct call *call, int descriptor) {
    uint32_t number;
    if (handle_of(descriptor, &number) == REQUEST)
        call->request = number;
}

static int list_call(int descriptor, struct exchange *x, void *argument) {
    struct list list, own;
    int error = read_list(&list, argument);
    if (error)
        return error;
    size_t count = carried(&list.head);
    own.head = list.head;
    memcpy(own.entries, list.entries, count * sizeof *own.entries);
    if (list.head.which == V4L2_CTRL_WHICH_REQUEST_VAL)
        name_request(&x->call, list.head.request_fd);
    size_t size = sizeof list.head + count * (sizeof *own.entries + SLOT);
    x->out = x->in = (struct iovec){&list, size};
    error = exchange(descriptor, x);
    if (x->got < size)
        return error ? error : EIO;
    int failed = write_list(argument, &list, &own, error != 0);
    return error ? error : failed;
}

static int is_list(uint32_t number) {
    return number == VIDIOC_G_EXT_CTRLS || number == VIDIOC_S_EXT_CTRLS || number == VIDIOC_TRY_EXT_CTRLS;
}

/* A buffer's request is named by a descriptor. */
static int queue_call(int descriptor, struct exchange *x, void *argument) {
    struct v4l2_buffer buffer;
    if (copy_in(&buffer, argument, sizeof buffer))
        return EFAULT;
    if (buffer.flags & V4L2_BUF_FLAG_REQUEST_FD)
        name_request(&x->call, buffer.request_fd);
    x->out = x->in = (struct iovec){&buffer, sizeof buffer};
    int error = exchange(descriptor, x);
    return error ? error : copy_out(argument, &buffer, sizeof buffer);
}

/* A new request is a new handle. */
static int request_call(void *argument) {
    int descriptor = open_handle(REQUEST, O_CLOEXEC);
    if (descriptor < 0)
        return errno;
    if (!copy_out(argument, &descriptor, sizeof descriptor))
        return 0;
    close(descriptor);
    return EFAULT;
}

/* The memory of a buffer, as a descriptor of the program. */
static int export_call(int descriptor, struct exchange *x, void *argument) {
    struct v4l2_exportbuffer it;
    if (copy_in(&it, argument, sizeof it))
        return EFAULT;
    x->is_passing = 1;
    x->out = x->in = (struct iovec){&it, sizeof it};
    int error = exchange(descriptor, x);
    if (error)
        return error;
    if (!(it.flags & O_CLOEXEC))
        fcntl(x->passed, F_SETFD, 0);
    it.fd = x->passed;
    error = copy_out(argument, &it, sizeof it);
    if (error)
        close(x->passed);
    return error;
}

int handle_ioctl(int descriptor, int kind, uint32_t handle, uint32_t number, void *argument) {
    if (kind == MEDIA && number == MEDIA_IOC_REQUEST_ALLOC)
        return request_call(argument);
    int of_graph = kind == MEDIA ? graph_call(number, argument) : ENOTTY;
    if (of_graph != ENOTTY)
        return of_graph;
    struct exchange x = {.call = {.what = CALL_IOCTL, .number = number, .handle = handle}};
    if (number == VIDIOC_DQBUF || number == VIDIOC_DQEVENT)
        x.call.may_wait = !(fcntl(descriptor, F_GETFL) & O_NONBLOCK);
    if (kind == VIDEO && is_list(number))
        return list_call(descriptor, &x, argument);
    if (kind == VIDEO && number == VIDIOC_QBUF)
        return queue_call(descriptor, &x, argument);
    if (kind == VIDEO && number == VIDIOC_EXPBUF)
        return export_call(descriptor, &x, argument);
    if (_IOC_DIR(number) & _IOC_WRITE)
        x.out = (struct iovec){argument, _IOC_SIZE(number)};
    if (_IOC_DIR(number) & _IOC_READ)
        x.in = (struct iovec){argument, _IOC_SIZE(number)};
    return exchange(descriptor, &x);
}

/* Maps a file that can't be cut off under the program and is long enough, and closes it: the same one, whatever the program has at its
 * number meanwhile. */
static void *map_file(int file, void *at, size_t length, int protection, int flags) {
    struct stat before, behind;
    int seals = fcntl(file, F_GET_SEALS), is_there = !REAL(fstat)(file, &before);
    int is_whole = is_there && seals >= 0 && seals & F_SEAL_SHRINK && (uint64_t)before.st_size >= length;
    void *mapped = is_whole ? REAL(mmap)(at, length, protection, flags, file, 0) : (errno = ENODEV, MAP_FAILED);
    int error = errno;
    if (is_there && !REAL(fstat)(file, &behind) && behind.st_dev == before.st_dev && behind.st_ino == before.st_ino)
        close(file);
    errno = error;
    return mapped;
}

void *handle_map(int descriptor, uint32_t handle, void *at, size_t length, int protection, int flags, int64_t offset) {
    struct map map = {.offset = offset, .length = length};
    struct exchange x = {.call = {.what = CALL_MAP, .handle = handle}, .out = {&map, sizeof map}, .is_passing = 1};
    int is_shared = (flags & MAP_TYPE) == MAP_SHARED || (flags & MAP_TYPE) == MAP_SHARED_VALIDATE;
    int error = is_shared && protection & PROT_READ ? exchange(descriptor, &x) : EINVAL;
    if (!error)
        return map_file(x.passed, at, length, protection, flags);
    errno = error;
    return MAP_FAILED;
}
