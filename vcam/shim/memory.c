/* Copies from and to pointers that a program handed in, which may point to nothing. */
#define _GNU_SOURCE
#include "shim.h"
#include <errno.h>
#include <stdint.h>
#include <stdlib.h>
#include <string.h>
#include <sys/syscall.h>
#include <sys/uio.h>
#include <unistd.h>

/* Where a sandbox refuses process_vm_readv and its like: what the kernel reads for a call whose other argument it refuses then, it can
 * read, and what it fills with chance it can write. No descriptor is in this, which another thread might close. */
static int is_readable(const void *from, size_t size) {
    uintptr_t at = (uintptr_t)from & ~(uintptr_t)7, end = (uintptr_t)from + size;
    while (at < end && REAL(syscall)(SYS_rt_sigprocmask, -1, at, 0, 8) < 0 && errno == EINVAL)
        at = (at | 4095) + 1;
    return at >= end && end > size;
}

static int is_writable(char *to, size_t size) {
    ssize_t got = 1;
    for (size_t done = 0; done < size && got > 0; done += got)
        got = REAL(syscall)(SYS_getrandom, to + done, size - done, 0);
    return got > 0;
}

static int copy(void *to, const void *from, size_t size, int is_in) {
    int before = errno;
    struct iovec here = {is_in ? to : (void *)(uintptr_t)from, size}, there = {is_in ? (void *)(uintptr_t)from : to, size};
    ssize_t copied =
        is_in ? process_vm_readv(getpid(), &here, 1, &there, 1, 0) : process_vm_writev(getpid(), &here, 1, &there, 1, 0);
    int error = copied == (ssize_t)size ? 0 : EFAULT;
    if (copied < 0 && errno != EFAULT)
        error = (is_in ? is_readable(from, size) : is_writable(to, size)) ? (memcpy(to, from, size), 0) : EFAULT;
    errno = before;
    return error;
}

int copy_in(void *to, const void *from, size_t size) {
    return size ? copy(to, from, size, 1) : 0;
}

int copy_out(void *to, const void *from, size_t size) {
    return size ? copy(to, from, size, 0) : 0;
}

int is_watched;
__attribute__((constructor)) static void look_for_valgrind(void) {
    const char *loaded = getenv("LD_PRELOAD");
    is_watched = loaded && strstr(loaded, "vgpreload");
}

struct iovec defined(struct iovec out, void *copy) {
    return is_watched && !copy_in(copy, out.iov_base, out.iov_len) ? (struct iovec){copy, out.iov_len} : out;
}
