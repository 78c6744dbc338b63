/* The functions of the C library that this library stands before (LD_PRELOAD): /dev/video0 and /dev/media0 are the camera's, and
 * calls on their handles go to its daemon. Every other path and descriptor goes on to the C library. */
#define _GNU_SOURCE
#include "shim.h"
#include <dirent.h>
#include <errno.h>
#include <fcntl.h>
#include <glob.h>
#include <stdarg.h>
#include <stdio.h>
#include <string.h>
#include <sys/ioctl.h>
#include <sys/mman.h>
#include <sys/stat.h>
#include <sys/syscall.h>
#include <sys/sysmacros.h>
#include <sys/xattr.h>
#include <unistd.h>

/* The rest of the library is hidden, so that it can't stand before a function of the program's own. */
#pragma GCC visibility push(default)

/* The numbers of the two nodes. */
#define VIDEO_NODE makedev(81, 0)
#define MEDIA_NODE makedev(239, 0)

#define ARGUMENT(type, last)                                                                                                     \
    ({                                                                                                                           \
        va_list arguments;                                                                                                       \
        va_start(arguments, last);                                                                                               \
        type argument = va_arg(arguments, type);                                                                                 \
        va_end(arguments);                                                                                                       \
        argument;                                                                                                                \
    })

/* What is to be a directory, or new, or is opened for its path alone, is no handle. */
static int how_opened(int flags) {
    if (flags & O_PATH || (flags & O_CREAT && flags & O_EXCL))
        return AS_FILE;
    return flags & O_DIRECTORY ? AS_LIST : AS_NODE;
}

#define OPEN_AT(name)                                                                                                            \
    int name(int directory, const char *path, int flags, ...) {                                                                  \
        mode_t mode = ARGUMENT(mode_t, flags);                                                                                   \
        char room[PATH_MAX];                                                                                                     \
        int kind = find(directory, &path, how_opened(flags), room);                                                              \
        return kind ? open_handle(kind, flags) : REAL(name)(directory, path, flags, mode);                                       \
    }
OPEN_AT(openat)
OPEN_AT(openat64)

#define OPEN(name, at)                                                                                                           \
    int name(const char *path, int flags, ...) {                                                                                 \
        mode_t mode = ARGUMENT(mode_t, flags);                                                                                   \
        return at(AT_FDCWD, path, flags, mode);                                                                                  \
    }
OPEN(open, openat)
OPEN(open64, openat64)

/* A function that is another one. */
#define SAME(type, name, parameters, other)                                                                                      \
    type name parameters;                                                                                                        \
    type name parameters {                                                                                                       \
        return other;                                                                                                            \
    }

/* What a program calls that was compiled with _FORTIFY_SOURCE. */
SAME(int, __open_2, (const char *path, int flags), open(path, flags))
SAME(int, __open64_2, (const char *path, int flags), open64(path, flags))
SAME(int, __openat_2, (int directory, const char *path, int flags), openat(directory, path, flags))
SAME(int, __openat64_2, (int directory, const char *path, int flags), openat64(directory, path, flags))

int ioctl(int descriptor, unsigned long number, ...) {
    void *argument = ARGUMENT(void *, number);
    uint32_t handle;
    int kind = handle_of(descriptor, &handle);
    if (!kind)
        return REAL(ioctl)(descriptor, number, argument);
    if (number == FIONBIO || number == FIOASYNC || number == FIOCLEX || number == FIONCLEX) /* they are of any file */
        return REAL(ioctl)(descriptor, number, argument);
    int error = handle_ioctl(descriptor, kind, handle, (uint32_t)number, argument);
    if (!error)
        return 0;
    errno = error;
    return -1;
}

void *mmap(void *at, size_t length, int protection, int flags, int descriptor, off_t offset) {
    uint32_t number;
    if (descriptor >= 0 && handle_of(descriptor, &number) == VIDEO)
        return handle_map(descriptor, number, at, length, protection, flags, offset);
    return REAL(mmap)(at, length, protection, flags, descriptor, offset);
}
SAME(void *, mmap64, (void *at, size_t length, int protection, int flags, int descriptor, off64_t offset),
     mmap(at, length, protection, flags, descriptor, offset))

/* Frames are mapped, and neither read nor written. */
#define TRANSFER(name, parameters, ...)                                                                                          \
    ssize_t name parameters {                                                                                                    \
        uint32_t number;                                                                                                       \
        if (!has_handles() || !handle_of(descriptor, &number))                                                                    \
            return REAL(name)(descriptor, __VA_ARGS__);                                                                          \
        errno = EINVAL;                                                                                                          \
        return -1;                                                                                                               \
    }
TRANSFER(read, (int descriptor, void *bytes, size_t size), bytes, size)
TRANSFER(write, (int descriptor, const void *bytes, size_t size), bytes, size)
TRANSFER(readv, (int descriptor, const struct iovec *parts, int count), parts, count)
TRANSFER(writev, (int descriptor, const struct iovec *parts, int count), parts, count)
TRANSFER(pread, (int descriptor, void *bytes, size_t size, off_t at), bytes, size, at)
TRANSFER(pread64, (int descriptor, void *bytes, size_t size, off64_t at), bytes, size, at)
TRANSFER(pwrite, (int descriptor, const void *bytes, size_t size, off_t at), bytes, size, at)
TRANSFER(pwrite64, (int descriptor, const void *bytes, size_t size, off64_t at), bytes, size, at)

/* The kind of handle that a path would be, or a descriptor (where the path is empty or none) is; else the path is where it lies. */
static int node_of(int descriptor, const char **path, char room[PATH_MAX]) {
    uint32_t number;
    if (*path && **path)
        return find(descriptor, path, AS_NODE, room);
    int kind = has_handles() ? handle_of(descriptor, &number) : 0;
    return kind == REQUEST ? 0 : kind;
}

/* Each node is a character device. */
static int fill_status(int kind, struct stat *status) {
    *status = (struct stat){.st_mode = S_IFCHR | 0660, .st_nlink = 1, .st_ino = kind, .st_blksize = 4096};
    status->st_rdev = kind == VIDEO ? VIDEO_NODE : MEDIA_NODE;
    return 0;
}

/* On the one architecture that this is for, struct stat64 is struct stat. */
_Static_assert(sizeof(struct stat) == sizeof(struct stat64), "the library is for amd64");

#define STATUS_OF(name, type)                                                                                                    \
    int name(int descriptor, struct type *status) {                                                                              \
        int kind = node_of(descriptor, &(const char *){0}, 0);                                                                   \
        return kind ? fill_status(kind, (struct stat *)status) : REAL(name)(descriptor, status);                                 \
    }
STATUS_OF(fstat, stat)
STATUS_OF(fstat64, stat64)

#define STATUS_AT(name, type)                                                                                                    \
    int name(int directory, const char *path, struct type *status, int flags) {                                                  \
        char room[PATH_MAX];                                                                                                     \
        int kind = node_of(directory, &path, room);                                                                              \
        return kind ? fill_status(kind, (struct stat *)status) : REAL(name)(directory, path, status, flags);                     \
    }
STATUS_AT(fstatat, stat)
STATUS_AT(fstatat64, stat64)
SAME(int, stat, (const char *path, struct stat *to), fstatat(AT_FDCWD, path, to, 0))
SAME(int, stat64, (const char *path, struct stat64 *to), fstatat64(AT_FDCWD, path, to, 0))
SAME(int, lstat, (const char *path, struct stat *to), fstatat(AT_FDCWD, path, to, AT_SYMLINK_NOFOLLOW))
SAME(int, lstat64, (const char *path, struct stat64 *to), fstatat64(AT_FDCWD, path, to, AT_SYMLINK_NOFOLLOW))

int statx(int directory, const char *path, int flags, unsigned mask, struct statx *status) {
    char room[PATH_MAX];
    int kind = node_of(directory, &path, room);
    if (!kind)
        return REAL(statx)(directory, path, flags, mask, status);
    dev_t node = kind == VIDEO ? VIDEO_NODE : MEDIA_NODE;
    *status = (struct statx){.stx_mask = STATX_BASIC_STATS, .stx_mode = S_IFCHR | 0660, .stx_nlink = 1, .stx_ino = kind};
    status->stx_rdev_major = major(node);
    status->stx_rdev_minor = minor(node);
    return 0;
}

/* What a program calls that was linked before glibc 2.33. */
#define OLD(now) version < 0 ? (errno = EINVAL, -1) : now
SAME(int, __xstat, (int version, const char *path, struct stat *to), OLD(stat(path, to)))
SAME(int, __xstat64, (int version, const char *path, struct stat64 *to), OLD(stat64(path, to)))
SAME(int, __lxstat, (int version, const char *path, struct stat *to), OLD(lstat(path, to)))
SAME(int, __lxstat64, (int version, const char *path, struct stat64 *to), OLD(lstat64(path, to)))
SAME(int, __fxstat, (int version, int of, struct stat *to), OLD(fstat(of, to)))
SAME(int, __fxstat64, (int version, int of, struct stat64 *to), OLD(fstat64(of, to)))
SAME(int, __fxstatat, (int version, int at, const char *path, struct stat *to, int flags), OLD(fstatat(at, path, to, flags)))
SAME(int, __fxstatat64, (int version, int at, const char *path, struct stat64 *to, int flags), OLD(fstatat64(at, path, to, flags)))

/* Whoever has the camera may read and write its nodes. */
int faccessat(int directory, const char *path, int mode, int flags) {
    char room[PATH_MAX];
    if (!find(directory, &path, AS_NODE, room))
        return REAL(faccessat)(directory, path, mode, flags);
    return mode & X_OK ? (errno = EACCES, -1) : 0;
}
SAME(int, access, (const char *path, int mode), faccessat(AT_FDCWD, path, mode, 0))
SAME(int, euidaccess, (const char *path, int mode), faccessat(AT_FDCWD, path, mode, AT_EACCESS))
SAME(int, eaccess, (const char *path, int mode), faccessat(AT_FDCWD, path, mode, AT_EACCESS))

/* A stream of a node is one that reads nothing: the C library's own read would take bytes that tell of frames. */
#define FOPEN(name)                                                                                                              \
    FILE *name(const char *path, const char *mode) {                                                                             \
        char room[PATH_MAX];                                                                                                     \
        int kind = find(AT_FDCWD, &path, AS_NODE, room);                                                                         \
        if (!kind)                                                                                                               \
            return REAL(name)(path, mode);                                                                                       \
        int handle = open_handle(kind, strchr(mode, 'e') ? O_RDWR | O_CLOEXEC : O_RDWR);                                         \
        return handle < 0 ? 0 : fdopen(handle, "w");                                                                             \
    }
FOPEN(fopen)
FOPEN(fopen64)

/* Functions that look at a path in no other way than by where it lies. */
#define AT_PATH(type, name, how, parameters, ...)                                                                                \
    type name parameters {                                                                                                       \
        char room[PATH_MAX];                                                                                                     \
        find(AT_FDCWD, &path, how, room);                                                                                        \
        return REAL(name)(path, ##__VA_ARGS__);                                                                                  \
    }
typedef int wanted(const struct dirent *), order(const struct dirent **, const struct dirent **);
typedef int wanted64(const struct dirent64 *), order64(const struct dirent64 **, const struct dirent64 **);
AT_PATH(DIR *, opendir, AS_LIST, (const char *path))
AT_PATH(int, scandir, AS_LIST, (const char *path, struct dirent ***to, wanted *wants, order *by), to, wants, by)
AT_PATH(int, scandir64, AS_LIST, (const char *path, struct dirent64 ***to, wanted64 *wants, order64 *by), to, wants, by)
AT_PATH(int, chdir, AS_FILE, (const char *path))
AT_PATH(ssize_t, getxattr, AS_FILE, (const char *path, const char *name, void *to, size_t size), name, to, size)
AT_PATH(ssize_t, listxattr, AS_FILE, (const char *path, char *to, size_t size), to, size)
AT_PATH(ssize_t, llistxattr, AS_FILE, (const char *path, char *to, size_t size), to, size)
AT_PATH(ssize_t, lgetxattr, AS_FILE, (const char *path, const char *name, void *to, size_t size), name, to, size)

/* The C library's glob opens directories without asking this library, unless it is told how. */
#define GLOB(name, type, status)                                                                                                 \
    int name(const char *pattern, int flags, int (*failed)(const char *, int), type *found) {                                    \
        if (flags & GLOB_ALTDIRFUNC || !camera())                                                                                \
            return REAL(name)(pattern, flags, failed, found);                                                                    \
        found->gl_opendir = (void *)opendir;                                                                                     \
        found->gl_readdir = (void *)readdir;                                                                                     \
        found->gl_closedir = (void *)closedir;                                                                                   \
        found->gl_lstat = l##status;                                                                                             \
        found->gl_stat = status;                                                                                                 \
        return REAL(name)(pattern, flags | GLOB_ALTDIRFUNC, failed, found);                                                      \
    }
GLOB(glob, glob_t, stat)
GLOB(glob64, glob64_t, stat64)

/* What a link says, and a real path, as the program would name it. */
ssize_t readlinkat(int directory, const char *path, char *to, size_t size) {
    char room[PATH_MAX], said[PATH_MAX];
    find(directory, &path, AS_FILE, room);
    ssize_t got = (ssize_t)size < 1 ? (errno = EINVAL, -1) : REAL(readlinkat)(directory, path, said, sizeof said - 1);
    if (got < 0)
        return got;
    said[got] = 0;
    size_t length = strlen(outside(said));
    memcpy(to, said, length < size ? length : size);
    return length < size ? length : size;
}
char *realpath(const char *path, char *to) {
    char room[PATH_MAX];
    find(AT_FDCWD, &path, AS_FILE, room);
    char *real = REAL(realpath)(path, to);
    return real ? outside(real) : real;
}
SAME(ssize_t, readlink, (const char *path, char *to, size_t size), readlinkat(AT_FDCWD, path, to, size))
SAME(char *, canonicalize_file_name, (const char *path), realpath(path, 0))
/* Those of _FORTIFY_SOURCE end the program where there is less room than it says. */
SAME(char *, __realpath_chk, (const char *path, char *to, size_t room),
     room < PATH_MAX ? REAL(__realpath_chk)(path, to, room) : realpath(path, to))
SAME(ssize_t, __read_chk, (int of, void *to, size_t size, size_t room),
     size > room ? REAL(__read_chk)(of, to, size, room) : read(of, to, size))
SAME(ssize_t, __readlink_chk, (const char *path, char *to, size_t size, size_t room),
     size > room ? REAL(__readlink_chk)(path, to, size, room) : readlink(path, to, size))
SAME(ssize_t, __readlinkat_chk, (int directory, const char *path, char *to, size_t size, size_t room),
     size > room ? REAL(__readlinkat_chk)(directory, path, to, size, room) : readlinkat(directory, path, to, size))

/* libv4l2 makes its calls so. */
long syscall(long number, ...) {
    va_list list;
    va_start(list, number);
    long a = va_arg(list, long), b = va_arg(list, long), c = va_arg(list, long);
    long d = va_arg(list, long), e = va_arg(list, long), f = va_arg(list, long);
    va_end(list);
    switch (number) {
    case SYS_open:
        return open((const char *)a, (int)b, (mode_t)c);
    case SYS_openat:
        return openat((int)a, (const char *)b, (int)c, (mode_t)d);
    case SYS_ioctl:
        return ioctl((int)a, (unsigned long)b, (void *)c);
    case SYS_read:
        return read((int)a, (void *)b, (size_t)c);
    case SYS_write:
        return write((int)a, (const void *)b, (size_t)c);
    case SYS_mmap:
        return (long)mmap((void *)a, (size_t)b, (int)c, (int)d, (int)e, (off_t)f);
    case SYS_faccessat2:
        return faccessat((int)a, (const char *)b, (int)c, (int)d);
    default:
        return REAL(syscall)(number, a, b, c, d, e, f);
    }
}
