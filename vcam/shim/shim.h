/* The parts of the library that stands between a program and the C library. */
#ifndef SHIM_H
#define SHIM_H
#include "../wire.h"
#include <dlfcn.h>
#include <limits.h>
#include <stddef.h>
#include <sys/uio.h>

/* The function that the program would have called without this library. */
#define REAL(name)                                                                                                               \
    ((__typeof__(&name))({                                                                                                       \
        static void *found;                                                                                                      \
        if (!found)                                                                                                              \
            found = dlsym(RTLD_NEXT, #name);                                                                                     \
        found;                                                                                                                   \
    }))

/* A socket of this library, known by the number that the kernel gives it (SO_COOKIE): the program may close any descriptor at any
 * time, and have another file at its number then. */
struct own {
    int descriptor;
    uint64_t cookie;
};

/* A call and its answer: what goes out behind the head, and where what comes back goes. */
struct exchange {
    struct call call;
    struct answer answer;
    struct iovec out, in; /* the payloads */
    size_t got;           /* the bytes of the payload that came */
    int is_passing;       /* whether the answer brings a descriptor */
    int passed;           /* the one that came, or -1 */
};

/* handles.c */

/* The camera's directory; null where the program has no camera. */
const char *camera(void);
/* Whether this process may have a file handle of the camera. */
int has_handles(void);
/* The kind of a descriptor, and its number; 0 where it is none of the camera. */
int handle_of(int descriptor, uint32_t *number);
/* Opens a file handle with the flags of open(); -1 and errno where it can't be. */
int open_handle(int kind, int flags);
/* Takes all out by which a handle is ready for poll; whether it is there still. */
int empty_handle(int descriptor, uint32_t number);

/* connections.c */

/* A socket that was just made. */
struct own own_socket(int descriptor);
/* Whether its number is that of the socket still. */
int is_still(const struct own *it);
/* Closes it, if it is there still. */
void close_own(const struct own *it);
/* Makes a call on a handle, or (-1) on none; its errno. */
int exchange(int handle, struct exchange *x);

/* paths.c */

/* How a path is looked at: for the node that it may be, for the file that stands for it, or for the entries of a directory, too. */
enum { AS_NODE, AS_FILE, AS_LIST };
/* The kind of file handle that a path opens, VIDEO or MEDIA; else 0, and the path becomes that at which what it names lies. */
int find(int directory, const char **path, int how, char room[PATH_MAX]);
/* Makes a path of the tree the one by which the program knows what lies there. */
char *outside(char *path);

/* memory.c: a pointer of the program that can't be read or written is found by the kernel, not by a signal; 0 or EFAULT. */

int copy_in(void *to, const void *from, size_t size);
int copy_out(void *to, const void *from, size_t size);
/* Whether valgrind runs the program. It takes what a program hasn't set in a call's struct for undefined, though the call may not read
 * it; but what the kernel copied is set. So this copy, for which there is room, goes out in its place. */
extern int is_watched;
struct iovec defined(struct iovec out, void *copy);

/* media.c */

/* A call of the media node that asks for its graph; its errno, ENOTTY where it is none of these. */
int graph_call(uint32_t number, void *argument);

/* calls.c */

/* An ioctl on a handle of the camera; its errno. */
int handle_ioctl(int descriptor, int kind, uint32_t handle, uint32_t number, void *argument);
/* Maps a buffer; MAP_FAILED and errno where it can't be. */
void *handle_map(int descriptor, uint32_t handle, void *at, size_t length, int protection, int flags, int64_t offset);
#endif
