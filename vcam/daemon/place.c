/* The camera's directory: the socket to which programs connect, and what they find of the camera by its paths. It is this user's alone,
 * and nothing in it is reached by its path, on which another might put a link. */
#define _GNU_SOURCE
#include "daemon.h"
#include <dirent.h>
#include <errno.h>
#include <fcntl.h>
#include <stdio.h>
#include <stdlib.h>
#include <string.h>
#include <sys/file.h>
#include <sys/socket.h>
#include <sys/stat.h>
#include <sys/un.h>
#include <unistd.h>

static char path[sizeof((struct sockaddr_un *)0)->sun_path];
static int place = -1; /* the directory, open */
static int is_made;    /* by this daemon */
static int is_here;    /* this daemon's camera is at it */

void place_leave(void) {
    if (is_here) {
        tree_remove(place);
        unlinkat(place, "calls", 0);
        unlinkat(place, "lock", 0);
    }
    if (is_made)
        rmdir(path);
}

/* Nothing is in it but what a daemon that was killed left. */
static void look_at_entries(void) {
    static const char *const known[] = {".", "..", "calls", "lock", TREE};
    DIR *entries = fdopendir(openat(place, ".", O_RDONLY | O_DIRECTORY | O_CLOEXEC));
    if (!entries)
        fail_at(path);
    for (struct dirent *it; (it = readdir(entries));) {
        size_t i = 0;
        while (i < sizeof known / sizeof *known && strcmp(it->d_name, known[i]))
            i++;
        if (i == sizeof known / sizeof *known)
            fail("there is something else in the directory");
    }
    closedir(entries);
}

static void open_place(int is_new) {
    struct stat status;
    place = open(path, O_RDONLY | O_DIRECTORY | O_NOFOLLOW | O_CLOEXEC);
    if (place < 0 || fstat(place, &status))
        fail_at(path);
    if (status.st_uid != geteuid())
        fail("the directory is another user's");
    if (status.st_mode & 022)
        fail("others may write to the directory: chmod go-w");
    is_made = is_new;
    if (!is_new)
        look_at_entries();
}

void place_take(const char *given) {
    const char *temporary = getenv("TMPDIR");
    int length = *given ? snprintf(path, sizeof path, "%s", given)
                        : snprintf(path, sizeof path, "%s/vcam.XXXXXX", temporary && *temporary ? temporary : "/tmp");
    while (length > 1 && length < (int)sizeof path && path[length - 1] == '/')
        path[--length] = 0; /* behind a link, it would be what that shows */
    if (length + 8 >= (int)sizeof path)
        fail("the directory's path is too long: that of a socket in it has at most 107 bytes");
    if (!*given && !mkdtemp(path))
        fail_at(path);
    int is_new = !*given || !mkdir(path, 0700);
    if (!is_new && errno != EEXIST)
        fail_at(path);
    open_place(is_new);
    int lock = openat(place, "lock", O_CREAT | O_RDWR | O_CLOEXEC | O_NOFOLLOW, 0600);
    if (lock < 0)
        fail_at("lock");
    if (flock(lock, LOCK_EX | LOCK_NB))
        fail("there is a camera at the directory already");
    is_here = 1;
    tree_make(place);
}

int place_listen(void) {
    struct sockaddr_un address = {.sun_family = AF_UNIX, .sun_path = "calls"};
    int descriptor = socket(AF_UNIX, SOCK_SEQPACKET | SOCK_CLOEXEC | SOCK_NONBLOCK, 0);
    /* a socket is bound by a path alone: by one in the working directory, which is the camera's for that long */
    int before = open(".", O_PATH | O_DIRECTORY | O_CLOEXEC);
    if (descriptor < 0 || fchdir(place) || (unlinkat(place, "calls", 0) && errno != ENOENT) ||
        bind(descriptor, (struct sockaddr *)&address, sizeof address) || listen(descriptor, 64) || fchdir(before))
        fail_at(path);
    close(before);
    return descriptor;
}

const char *place_path(void) {
    return path;
}
