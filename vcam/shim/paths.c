/* Where what a path names lies. The two nodes are the camera's, and what a kernel and udev would show of them lies in a tree of the
 * camera's directory, which daemon/tree.c makes. No other file here knows a path of these. */
#define _GNU_SOURCE
#include "shim.h"
#include <errno.h>
#include <fcntl.h>
#include <stdatomic.h>
#include <stdio.h>
#include <stdlib.h>
#include <string.h>
#include <sys/stat.h>
#include <sys/syscall.h>
#include <unistd.h>

#define VIDEO_PATH "/dev/video0"
#define MEDIA_PATH "/dev/media0"

/* What is the tree's: directories whose entries are listed from it, where all but the camera's are links to what the machine has; and
 * what lies at the other paths and below them. Those before OTHERS tell the usual path of the video node, so they are the machine's
 * own where it has another one. */
static const char *const own[] = {"/dev",                  "/sys/class",           "/sys/bus",
                                  "/sys/class/video4linux", "/sys/bus/media",       "/sys/bus/platform/devices/tugosier.0",
                                  "/sys/dev/char/81:0",     "/sys/dev/char/239:0",  "/sys/devices/platform/tugosier.0",
                                  "/run/udev/data/c81:0",   "/run/udev/data/c239:0"};
enum { LISTED = 3, OTHERS = 5, OWN_COUNT = sizeof own / sizeof *own };

static struct {
    char root[PATH_MAX];  /* the tree's own path, without links; empty where there is none */
    char video[PATH_MAX]; /* the video node's */
    int is_usual;
} here;

static int is_below(const char *path, const char *top) {
    size_t size = strlen(top);
    return !strncmp(path, top, size) && (!path[size] || path[size] == '/');
}

static int is_own(const char *path, int is_listed) {
    if (!*here.root || !*path || !strchr("dsr", path[1]))
        return 0;
    for (int i = here.is_usual ? 0 : OTHERS; i < OWN_COUNT; i++)
        if (i < LISTED ? is_listed && !strcmp(path, own[i]) : is_below(path, own[i]))
            return 1;
    return 0;
}

char *outside(char *path) {
    size_t size = strlen(here.root);
    if (size && is_below(path, here.root) && path[size])
        memmove(path, path + size, strlen(path + size) + 1);
    return path;
}

/* Looks once for the tree, which no other user may change, and for what the video node is called. */
static void look_around(void) {
    static atomic_int is_done;
    char root[PATH_MAX], real[PATH_MAX];
    struct stat status;
    if (is_done)
        return;
    int before = errno;
    const char *video = getenv("VCAM_VIDEO");
    snprintf(here.video, sizeof here.video, "%s", video && *video ? video : VIDEO_PATH);
    here.is_usual = !strcmp(here.video, VIDEO_PATH);
    snprintf(root, sizeof root, "%s/root", camera());
    if (REAL(realpath)(root, real) && !REAL(stat)(real, &status) && (!status.st_uid || status.st_uid == geteuid()) &&
        !(status.st_mode & 022))
        strcpy(here.root, real);
    errno = before;
    is_done = 1;
}

/* What names the camera has one of a few words in it, or ends in a directory that is listed. Any other path costs but this look. */
static int may_be_ours(const char *path, int is_listed) {
    if (strstr(path, "video") || strstr(path, "media") || strstr(path, ":0") || strstr(path, "tugosier"))
        return 1;
    const char *slash = strrchr(path, '/'), *name = slash ? slash + 1 : path, *video = strrchr(here.video, '/');
    return (video && !strcmp(name, video + 1)) ||
           (is_listed && (!name[strspn(name, ".")] || !strcmp(name, "dev") || !strcmp(name, "class") || !strcmp(name, "bus")));
}

/* Writes where a path begins, as the program knows it: nothing where it is absolute, else its directory. */
static int begin(int directory, const char *path, char *it, size_t room) {
    char link[32];
    *it = 0;
    if (*path == '/')
        return 1;
    snprintf(link, sizeof link, "/proc/self/fd/%d", directory);
    ssize_t size = directory == AT_FDCWD ? REAL(syscall)(SYS_getcwd, it, room) - 1 : REAL(readlink)(link, it, room - 1);
    if (size < 1 || *it != '/')
        return 0;
    it[size == 1 ? 0 : size] = 0;
    outside(it);
    return 1;
}

/* Adds the next name of a path to an absolute one without "//", "." and ".."; 0 behind the last name, or where there is no room. */
static int add_name(char *it, size_t room, const char **rest) {
    *rest += strspn(*rest, "/");
    size_t size = strlen(it), next = strcspn(*rest, "/");
    if (next == 2 && !memcmp(*rest, "..", 2)) {
        while (size && it[--size] != '/')
            ;
    } else if (next && (next > 1 || **rest != '.')) {
        if (size + next + 2 > room)
            return 0;
        it[size++] = '/';
        memcpy(it + size, *rest, next);
        size += next;
    }
    it[size] = 0;
    *rest += next;
    return next != 0;
}

int find(int directory, const char **path, int how, char room[PATH_MAX]) {
    if (!*path || !**path || !camera())
        return 0;
    look_around();
    const char *rest = *path;
    size_t root = strlen(here.root);
    char *it = room + root; /* the path as the program knows it; from the room's beginning on it is the tree's */
    if (!may_be_ours(rest, how == AS_LIST) || !begin(directory, rest, it, PATH_MAX - root))
        return 0;
    /* the names before the camera's own are looked at here; those behind are the kernel's, who knows of links before a ".." */
    int is_ours = is_own(it, 0);
    while (!is_ours && add_name(it, PATH_MAX - root, &rest))
        is_ours = is_own(it, 0);
    int is_whole = !is_ours && !*rest, is_name = is_whole && rest[-1] != '/' && rest[-1] != '.';
    int kind = !is_name ? 0 : !strcmp(it, here.video) ? VIDEO : !strcmp(it, MEDIA_PATH) ? MEDIA : 0;
    if (kind && (how == AS_NODE || !*here.root || (kind == VIDEO && !here.is_usual)))
        return kind;
    if (!kind && !is_ours && !(is_whole && is_own(it, how == AS_LIST)))
        return 0;
    char *end = it + strlen(it);
    if (snprintf(end, room + PATH_MAX - end, "%s%s", *rest && *rest != '/' ? "/" : "", rest) < room + PATH_MAX - end)
        *path = memcpy(room, here.root, root);
    return 0;
}
