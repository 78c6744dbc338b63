/* What a kernel and udev would show of the camera: a tree below `root` in its directory, to which the shim turns the paths of programs
 * that look for a camera. Each step goes by a descriptor, and through no link. */
#define _GNU_SOURCE
#include "daemon.h"
#include <dirent.h>
#include <errno.h>
#include <fcntl.h>
#include <stdio.h>
#include <string.h>
#include <sys/stat.h>
#include <unistd.h>

#define DEVICE "root/sys/devices/platform/tugosier.0/"
#define VIDEO_DEVICE DEVICE "video4linux/video0/"
#define MEDIA_DEVICE DEVICE "media0/"
#define TO_DEVICE "../../devices/platform/tugosier.0"

/* Each leaf: a link where its text begins with a dot, a node of /dev where it has none, else a file. */
static const char *const leaves[][2] = {
    {"root/dev/video0", 0}, {"root/dev/media0", 0},
    {"root/sys/class/video4linux/video0", TO_DEVICE "/video4linux/video0"},
    {"root/sys/bus/media/devices/media0", "../" TO_DEVICE "/media0"},
    {"root/sys/bus/platform/devices/tugosier.0", "../" TO_DEVICE},
    {"root/sys/dev/char/81:0", TO_DEVICE "/video4linux/video0"}, {"root/sys/dev/char/239:0", TO_DEVICE "/media0"},
    {DEVICE "uevent", "DRIVER=tugosier\nMODALIAS=platform:tugosier\n"},
    {DEVICE "modalias", "platform:tugosier\n"}, {DEVICE "subsystem", "../../../bus/platform"},
    {VIDEO_DEVICE "uevent", "MAJOR=81\nMINOR=0\nDEVNAME=video0\n"},
    {VIDEO_DEVICE "dev", "81:0\n"}, {VIDEO_DEVICE "index", "0\n"}, {VIDEO_DEVICE "name", CARD "\n"},
    {VIDEO_DEVICE "device", "../../../tugosier.0"}, {VIDEO_DEVICE "subsystem", "../../../../../class/video4linux"},
    {MEDIA_DEVICE "uevent", "MAJOR=239\nMINOR=0\nDEVNAME=media0\n"},
    {MEDIA_DEVICE "dev", "239:0\n"}, {MEDIA_DEVICE "model", CARD "\n"},
    {MEDIA_DEVICE "device", "../../tugosier.0"}, {MEDIA_DEVICE "subsystem", "../../../../bus/media"},
    {"root/run/udev/data/c81:0", "I:1\nE:ID_V4L_VERSION=2\nE:ID_V4L_PRODUCT=" CARD "\nE:ID_V4L_CAPABILITIES=:capture:\n"
                                 "E:ID_PATH=platform-tugosier.0\nV:1\n"},
    {"root/run/udev/data/c239:0", "I:1\nV:1\n"},
};
#define LEAF_COUNT (sizeof leaves / sizeof *leaves)

/* Directories that are listed: they have links to what the machine has in its own, but for its cameras. */
static const char *const mirrors[] = {"root/dev/", "root/sys/class/", "root/sys/bus/"};
#define MIRROR_COUNT (sizeof mirrors / sizeof *mirrors)

/* Opens the directory in which a path's last name stands, and says which name that is; -1 where it isn't there, or can't be made. */
static int open_above(int place, const char *path, const char **name, int is_made) {
    int at = fcntl(place, F_DUPFD_CLOEXEC, 0);
    char step[32];
    for (const char *slash; at >= 0 && (slash = strchr(path, '/')); path = slash + 1) {
        snprintf(step, sizeof step, "%.*s", (int)(slash - path), path);
        if (is_made)
            mkdirat(at, step, 0700);
        int next = openat(at, step, O_RDONLY | O_DIRECTORY | O_NOFOLLOW | O_CLOEXEC);
        close(at);
        at = next;
    }
    *name = path;
    return at;
}

/* A device without a number may be made by anybody and opened by nobody; where none can be made a file stands for the node. */
static int make_leaf(int at, const char *name, const char *text) {
    if (text && *text == '.')
        return symlinkat(text, at, name);
    if (!text && !mknodat(at, name, S_IFCHR | 0600, 0))
        return 0;
    int file = openat(at, name, O_CREAT | O_EXCL | O_WRONLY | O_NOFOLLOW | O_CLOEXEC, 0400);
    if (file < 0)
        return -1;
    int failed = text && write(file, text, strlen(text)) < 0;
    close(file);
    return failed;
}

static int is_camera(const char *name) {
    int is_node = !strncmp(name, "video", 5) || !strncmp(name, "media", 5);
    return !strncmp(name, "v4l", 3) || (is_node && name[5] >= '0' && name[5] <= '9');
}

/* Makes the links of a mirror, or removes them. */
static void mirror(int place, const char *path, int is_made) {
    const char *real = path + strlen("root"), *none;
    char text[300], said[300];
    int at = open_above(place, path, &none, is_made);
    DIR *entries = is_made ? opendir(real) : fdopendir(fcntl(at, F_DUPFD_CLOEXEC, 0));
    for (struct dirent *it; entries && (it = readdir(entries));) {
        int size = snprintf(text, sizeof text, "%s%s", real, it->d_name);
        if (is_made && *it->d_name != '.' && !is_camera(it->d_name) && symlinkat(text, at, it->d_name) && errno != EEXIST)
            fail_at(path);
        if (!is_made && readlinkat(at, it->d_name, said, sizeof said) == size && !memcmp(text, said, size))
            unlinkat(at, it->d_name, 0);
    }
    if (entries)
        closedir(entries);
    close(at);
}

void tree_make(int place) {
    const char *name;
    tree_remove(place); /* of a daemon that was killed */
    for (size_t i = 0; i < LEAF_COUNT; i++) {
        int at = open_above(place, leaves[i][0], &name, 1);
        if (at < 0 || make_leaf(at, name, leaves[i][1]))
            fail_at(leaves[i][0]);
        close(at);
    }
    for (size_t i = 0; i < MIRROR_COUNT; i++)
        mirror(place, mirrors[i], 1);
}

/* Each leaf, and each directory above it that is empty then. */
void tree_remove(int place) {
    const char *name;
    char path[128];
    for (size_t i = 0; i < MIRROR_COUNT; i++)
        mirror(place, mirrors[i], 0);
    for (size_t i = 0; i < LEAF_COUNT; i++) {
        snprintf(path, sizeof path, "%s", leaves[i][0]);
        for (int flags = 0; *path; flags = AT_REMOVEDIR) {
            int at = open_above(place, path, &name, 0);
            unlinkat(at, name, flags);
            close(at);
            path[name > path ? name - path - 1 : 0] = 0;
        }
    }
}
