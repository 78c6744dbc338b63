/* That the camera is found as programs look: by paths of any shape, in listings, in what a kernel and udev show; and that all else is
 * as it is without a camera. What is the machine's own is read by open without O_DIRECTORY, which nothing turns to the camera. */
#include "client.h"
#include <dirent.h>
#include <glob.h>
#include <limits.h>
#include <stdint.h>
#include <sys/stat.h>
#include <sys/sysmacros.h>
#include <sys/uio.h>

#define VIDEO_NODE makedev(81, 0)
#define MEDIA_NODE makedev(239, 0)

static int is_node(const struct stat *status, dev_t node) {
    return S_ISCHR(status->st_mode) && status->st_rdev == node;
}

/* Whether a descriptor is a file handle of the video node; it is closed. */
static int is_camera(int descriptor) {
    struct v4l2_capability it = {.card = ""};
    int is_it = descriptor >= 0 && !ioctl(descriptor, VIDIOC_QUERYCAP, &it) && !strcmp((char *)it.card, "Tugosier virtual camera");
    return descriptor >= 0 && !close(descriptor) && is_it;
}

/* A path that is the video node's, from a directory. */
static void check_node(int directory, const char *path) {
    struct stat status;
    struct statx more;
    int before = failed;
    CHECK(!fstatat(directory, path, &status, 0) && is_node(&status, VIDEO_NODE));
    CHECK(!fstatat(directory, path, &status, AT_SYMLINK_NOFOLLOW) && is_node(&status, VIDEO_NODE));
    CHECK(!statx(directory, path, 0, STATX_BASIC_STATS, &more) && S_ISCHR(more.stx_mode) && more.stx_rdev_major == 81);
    CHECK(!faccessat(directory, path, R_OK | W_OK, 0));
    CHECK(!faccessat(directory, path, R_OK | W_OK, AT_EACCESS));
    REFUSED(faccessat(directory, path, X_OK, 0), EACCES);
    CHECK(is_camera(openat(directory, path, O_RDWR)));
    CHECK(is_camera(openat64(directory, path, O_RDONLY)));
    if (directory == AT_FDCWD) {
        char real[PATH_MAX];
        CHECK(!stat(path, &status) && is_node(&status, VIDEO_NODE));
        CHECK(!lstat(path, &status) && is_node(&status, VIDEO_NODE));
        CHECK(!access(path, F_OK) && !access(path, R_OK | W_OK));
        CHECK(!euidaccess(path, R_OK | W_OK) && !eaccess(path, R_OK));
        CHECK(is_camera(open(path, O_RDWR)) && is_camera(open64(path, O_RDWR)));
        CHECK(realpath(path, real) && !strcmp(real, VIDEO_PATH));
        REFUSED(readlink(path, real, sizeof real), EINVAL);
        CHECK(!opendir(path) && errno == ENOTDIR);
    }
    if (failed > before)
        printf("of %s\n", path);
}

static void check_paths(void) {
    static const char *const whole[] = {VIDEO_PATH, "//dev/video0", "/dev//./video0", "/dev/../dev/video0", "/usr/../dev/video0"};
    struct stat status;
    for (size_t i = 0; i < sizeof whole / sizeof *whole; i++)
        check_node(AT_FDCWD, whole[i]);
    CHECK(!chdir("/dev"));
    check_node(AT_FDCWD, "video0");
    check_node(AT_FDCWD, "../dev/./video0");
    CHECK(!chdir("/"));
    check_node(AT_FDCWD, "dev/video0");
    static const int flags[] = {O_RDONLY, O_RDONLY | O_DIRECTORY, O_PATH, O_PATH | O_DIRECTORY};
    for (int i = 0; i < 4; i++) {
        int directory = open("/dev", flags[i]);
        check_node(directory, "video0");
        check_node(directory, VIDEO_PATH);
        CHECK(!fstatat(directory, "media0", &status, 0) && is_node(&status, MEDIA_NODE));
        CHECK(!close(directory));
    }
    CHECK(!stat("/dev//media0", &status) && is_node(&status, MEDIA_NODE));
    /* what isn't one */
    static const char *const not[] = {"/dev/video0/.", "/dev/video0/", "/dev/video00", "/dev/video", "/etc/video0", "video0"};
    for (size_t i = 0; i < sizeof not / sizeof *not; i++)
        CHECK(open(not[i], O_RDWR) == -1 && (errno == ENOENT || errno == ENOTDIR));
    REFUSED(open(VIDEO_PATH, O_RDWR | O_DIRECTORY), ENOTDIR);
    REFUSED(open(VIDEO_PATH, O_RDWR | O_CREAT | O_EXCL, 0600), EEXIST);
    REFUSED(openat(-1, "video0", O_RDWR), EBADF);
    int bare = open(VIDEO_PATH, O_PATH);
    REFUSED(ioctl(bare, FIONBIO, &(int){1}), EBADF);
    CHECK(!close(bare));
}

static int has(DIR *entries, const char *name) {
    int is_there = 0;
    for (struct dirent *it; entries && (it = readdir(entries));)
        is_there |= !strcmp(it->d_name, name);
    return entries && !closedir(entries) && is_there;
}

static int is_video(const struct dirent *it) {
    return !strncmp(it->d_name, "video", 5);
}
static int is_video64(const struct dirent64 *it) {
    return !strncmp(it->d_name, "video", 5);
}

static int globbed(const char *pattern, const char *first) {
    glob_t found;
    glob64_t found64;
    int is_it = !glob(pattern, 0, 0, &found) && found.gl_pathc == 1 && !strcmp(found.gl_pathv[0], first);
    globfree(&found);
    is_it = !glob64(pattern, 0, 0, &found64) && found64.gl_pathc == 1 && !strcmp(found64.gl_pathv[0], first) && is_it;
    globfree64(&found64);
    return is_it;
}

static void check_listings(void) {
    struct dirent **list = 0;
    struct dirent64 **list64 = 0;
    CHECK(has(opendir("/dev"), "video0") && has(opendir("//dev/"), "media0") && has(opendir("/dev"), "null"));
    CHECK(has(fdopendir(openat(AT_FDCWD, "/dev", O_RDONLY | O_DIRECTORY | O_CLOEXEC)), "video0"));
    int count = scandir("/dev", &list, is_video, alphasort);
    CHECK(count == 1 && !strcmp(list[0]->d_name, "video0"));
    while (count > 0)
        free(list[--count]);
    free(list);
    count = scandir64("/dev", &list64, is_video64, alphasort64);
    CHECK(count == 1 && !strcmp(list64[0]->d_name, "video0"));
    while (count > 0)
        free(list64[--count]);
    free(list64);
    CHECK(globbed("/dev/video*", VIDEO_PATH) && globbed("/dev/video0", VIDEO_PATH) && globbed("/d?v/vide[o]0", VIDEO_PATH));
    CHECK(globbed("/sys/class/video4linux/*/name", "/sys/class/video4linux/video0/name"));
    CHECK(has(opendir("/sys/class"), "video4linux") && has(opendir("/sys/class/video4linux"), "video0"));
    CHECK(has(opendir("/sys/bus"), "media") && has(opendir("/sys/bus/media/devices"), "media0"));
    CHECK(!chdir("/dev"));
    CHECK(has(opendir("."), "video0") && has(opendir("../dev"), "video0") && globbed("video*", "video0"));
    CHECK(!chdir("/"));
    CHECK(has(opendir("dev"), "video0") && has(opendir("sys/class/"), "video4linux"));
}

/* Whether a file has a text in it. */
static int says(int directory, const char *path, const char *text) {
    char bytes[1024];
    int file = openat(directory, path, O_RDONLY);
    ssize_t got = file < 0 ? -1 : read(file, bytes, sizeof bytes - 1);
    bytes[got < 0 ? 0 : got] = 0;
    return file >= 0 && !close(file) && strstr(bytes, text);
}

static int leads(const char *path, const char *to) {
    char real[PATH_MAX];
    return realpath(path, real) && !strcmp(real, to);
}

#define CLASS "/sys/class/video4linux"
#define DEVICE "/sys/devices/platform/tugosier.0"
static void check_tree(void) {
    char text[PATH_MAX];
    struct stat status;
    CHECK(says(AT_FDCWD, CLASS "/video0/name", "Tugosier virtual camera\n"));
    CHECK(says(AT_FDCWD, CLASS "/video0/dev", "81:0\n"));
    CHECK(says(AT_FDCWD, "/sys/./class/net/../video4linux//video0/uevent", "DEVNAME=video0\n"));
    CHECK(says(AT_FDCWD, "/sys/dev/char/81:0/uevent", "DEVNAME=video0\n"));
    CHECK(says(AT_FDCWD, "/sys/dev/char/239:0/uevent", "DEVNAME=media0\n"));
    CHECK(says(AT_FDCWD, "/sys/dev/char/81:0/device/uevent", "DRIVER=tugosier\n"));
    CHECK(says(AT_FDCWD, "/run/udev/data/c81:0", ":capture:"));
    CHECK(!access(CLASS "/video0/device/media0", F_OK));
    CHECK(!lstat(CLASS "/video0", &status) && S_ISLNK(status.st_mode) && !stat(CLASS "/video0", &status) && S_ISDIR(status.st_mode));
    ssize_t size = readlink(CLASS "/video0", text, sizeof text);
    CHECK(size > 0 && !strncmp(text, "../../devices/platform/tugosier.0/video4linux/video0", size));
    CHECK(readlink(CLASS "/video0", text, 5) == 5 && !memcmp(text, "../..", 5));
    CHECK(leads(CLASS "/video0", DEVICE "/video4linux/video0") && leads(CLASS "/video0/device/../tugosier.0", DEVICE));
    CHECK(leads("/sys/dev/char/239:0", DEVICE "/media0") && leads("/sys/bus/media/devices/media0/device", DEVICE));
    /* name by name from the top, as libudev does, and from below */
    static const char *const steps[] = {"sys", "class", "video4linux", "video0", "device", "subsystem", "devices"};
    int at = open("/", O_PATH);
    for (size_t i = 0; i < sizeof steps / sizeof *steps; i++) {
        int next = openat(at, steps[i], O_PATH | O_CLOEXEC);
        CHECK(next >= 0 && !close(at));
        at = next;
    }
    CHECK(says(at, "tugosier.0/modalias", "platform:tugosier\n") && says(at, "../../../class/video4linux/video0/index", "0\n"));
    snprintf(text, sizeof text, "/proc/self/fd/%d", at);
    CHECK(leads(text, "/sys/bus/platform/devices"));
    CHECK(!close(at));
    CHECK(!chdir(CLASS "/video0") && says(AT_FDCWD, "name", "Tugosier") && says(AT_FDCWD, "../uevent", "") == 0 && !chdir("/"));
}

/* Whether all that a directory of the machine has is in its listing, and leads to what it did. */
static int is_same(const char *path) {
    char text[PATH_MAX];
    struct stat here, there;
    int own = open(path, O_RDONLY), is_it = own >= 0, count = 0;
    DIR *entries = fdopendir(own);
    for (struct dirent *it; entries && (it = readdir(entries));) {
        int is_camera = !strncmp(it->d_name, "video", 5) || !strncmp(it->d_name, "media", 5) || !strncmp(it->d_name, "v4l", 3);
        if (*it->d_name == '.' || is_camera || fstatat(own, it->d_name, &there, 0))
            continue;
        snprintf(text, sizeof text, "%s/%s", path, it->d_name);
        count++;
        is_it &= has(opendir(path), it->d_name) && !stat(text, &here) && here.st_ino == there.st_ino && here.st_dev == there.st_dev;
    }
    return entries && !closedir(entries) && count > 0 && is_it;
}

static void check_others(void) {
    struct stat status;
    char text[PATH_MAX];
    CHECK(!stat("/dev/null", &status) && is_node(&status, makedev(1, 3)));
    int directory = open("/dev", O_RDONLY | O_DIRECTORY);
    CHECK(!fstatat(directory, "null", &status, 0) && is_node(&status, makedev(1, 3)));
    int null = openat(directory, "null", O_WRONLY);
    CHECK(null >= 0 && write(null, "x", 1) == 1 && !close(null) && !close(directory));
    CHECK(says(AT_FDCWD, "/etc/passwd", "root:") && !access("/etc/passwd", R_OK) && has(opendir("/etc"), "passwd"));
    CHECK(globbed("/etc/passw?", "/etc/passwd") && leads("/etc/../etc/passwd", "/etc/passwd"));
    REFUSED(access("/nowhere/video0", F_OK), ENOENT);
    REFUSED(stat("/dev/videos", &status), ENOENT);
    REFUSED(stat("", &status), ENOENT);
    CHECK(!fopen("/nowhere/video0", "r") && errno == ENOENT);
    CHECK(!chdir("/etc") && readlink("/proc/self/cwd", text, sizeof text) == 4 && !memcmp(text, "/etc", 4));
    CHECK(has(opendir("."), "passwd") && !chdir("/"));
    memset(text, 'x', sizeof text - 1);
    memcpy(text, "/dev/", 5);
    text[sizeof text - 1] = 0;
    REFUSED(open(text, O_RDONLY), ENAMETOOLONG);
    CHECK(is_same("/dev") && is_same("/sys/class") && is_same("/sys/bus"));
}

static void check_descriptor(void) {
    char byte = 0;
    int on = 1, off = 0, ends[2], video = open(VIDEO_PATH, O_RDWR);
    struct iovec part = {&byte, 1};
    CHECK(!ioctl(video, FIONBIO, &on) && fcntl(video, F_GETFL) & O_NONBLOCK);
    CHECK(!ioctl(video, FIONBIO, &off) && !(fcntl(video, F_GETFL) & O_NONBLOCK));
    CHECK(!ioctl(video, FIOCLEX) && fcntl(video, F_GETFD) == FD_CLOEXEC);
    CHECK(!ioctl(video, FIONCLEX) && fcntl(video, F_GETFD) == 0);
    CHECK(!ioctl(video, FIOASYNC, &off));
    CHECK(!fcntl(video, F_SETFL, O_RDWR | O_NONBLOCK)); /* what reads a handle nevertheless is to say so, and not to wait */
    REFUSED(read(video, &byte, 1), EINVAL);
    REFUSED(write(video, &byte, 1), EINVAL);
    REFUSED(readv(video, &part, 1), EINVAL);
    REFUSED(writev(video, &part, 1), EINVAL);
    REFUSED(pread(video, &byte, 1, 0), EINVAL);
    REFUSED(pread64(video, &byte, 1, 0), EINVAL);
    REFUSED(pwrite(video, &byte, 1, 0), EINVAL);
    REFUSED(pwrite64(video, &byte, 1, 0), EINVAL);
    CHECK(!pipe(ends) && writev(ends[1], &part, 1) == 1 && readv(ends[0], &part, 1) == 1 && !close(ends[0]) && !close(ends[1]));
    CHECK(is_camera(video));
    FILE *stream = fopen(VIDEO_PATH, "rbe");
    CHECK(stream && fcntl(fileno(stream), F_GETFD) == FD_CLOEXEC && is_camera(dup(fileno(stream))));
    CHECK(stream && fgetc(stream) == EOF && ferror(stream) && !fclose(stream));
    stream = fopen64("//dev/media0", "r+");
    CHECK(stream && !fclose(stream));
}

int main(void) {
    check_paths();
    check_listings();
    check_tree();
    check_others();
    check_descriptor();
    return report();
}
