/* Asks a running camera a line of a script: vcamline DIR WORD ..   0: accepted, 1: refused, 2: wrong words, 3: there is no camera. */
#define _GNU_SOURCE
#include "peer.h"
#include "wire.h"
#include <stdio.h>
#include <string.h>
#include <sys/socket.h>
#include <sys/un.h>
#include <unistd.h>

static struct {
    struct call call;
    char line[MOST_PAYLOAD];
} packet = {.call = {.what = CALL_LINE}};

static struct {
    struct answer answer;
    char text[MOST_PAYLOAD];
} answer;

static int connect_to(const char *directory) {
    struct sockaddr_un address = {.sun_family = AF_UNIX};
    int length = snprintf(address.sun_path, sizeof address.sun_path, "%s/calls", directory);
    int descriptor = socket(AF_UNIX, SOCK_SEQPACKET, 0);
    struct timeval limit = {10, 0};
    struct ucred peer;
    setsockopt(descriptor, SOL_SOCKET, SO_RCVTIMEO, &limit, sizeof limit);
    if (descriptor < 0 || length >= (int)sizeof address.sun_path ||
        connect(descriptor, (struct sockaddr *)&address, sizeof address) || !is_trusted(descriptor, &peer))
        return -1;
    return descriptor;
}

int main(int count, char **given) {
    size_t length = 0;
    if (count < 3) {
        fputs("usage: vcam/ctl DIR LINE ..\n", stderr);
        return 2;
    }
    for (int i = 2; i < count; i++) {
        size_t size = strlen(given[i]);
        if (length + size + 1 > sizeof packet.line) {
            fputs("vcam/ctl: the line is too long\n", stderr);
            return 2;
        }
        if (i > 2)
            packet.line[length++] = ' ';
        memcpy(packet.line + length, given[i], size);
        length += size;
    }
    int camera = connect_to(given[1]);
    if (camera < 0) {
        fprintf(stderr, "vcam/ctl: there is no camera at %s\n", given[1]);
        return 3;
    }
    ssize_t got = send(camera, &packet, sizeof packet.call + length, 0) < 0 ? -1 : recv(camera, &answer, sizeof answer, 0);
    if (got < (ssize_t)sizeof answer.answer) {
        fputs("vcam/ctl: the camera is gone\n", stderr);
        return 3;
    }
    fwrite(answer.text, 1, got - sizeof answer.answer, stdout);
    return answer.answer.error ? 1 : 0;
}
