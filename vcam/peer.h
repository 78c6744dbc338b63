/* Who is at the other end of a socket of the camera. */
#ifndef PEER_H
#define PEER_H
#include <stdio.h>
#include <sys/socket.h>
#include <unistd.h>

/* The number that each user has who has none in a user namespace. */
#define NOBODY 65534

/* Whether a user of this number is one, and not any whom the user namespace doesn't know. */
static inline int is_known_user(unsigned user) {
    unsigned inside, outside, count;
    int is_known = 0;
    FILE *map = fopen("/proc/self/uid_map", "re");
    while (map && fscanf(map, "%u %u %u", &inside, &outside, &count) == 3)
        is_known |= user >= inside && user - inside < count;
    if (map)
        fclose(map);
    return is_known;
}

/* Whether it is this user or root. */
static inline int is_trusted(int socket, struct ucred *peer) {
    socklen_t size = sizeof *peer;
    if (getsockopt(socket, SOL_SOCKET, SO_PEERCRED, peer, &size))
        return 0;
    return !peer->uid || (peer->uid == geteuid() && (peer->uid != NOBODY || is_known_user(NOBODY)));
}
#endif
