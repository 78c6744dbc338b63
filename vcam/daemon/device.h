/* The proved device, asked by messages: a child process, crates/ctl_serve, on a socket pair. */
#ifndef DEVICE_H
#define DEVICE_H
#include <stdint.h>

enum {
    ASK_OPEN = 1,
    ASK_CLOSE,
    ASK_CALL,
    ASK_ALLOC,
    ASK_FREE,
    ASK_ADD_BUFFER,
    ASK_QUEUE,
    ASK_REINIT,
    ASK_BEGIN,
    ASK_COMPLETE,
    ASK_STREAM_OFF,
    ASK_STATE,
    ASK_FORECAST,
    ASK_CONTROLS,
    ASK_VALUES,
    ASK_WAITS,
    ASK_LINE,
    ASK_WHY,
    ASK_RENEW,
    ASK_COUNTS,
    ASK_EVENTS
};

/* The number of no request, and of the last handler. */
#define NONE 0xffffffffu
/* The longest payload of a message, and of a reply. */
#define MOST_ASK 16368
#define MOST_REPLY 65536

/* The last reply, as it came but for its length, which is the payload's; the next ask writes over it. */
extern struct reply {
    uint32_t length, error, x, y, z;
    unsigned char payload[MOST_REPLY];
} reply;

/* A control as ASK_CONTROLS tells it, and a value as ASK_VALUES and ASK_FORECAST do. */
struct device_control {
    uint32_t id, type, elements;
    char name[32];
};
struct device_value {
    uint32_t length;
    unsigned char bytes[32];
};

/* Starts the program with a device file. */
void device_start(const char *program, const char *device_file);
/* Asks, and waits for the reply; its errno. Where the device is gone the daemon ends. */
uint32_t ask(uint32_t what, uint32_t a, uint32_t b, uint32_t c, const void *payload, uint32_t length);
#define ask_number(what, number) ask(what, number, 0, 0, 0, 0)
#endif
