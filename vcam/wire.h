/* What the shim in a program and the daemon say to each other, over the socket DIR/calls.
 *
 * A file handle is one end of two sockets that the daemon has connected, and whose other end it keeps: so dup, fork, exec, close and
 * poll are the kernel's, and a program needs no table of its handles. The daemon marks the program's end with its kind and its number
 * (MARK, as SO_MAX_PACING_RATE, which says nothing of a socket that sends nothing, and which nobody else can set). It puts a byte in
 * for each frame that waits, which poll shows as POLLIN, and an urgent one (MSG_OOB) where an event waits or the request is complete,
 * which it shows as POLLPRI.
 *
 * A call goes as one packet, and its answer is one packet; the next call follows the answer. It names its handle. Its payload is the
 * call's struct. A control list is its struct, its entries (20 bytes each, at most MOST_ENTRIES), and a slot of SLOT bytes for the
 * payload of each of these; in an entry reserved2 is 1 where the payload lies in its slot. */
#ifndef WIRE_H
#define WIRE_H
#include <stdint.h>

#define MOST_PAYLOAD 16384
#define MOST_ENTRIES 65
#define SLOT 32

/* The kinds of file handles: the video node, the media node, a request. */
enum { VIDEO = 'v', MEDIA = 'm', REQUEST = 'r' };

/* "vcm", the kind, and a number that isn't 0. */
#define MARK(kind, number) (0x76636dull << 40 | (uint64_t)(kind) << 32 | (number))
#define IS_MARK(mark) ((mark) >> 40 == 0x76636d)
#define KIND_OF_MARK(mark) ((int)((mark) >> 32 & 0xff))

enum {
    CALL_IOCTL = 1, /* `number` with a payload */
    CALL_OPEN,      /* `number` is the kind; the answer brings the handle's descriptor */
    CALL_MAP,       /* a struct map; the answer brings a descriptor of the buffer's memory */
    CALL_TAKEN,     /* what an answer wanted taken out of the handle is out; where it couldn't be, `number` is 0 */
    CALL_LINE,      /* a line of a script; the answer's payload is what it is answered, and EINVAL where it is refused */
    CALL_STOP       /* the call that waits is to wait no longer; the only packet that may come before an answer */
};

struct call {
    uint32_t what, number, may_wait;
    uint32_t handle, request; /* their numbers, or 0 */
    uint32_t unused[3];       /* so that what stands behind is aligned */
};

struct map {
    uint64_t offset, length;
};

struct answer {
    uint32_t error;
    uint32_t is_stale; /* all that lies in the handle is to be taken out, and the daemon told by CALL_TAKEN, which puts in what is so */
};
#endif
