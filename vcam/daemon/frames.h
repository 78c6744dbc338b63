/* What the queue of buffers and the making of frames know of each other. */
#ifndef FRAMES_H
#define FRAMES_H
#include "daemon.h"

/* buffers.c */
int is_running(void);
/* Takes the first buffer that waits without a request. */
int first_waiting(uint32_t *number);
int is_queued_in(uint32_t number, uint32_t request);
/* Gives a buffer the frame that is due. */
void fill_buffer(uint32_t number, struct frame *frame);
/* Goes on to the frame behind so many, whether or not they had a buffer. */
void pass_frames(uint32_t count);
/* Whether requests have buffers of the queue. */
int holds_requests(void);

/* frames.c */
/* Has the device complete all requests that are queued, and tells their handles. */
void end_requests(void);
#endif
