/* Queues: the control blocks that functions 134, 135 and 137 to 140 take (Programmer's Guide, "Queue Management"). */

#ifndef QUEUES_H
#define QUEUES_H

#include "kernel.h"

#define QUEUE_NAME 8

/* What a queue is made of. The kernel has the messages itself, and needs no room after it. */
struct queue {
    unsigned int link;
    char name[QUEUE_NAME];
    unsigned int length, room; /* bytes of a message, and how many of them there is room for */
};

/* How a process uses a queue. */
struct user_queue {
    unsigned int pointer;
    const void *message;
    char name[QUEUE_NAME];
};

#endif
