/* FORKS 12 takes fork 1, waits for a tick, takes fork 2, and eats; FORKS 21 takes fork 2 first. Each fork is a mutual exclusion queue.
   FORKS 21 TRY gives the first fork back where the other one isn't there, and tries anew after a tick. */

#include "queues.h"

#define NAME {'M', 'X', 'F', 'O', 'R', 'K', '1', ' '}
static struct queue made = {0, NAME, 0, 1};
static struct user_queue first = {0, 0, NAME}, second = {0, 0, NAME};
static const char eats[] = "eats\r\n$";

static void open(struct user_queue *fork, char digit)
{
    made.name[6] = fork->name[6] = digit;
    if (call(MAKE_QUEUE, ADDRESS(&made)) == 0) {
        call(OPEN_QUEUE, ADDRESS(fork));
        call(WRITE_QUEUE, ADDRESS(fork));
    } else
        call(OPEN_QUEUE, ADDRESS(fork));
}

static void take_both(char function)
{
    call(READ_QUEUE, ADDRESS(&first));
    call(DELAY, 1);
    while (call(function, ADDRESS(&second))) {
        call(WRITE_QUEUE, ADDRESS(&first));
        call(DELAY, 1);
        call(READ_QUEUE, ADDRESS(&first));
    }
}

int main(void)
{
    open(&first, base_page[TAIL + 1]);
    open(&second, base_page[TAIL + 2]);
    call(READ_KEY, 0);
    take_both(base_page[TAIL + 4] == 'T' ? READ_QUEUE_IF_THERE : READ_QUEUE);
    call(WRITE_STRING, ADDRESS(eats));
    call(WRITE_QUEUE, ADDRESS(&second));
    call(WRITE_QUEUE, ADDRESS(&first));
    return 0;
}
