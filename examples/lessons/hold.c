/* HOLD takes the message of a mutual exclusion queue, from a key on, and gives it back after a second key. Whichever comes first
   makes the queue, and writes the one message into it. */

#include "queues.h"

#define NAME {'M', 'X', 'L', 'E', 'S', 'S', 'O', 'N'}
static struct queue made = {0, NAME, 0, 1};
static struct user_queue queue = {0, 0, NAME};
static const char holds[] = " holds it\r\n$";
static const char gives[] = " gives it back\r\n$";
static const char goes_on[] = "goes on\r\n$";

int main(void)
{
    char is_new = call(MAKE_QUEUE, ADDRESS(&made)) == 0;
    call(OPEN_QUEUE, ADDRESS(&queue));
    if (is_new)
        call(WRITE_QUEUE, ADDRESS(&queue));
    call(READ_KEY, 0);
    call(READ_QUEUE, ADDRESS(&queue));
    call(WRITE_STRING, ADDRESS(holds));
    call(READ_KEY, 0);
    call(WRITE_STRING, ADDRESS(gives));
    call(WRITE_QUEUE, ADDRESS(&queue));
    call(WRITE_STRING, ADDRESS(goes_on));
    return 0;
}
