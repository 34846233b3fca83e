/* PIPE W writes the letters A to F into a queue with room for two, from a key on. PIPE R reads six letters from it, and waits for a tick
   after each, which it shows. Whichever comes first makes the queue. */

#include "queues.h"

#define NAME {'L', 'E', 'T', 'T', 'E', 'R', 'S', ' '}
static struct queue made = {0, NAME, 1, 2};
static char letter[] = "A\r\n$";
static struct user_queue queue = {0, letter, NAME};

static void write_all(void)
{
    for (letter[0] = 'A'; letter[0] <= 'F'; letter[0]++)
        call(WRITE_QUEUE, ADDRESS(&queue));
}

static void read_all(void)
{
    unsigned char turn;
    for (turn = 0; turn < 6; turn++) {
        call(READ_QUEUE, ADDRESS(&queue));
        call(WRITE_STRING, ADDRESS(letter));
        call(DELAY, 1);
    }
}

int main(void)
{
    call(MAKE_QUEUE, ADDRESS(&made));
    call(OPEN_QUEUE, ADDRESS(&queue));
    call(READ_RAW_KEY, 0);
    if (base_page[TAIL + 1] == 'W')
        write_all();
    else
        read_all();
    return 0;
}
