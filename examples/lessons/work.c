/* WORK N takes the priority N, from a key on, and does six pieces of work, each of which it shows as it begins it. WORK N WAIT waits for
   a tick of the clock after each. */

#include "kernel.h"
#include "words.h"

static char text[] = "1\r\n$";

static void work(void)
{
    volatile unsigned char left;
    for (left = 0; left < 100; left++)
        ;
}

int main(void)
{
    unsigned int priority;
    char waits = *skip_blanks(read_number(take_tail(), &priority)) == 'W';
    call(READ_RAW_KEY, 0);
    call(SET_PRIORITY, priority);
    for (; text[0] <= '6'; text[0]++) {
        call(WRITE_STRING, ADDRESS(text));
        work();
        if (waits)
            call(DELAY, 1);
    }
    return 0;
}
