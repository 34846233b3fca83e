/* TURN OLD.TYP NEW.TYP writes a file's records into a new file in the other order, the last one first, so that each is read and written at random, and
   the new file grows from its end. It writes how many records there were. */

#include "kernel.h"
#include "console.h"

/* The interpreter has put the names of both words into the base page; opening the first uses the second one's place. */
static const unsigned char *const first = base_page + 0x5C;
static unsigned char old[36], new[36], record[128];

static void point_at(unsigned char *fcb, unsigned int record_number)
{
    fcb[33] = record_number & 255;
    fcb[34] = record_number >> 8;
    fcb[35] = 0;
}

static char copy(unsigned int from, unsigned int to)
{
    point_at(old, from);
    point_at(new, to);
    return call(READ_RANDOM, ADDRESS(old)) || call(WRITE_RANDOM, ADDRESS(new));
}

int main(void)
{
    unsigned int count, number;
    for (number = 0; number < 16; number++) {
        old[number] = first[number];
        new[number] = first[16 + number];
    }
    call(SET_DMA, ADDRESS(record));
    if (call(OPEN_FILE, ADDRESS(old)) || call(MAKE_FILE, ADDRESS(new))) {
        put_line("can't");
        return 0;
    }
    call(FILE_SIZE, ADDRESS(old));
    count = old[33] + 256 * old[34];
    for (number = count; number-- > 0;)
        if (copy(count - 1 - number, number))
            put_line("failed");
    call(CLOSE_FILE, ADDRESS(new));
    put_number(count);
    put_line(" records");
    return 0;
}
