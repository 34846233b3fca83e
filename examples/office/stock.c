/* STOCK lists the items of STOCK.DAT, a small database: a record of 128 bytes for each, with a name of 16 bytes and a count.
   STOCK N + puts one more of item N into it, and STOCK N - takes one out, with the item's record locked from before it is read
   until it was written, so that nobody else's change is lost. The file is open in unlocked mode: several may work on it at once.
   `commands/make` makes STOCK.PRL, with its library. */

#include "kernel.h"
#include "console.h"
#include "words.h"

#define RECORD_IS_LOCKED 8

static unsigned char record[128];
static unsigned char id[2];
static unsigned char fcb[36] = {
    0, 'S', 'T', 'O', 'C', 'K' | 0x80, ' ', ' ', ' ', 'D', 'A', 'T'
};

static void show(unsigned char item)
{
    put_number(item);
    put(' ');
    put_characters((const char *) record, 16);
    put_number(record[16]);
    end_line();
}

static void point_at(unsigned char item)
{
    fcb[33] = item;
    fcb[34] = 0;
    fcb[35] = 0;
}

static unsigned int read(unsigned char item)
{
    point_at(item);
    call(SET_DMA, ADDRESS(record));
    return call(READ_RANDOM, ADDRESS(fcb));
}

static void list(void)
{
    unsigned char item;
    for (item = 0; read(item) == 0; item++)
        show(item);
}

static unsigned int lock(unsigned char item)
{
    unsigned int answer;
    point_at(item);
    call(SET_DMA, ADDRESS(id));
    while ((answer = call(LOCK_RECORD, ADDRESS(fcb))) == RECORD_IS_LOCKED)
        call(DELAY, 1);
    return answer;
}

static void change(unsigned char item, signed char by)
{
    if (lock(item) || read(item)) {
        put_line("no such item");
        return;
    }
    record[16] += by;
    call(WRITE_RANDOM, ADDRESS(fcb));
    call(SET_DMA, ADDRESS(id));
    call(UNLOCK_RECORD, ADDRESS(fcb));
    show(item);
}

int main(void)
{
    unsigned int item = 0;
    const char *behind = read_number(take_tail(), &item);
    if (call(OPEN_FILE, ADDRESS(fcb))) {
        put_line("no STOCK.DAT");
        return 0;
    }
    id[0] = fcb[33];
    id[1] = fcb[34];
    behind = behind ? skip_blanks(behind) : "";
    if (*behind == '+')
        change((unsigned char) item, 1);
    else if (*behind == '-')
        change((unsigned char) item, -1);
    else
        list();
    return 0;
}
