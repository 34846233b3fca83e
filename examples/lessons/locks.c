/* LOCKS 12 locks record 1 of NUMBER.DAT, waits for a tick, and locks record 2, from a key on; LOCKS 21 locks record 2 first. A record
   that another process has is tried again at each tick. */

#include "kernel.h"

#define IS_LOCKED 8

static unsigned char id[2];
static const char both[] = "has both\r\n$";
static unsigned char file[36] = {
    0, 'N', 'U', 'M', 'B', 'E' | 0x80, 'R', ' ', ' ', 'D', 'A', 'T'
};

static void lock(char digit)
{
    file[33] = digit - '0';
    file[34] = 0;
    while (call(LOCK_RECORD, ADDRESS(file)) == IS_LOCKED)
        call(DELAY, 1);
}

int main(void)
{
    call(OPEN_FILE, ADDRESS(file));
    id[0] = file[33]; /* the number of the open file, which a lock needs at the DMA address */
    id[1] = file[34];
    call(SET_DMA, ADDRESS(id));
    call(READ_KEY, 0);
    lock(base_page[TAIL + 1]);
    call(DELAY, 1);
    lock(base_page[TAIL + 2]);
    call(WRITE_STRING, ADDRESS(both));
    return 0;
}
