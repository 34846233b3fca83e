/* COUNT adds 1 to the first byte of NUMBER.DAT four times, from a key on, and shows what it read and what it wrote. COUNT LOCKED has
   the record locked from before it reads until it has written. The file is open in unlocked mode: others may change it, too. */

#include "kernel.h"

#define IS_LOCKED 8

static unsigned char record[128];
static unsigned char id[2];
static char text[] = "0 to 1\r\n$";
static unsigned char file[36] = {
    0, 'N', 'U', 'M', 'B', 'E' | 0x80, 'R', ' ', ' ', 'D', 'A', 'T'
};

static void lock(void)
{
    call(SET_DMA, ADDRESS(id));
    while (call(LOCK_RECORD, ADDRESS(file)) == IS_LOCKED)
        call(DELAY, 1);
}

static void unlock(void)
{
    call(SET_DMA, ADDRESS(id));
    call(UNLOCK_RECORD, ADDRESS(file));
}

static void add_one(void)
{
    call(SET_DMA, ADDRESS(record));
    call(READ_RANDOM, ADDRESS(file));
    text[0] = '0' + record[0];
    record[0]++;
    text[5] = '0' + record[0];
    call(WRITE_RANDOM, ADDRESS(file));
}

int main(void)
{
    char is_locked = base_page[TAIL + 1] == 'L';
    unsigned char turn;
    call(OPEN_FILE, ADDRESS(file));
    id[0] = file[33]; /* the number of the open file, which a lock needs at the DMA address */
    id[1] = file[34];
    file[33] = file[34] = 0; /* record 0 */
    call(READ_RAW_KEY, 0);
    for (turn = 0; turn < 4; turn++) {
        if (is_locked)
            lock();
        add_one();
        if (is_locked)
            unlock();
        call(WRITE_STRING, ADDRESS(text));
    }
    return 0;
}
