/* TALLY A, at another console TALLY B: adds one to the count of a record of SHARED.DAT over and over, for ever: to a record of four in turn, to the
   count of all, the first word in it, and to its own, the second or the third one. Each time it locks the record before it reads it, and frees it
   after it was written. TALLY C and TALLY D do so without locks, and lose each other's. */

#include "kernel.h"

static unsigned long record[32];
static unsigned char id[2];
static unsigned char fcb[36] = {
    0, 'S', 'H', 'A', 'R', 'E' | 0x80, 'D', ' ', ' ', 'D', 'A', 'T'
};

static unsigned int call_with(unsigned char function, void *dma)
{
    call(SET_DMA, ADDRESS(dma));
    return call(function, ADDRESS(fcb));
}

int main(void)
{
    const char *word = (const char *) base_page + TAIL + 1; /* after the command and a space, in upper case */
    unsigned char own = 1 + (*word - 'A') % 2;
    unsigned char locks = *word < 'C';
    unsigned char number = 0;
    if (call(OPEN_FILE, ADDRESS(fcb)))
        return 0;
    id[0] = fcb[33];
    id[1] = fcb[34];
    for (;;) {
        fcb[33] = number++ % 4;
        fcb[34] = 0;
        while (locks && call_with(LOCK_RECORD, id))
            call(DISPATCH, 0);
        call_with(READ_RANDOM, record);
        record[0]++;
        record[own]++;
        call_with(WRITE_RANDOM, record);
        if (locks)
            call_with(UNLOCK_RECORD, id);
    }
}
