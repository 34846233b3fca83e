/* SAVE X makes the file X.DAT and writes sixteen records of X into it, from a key on, by two calls of eight records each; then it closes the
   file. */

#include "kernel.h"

static unsigned char records[8 * 128];
static unsigned char file[36] = {
    0, 'X', ' ', ' ', ' ', ' ', ' ', ' ', ' ', 'D', 'A', 'T'
};
static const char saved[] = "saved\r\n$";

int main(void)
{
    unsigned int place;
    char name = base_page[TAIL + 1];
    for (place = 0; place < sizeof records; place++)
        records[place] = name;
    file[1] = name;
    call(SET_DMA, ADDRESS(records));
    call(SET_RECORDS, 8);
    call(READ_RAW_KEY, 0);
    call(MAKE_FILE, ADDRESS(file));
    call(WRITE_SEQUENTIAL, ADDRESS(file));
    call(WRITE_SEQUENTIAL, ADDRESS(file));
    call(CLOSE_FILE, ADDRESS(file));
    call(WRITE_STRING, ADDRESS(saved));
    return 0;
}
