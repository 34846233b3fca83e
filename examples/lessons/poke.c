/* POKE writes where it shouldn't, from a key on: into its neighbour's segment, into common memory, into its gates, and into the copies
   that the kernel gives it; and shows what it reads there afterwards. POKE W watches its own segment and common memory meanwhile. */

#include "kernel.h"

#define MARK 0x55
#define COMMON ((unsigned char *) 0xC000)
#define NEIGHBOUR ((unsigned char *) 0x4000)
#define LAST_PAGE ((unsigned char *) 0x3F00)

static unsigned char watched[256];
static const char digits[] = "0123456789ABCDEF";
static char text[] = "N 00\r\n$";

/* Shows a letter and a byte. */
static void show(char letter, unsigned char byte)
{
    text[0] = letter;
    text[2] = digits[byte >> 4];
    text[3] = digits[byte & 15];
    call(WRITE_STRING, ADDRESS(text));
}

static void fill(unsigned char *from, unsigned int count)
{
    while (count--)
        *from++ = MARK;
}

static void poke(void)
{
    unsigned char *copy;
    fill(NEIGHBOUR, 0x8000);
    show('N', NEIGHBOUR[0x0100]);
    *COMMON = MARK;
    show('C', *COMMON);
    fill(LAST_PAGE, 16);
    show('G', LAST_PAGE[6]);
    copy = (unsigned char *) call(DESCRIPTOR, 0);
    copy[3] = 0;
    call(DESCRIPTOR, 0);
    show('P', copy[3]);
}

static void watch(void)
{
    unsigned char place = 0, changed = 0;
    do
        changed |= watched[place];
    while (++place);
    show('W', changed);
    show('C', *COMMON);
}

int main(void)
{
    call(READ_RAW_KEY, 0);
    base_page[TAIL + 1] == 'W' ? watch() : poke();
    return 0;
}
