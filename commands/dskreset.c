/* DSKRESET [d:,d:..]: gives drives back, so that they may be written again where they were protected: those that are named, or all. */

#include "kernel.h"
#include "console.h"
#include "files.h"
#include "words.h"

#define ALL_DRIVES 0xFFFF

/* The drives that are named, as bits; 0 where the text has another form. */
static unsigned int read_drives(const char *text)
{
    struct file named;
    unsigned int drives = 0;
    do {
        text = read_name(*text == ',' ? text + 1 : text, &named);
        if (!text || has_name(&named) || !named.drive)
            return 0;
        drives |= 1u << (named.drive - 1);
        text = skip_blanks(text);
    } while (*text == ',');
    return *text ? 0 : drives;
}

int main(void)
{
    const char *tail = take_tail();
    unsigned int drives = is_end(tail) ? ALL_DRIVES : read_drives(tail);
    if (!drives)
        report_usage("DSKRESET d:,d:");
    else if (call(RESET_DRIVES, drives))
        put_line("Disk reset denied: others have files open there");
    return 0;
}
