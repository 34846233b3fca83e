/* ERA afn: erases the files that fit, each by itself, so that one that can't be erased is reported and the others go. It asks before all of
   them are erased. */

#include "kernel.h"
#include "console.h"
#include "directory.h"
#include "files.h"
#include "words.h"

static struct file pattern;

static char is_all(void)
{
    unsigned char letter;
    for (letter = 0; letter < NAME; letter++)
        if (pattern.name[letter] != '?')
            return 0;
    return 1;
}

static void erase(const char *name)
{
    erase_or_report(&pattern, name);
}

static void erase_all(void)
{
    if (!is_all() || ask("Confirm delete all user files"))
        each_name(&pattern, erase);
}

int main(void)
{
    const char *rest = read_name(take_tail(), &pattern);
    begin();
    if (rest && has_name(&pattern) && is_end(rest))
        erase_all();
    else
        report_usage("ERA d:name.typ");
    return 0;
}
