/* ERAQ afn: asks of each file that fits whether it is to be erased. */

#include "kernel.h"
#include "console.h"
#include "directory.h"
#include "files.h"
#include "words.h"

static struct file pattern;

static void erase_if_wanted(const char *name)
{
    put_drive(&pattern);
    put_name(name);
    if (ask(""))
        erase_or_report(&pattern, name);
}

int main(void)
{
    const char *rest = read_name(take_tail(), &pattern);
    begin();
    if (rest && has_name(&pattern) && is_end(rest))
        each_name(&pattern, erase_if_wanted);
    else
        report_usage("ERAQ d:name.typ");
    return 0;
}
