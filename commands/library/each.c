/* Each name that fits a pattern (directory.h). */

#include "directory.h"
#include "files.h"

void each_name(struct file *pattern, void (*act)(const char *name))
{
    unsigned int answer, place;
    unsigned int count = find_names(pattern, &answer);
    if (!count)
        report_error(pattern, answer);
    for (place = 0; place < count; place++)
        act(found_names[place]);
}
