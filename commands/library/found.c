/* The names that fit a pattern, found all at once (directory.h), in a module of its own, since the table is large. */

#include <string.h>
#include "directory.h"

char found_names[MOST_NAMES][NAME];

unsigned int find_names(struct file *pattern, unsigned int *first_answer)
{
    unsigned int count = 0;
    struct found found;
    *first_answer = find_first(pattern, &found);
    if (*first_answer)
        return 0;
    do
        memcpy(found_names[count++], found.name, NAME);
    while (count < MOST_NAMES && find_next(&found) == 0);
    return count;
}
