/* What commands that list files share: the words after them. */

#ifndef LISTING_H
#define LISTING_H

#include "names.h"

/* Reads a name of files and the options after it, each by `take_option`, which answers what comes after an option, or 0 where there is none.
   Without a name, and where the caller sees an option first, all files of the current drive are meant. Answers whether nothing else is
   there. */
char read_listing(const char *text, char begins_with_option, struct file *pattern, const char *(*take_option)(const char *text));

#endif
