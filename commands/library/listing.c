/* What commands that list files share: listing.h says what each function does. */

#include "listing.h"
#include "words.h"

char read_listing(const char *text, char begins_with_option, struct file *pattern, const char *(*take_option)(const char *text))
{
    if (begins_with_option || *text == 0)
        name_nothing(pattern);
    else if (!(text = read_name(text, pattern)))
        return 0;
    take_all_names(pattern);
    while (text && !is_end(text))
        text = take_option(text);
    return text != 0;
}
