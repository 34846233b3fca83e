/* Processes by their names: processes.h says what the function does. */

#include <string.h>
#include "processes.h"
#include "words.h"

const char *read_process_name(const char *text, char *name)
{
    unsigned char length = 0;
    memset(name, ' ', PROCESS_NAME);
    text = skip_blanks(text);
    for (; *text && *text != ' ' && *text != '\t'; text++) {
        if (length == PROCESS_NAME)
            return 0;
        name[length++] = *text;
    }
    return length ? text : 0;
}
