/* ABORT name [console]: ends the program of that name, which was started at this console, or at the one that is named. */

#include "kernel.h"
#include "console.h"
#include "processes.h"
#include "words.h"

/* The parameter of function 157. */
static struct {
    unsigned int descriptor, code;
    char name[PROCESS_NAME];
    unsigned char console;
} aborted;

int main(void)
{
    unsigned int console = call(CONSOLE_NUMBER, 0);
    const char *rest = read_process_name(take_tail(), aborted.name);
    if (rest && !is_end(rest))
        rest = read_number(rest, &console);
    if (!rest || !is_end(rest)) {
        report_usage("ABORT name console");
        return 0;
    }
    aborted.console = (unsigned char) console;
    if (console > 255 || IS_ERROR(call(ABORT_PROCESS, ADDRESS(&aborted))))
        put_line("Abort failed");
    return 0;
}
