/* ATTACH name: gives the console to the program of that name, which was started here and left by ^D. */

#include "kernel.h"
#include "console.h"
#include "processes.h"
#include "words.h"

/* The parameter of function 149. */
static struct {
    unsigned char console;
    char name[PROCESS_NAME];
    unsigned char is_its_console; /* FFh: the process must have this console */
} assigned;

int main(void)
{
    const char *rest = read_process_name(take_tail(), assigned.name);
    if (!rest || !is_end(rest)) {
        report_usage("ATTACH name");
        return 0;
    }
    assigned.console = (unsigned char) call(CONSOLE_NUMBER, 0);
    assigned.is_its_console = 0xFF;
    call(ATTACH_CONSOLE, 0);
    if (IS_ERROR(call(ASSIGN_CONSOLE, ADDRESS(&assigned))))
        put_line("Attach failed");
    return 0;
}
