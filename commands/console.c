/* CONSOLE: the number of the console at which it is typed. */

#include "kernel.h"
#include "console.h"

int main(void)
{
    put_text("Console = ");
    put_number(call(CONSOLE_NUMBER, 0));
    end_line();
    return 0;
}
