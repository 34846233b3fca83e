/* PRINTER [n]: the number of the printer, which function 160 sets; a program has printer 0 when it begins. */

#include "kernel.h"
#include "console.h"
#include "words.h"

int main(void)
{
    unsigned int number = 0;
    const char *tail = take_tail();
    const char *rest = is_end(tail) ? tail : read_number(tail, &number);
    if (!rest || !is_end(rest)) {
        report_usage("PRINTER n");
        return 0;
    }
    if (rest != tail && (number > 255 || IS_ERROR(call(SET_PRINTER, number)))) {
        put_line("No such printer");
        return 0;
    }
    put_text("Printer number = ");
    put_number(call(PRINTER_NUMBER, 0));
    end_line();
    return 0;
}
