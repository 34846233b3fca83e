/* What a command writes to its console, and asks there: console.h says what each function does. */

#include "kernel.h"
#include "console.h"

void put(char character)
{
    call(WRITE_CONSOLE, (unsigned char) character);
}

void put_text(const char *text)
{
    while (*text)
        put(*text++);
}

void end_line(void)
{
    put('\r');
    put('\n');
}

void put_line(const char *text)
{
    put_text(text);
    end_line();
}

void report_usage(const char *usage)
{
    put_text("Usage: ");
    put_line(usage);
}

/* The decimal digits of a number, after spaces up to the width. */
void put_padded(unsigned long number, unsigned char width)
{
    char digits[10];
    unsigned char count = 0;
    do {
        digits[count++] = '0' + (char) (number % 10);
        number /= 10;
    } while (number);
    if (width > count)
        put_spaces(width - count);
    while (count)
        put(digits[--count]);
}

void put_number(unsigned long number)
{
    put_padded(number, 0);
}

static void put_digit(unsigned char digit)
{
    put(digit + (digit < 10 ? '0' : 'A' - 10));
}

void put_byte(unsigned char byte)
{
    put_digit(byte >> 4);
    put_digit(byte & 15);
}

void put_word(unsigned int word)
{
    put_byte(word >> 8);
    put_byte(word & 255);
}

void put_characters(const char *text, unsigned char count)
{
    while (count--)
        put(*text++);
}

void put_spaces(unsigned char count)
{
    while (count--)
        put(' ');
}

/* Function 10's buffer: its greatest length, the length of the line, and the line. */
static struct {
    unsigned char most, count;
    char line[MOST_KEYS + 1];
} typed = { MOST_KEYS };

char *read_line(void)
{
    call(READ_LINE, ADDRESS(&typed));
    put('\n'); /* the call has written CR */
    typed.line[typed.count] = 0;
    return typed.line;
}

char ask(const char *question)
{
    char first;
    do {
        put_text(question);
        put_text(" (Y/N)? ");
        first = *read_line() & 0x5F; /* upper case */
    } while (first != 'Y' && first != 'N');
    return first == 'Y';
}
