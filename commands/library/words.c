/* The words of a command's tail: words.h says what each function does. */

#include "kernel.h"
#include "words.h"

static char tail[129];

char *take_tail(void)
{
    unsigned char place;
    for (place = 0; place < base_page[TAIL_LENGTH]; place++)
        tail[place] = base_page[TAIL + place];
    tail[place] = 0;
    return tail;
}

void raise_letters(char *text)
{
    for (; *text; text++)
        if (*text >= 'a' && *text <= 'z')
            *text -= 0x20;
}

const char *skip_blanks(const char *text)
{
    while (*text == ' ' || *text == '\t')
        text++;
    return text;
}

char is_end(const char *text)
{
    return *skip_blanks(text) == 0;
}

char is_letter_or_digit(char character)
{
    return (character >= 'A' && character <= 'Z') || (character >= '0' && character <= '9');
}

const char *after_word(const char *text, const char *word)
{
    text = skip_blanks(text);
    while (*word)
        if (*text++ != *word++)
            return 0;
    return is_letter_or_digit(*text) ? 0 : text;
}

const char *read_number(const char *text, unsigned int *number)
{
    unsigned long value = 0;
    text = skip_blanks(text);
    if (*text < '0' || *text > '9')
        return 0;
    while (*text >= '0' && *text <= '9') {
        value = 10 * value + (unsigned char) (*text++ - '0');
        if (value > 65535)
            return 0;
    }
    *number = (unsigned int) value;
    return text;
}
