/* TYPE name [P]: shows a text up to its end, 1Ah, with tabs expanded. With P it stops after each page until a key is typed. */

#include <string.h>
#include "kernel.h"
#include "console.h"
#include "files.h"
#include "words.h"

#define END_OF_TEXT 0x1A
#define PAGE 23 /* lines, and one for the question */

static struct file file;
static char buffer[MOST_RECORDS * RECORD];
static char stops;
static unsigned char line;
static char last = '\n';

static void stop_at_page(void)
{
    if (!stops || ++line < PAGE)
        return;
    line = 0;
    put_text("Press RETURN to continue ");
    call(READ_KEY, 0);
    end_line();
}

/* Shows so many bytes; whether the text goes on. */
static char show(const char *bytes, unsigned int count)
{
    for (; count; count--, bytes++) {
        if (*bytes == END_OF_TEXT)
            return 0;
        put(last = *bytes);
        if (*bytes == '\n')
            stop_at_page();
    }
    return 1;
}

static void show_all(void)
{
    unsigned char records;
    do
        records = read_records(&file, buffer);
    while (records && show(buffer, records * (unsigned int) RECORD));
    if (last != '\n')
        end_line();
}

static char read_option(const char *text)
{
    const char *rest;
    text = skip_blanks(text);
    if (*text == '[')
        text++;
    rest = after_word(text, "PAUSE");
    if (!rest)
        rest = after_word(text, "P");
    stops = rest != 0;
    return is_end(rest ? (*rest == ']' ? rest + 1 : rest) : text);
}

int main(void)
{
    unsigned int answer;
    const char *rest = read_name(take_tail(), &file);
    begin();
    if (!rest || !has_name(&file) || !read_option(rest)) {
        report_usage("TYPE d:name.typ [P]");
        return 0;
    }
    answer = open_to_read(&file);
    if (IS_ERROR(answer)) {
        report_error(&file, answer);
        return 0;
    }
    show_all();
    close_file(&file);
    return 0;
}
