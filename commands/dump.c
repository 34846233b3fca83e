/* DUMP name: the bytes of a file in hexadecimal and as characters, sixteen in a line. */

#include "kernel.h"
#include "console.h"
#include "files.h"
#include "words.h"

#define ROW 16

static struct file file;
static char buffer[MOST_RECORDS * RECORD];
static unsigned long place;

static void show_row(const char *row)
{
    unsigned char column;
    if (place >> 16)
        put_byte((unsigned char) (place >> 16));
    put_word((unsigned int) place);
    put_text(": ");
    for (column = 0; column < ROW; column++) {
        put_byte(row[column]);
        put(' ');
    }
    put(' ');
    for (column = 0; column < ROW; column++)
        put(row[column] >= ' ' && row[column] < 0x7F ? row[column] : '.');
    end_line();
    place += ROW;
}

static void show_all(void)
{
    unsigned char records;
    unsigned int at;
    while ((records = read_records(&file, buffer)) != 0)
        for (at = 0; at < records * (unsigned int) RECORD; at += ROW)
            show_row(buffer + at);
}

int main(void)
{
    unsigned int answer;
    const char *rest = read_name(take_tail(), &file);
    begin();
    if (!rest || !has_name(&file) || !is_end(rest)) {
        report_usage("DUMP d:name.typ");
        return 0;
    }
    answer = open_to_read(&file);
    if (IS_ERROR(answer))
        report_error(&file, answer);
    else {
        show_all();
        close_file(&file);
    }
    return 0;
}
