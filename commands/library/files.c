/* The calls on files: files.h says what each function does. */

#include <string.h>
#include "kernel.h"
#include "console.h"
#include "files.h"

void begin(void)
{
    call(SET_ERROR_MODE, 0xFF);
}

unsigned int call_with_password(unsigned char function, struct file *file)
{
    call(SET_DMA, ADDRESS(file->password));
    return call(function, ADDRESS(file));
}

static unsigned int open_in_mode(struct file *file, unsigned char mode)
{
    unsigned int answer;
    set_attribute(file->name, mode, 1);
    answer = call_with_password(OPEN_FILE, file);
    if (IS_ERROR(answer))
        set_attribute(file->name, mode, 0);
    return answer;
}

unsigned int open_to_read(struct file *file)
{
    unsigned int answer = open_in_mode(file, READ_ONLY_MODE);
    if (answer == EXTENDED(IS_OPEN_ELSEWHERE))
        answer = open_in_mode(file, UNLOCKED);
    return answer;
}

unsigned char read_records(struct file *file, char *to)
{
    unsigned int answer;
    call(SET_DMA, ADDRESS(to));
    call(SET_RECORDS, MOST_RECORDS);
    answer = call(READ_SEQUENTIAL, ADDRESS(file));
    call(SET_RECORDS, 1);
    return answer ? answer >> 12 : MOST_RECORDS;
}

void close_file(struct file *file)
{
    call(CLOSE_FILE, ADDRESS(file));
}

static const char *words_of(unsigned char error)
{
    switch (error) {
    case 0: return "File not found";
    case DRIVE_IS_READ_ONLY: return "Disk R/O";
    case FILE_IS_READ_ONLY: return "File R/O";
    case NO_DRIVE: return "Invalid drive";
    case IS_OPEN_ELSEWHERE: return "File currently open";
    case WRONG_PASSWORD: return "Password error";
    case IS_THERE: return "File already exists";
    case IS_NO_SINGLE_FILE: return "Wildcards not allowed";
    default: return "Too many open files";
    }
}

void put_error(unsigned int answer)
{
    put_text(words_of(answer >> 8));
}

void report_error(const struct file *file, unsigned int answer)
{
    if (answer == EXTENDED(NO_DRIVE))
        put_drive(file);
    else
        put_file(file);
    put_text(" - ");
    put_error(answer);
    end_line();
}

void erase_or_report(const struct file *like, const char *name)
{
    struct file file;
    unsigned int answer;
    name_file(&file, like, name);
    answer = call_with_password(DELETE_FILE, &file);
    if (IS_ERROR(answer))
        report_error(&file, answer);
}
