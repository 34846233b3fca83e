/* SDIR [d:][afn] [option]: the files with their sizes, attributes, protection and stamps of date and time, sorted by their names, and the sums.
   The option SYS shows those with that attribute alone, DIR those without. */

#include <string.h>
#include "kernel.h"
#include "console.h"
#include "dates.h"
#include "directory.h"
#include "files.h"
#include "listing.h"
#include "words.h"

/* The upper bits of an XFCB's mode (Programmer's Guide, "Function 102: Read File XFCB"). */
enum { PROTECTS_READING = 0x80, PROTECTS_WRITING = 0x40, PROTECTS_DELETING = 0x20 };

static struct file pattern;
static char takes_system = 1, takes_others = 1;

static struct {
    unsigned long records, kilobytes;
    unsigned int files, entries;
} total;

static void show_head(void)
{
    put_text("Directory for Drive ");
    put_drive(&pattern);
    put_text("  User ");
    put_number(call(USER, 0xFF));
    end_line();
    put_line("Name          Bytes   Recs Attributes   Prot   Update         Access");
    put_line("------------ ------ ------ ------------ ------ -------------- --------------");
}

static void show_attributes(const char *name)
{
    unsigned char number;
    put_text(has_attribute(name, SYSTEM) ? " Sys" : " Dir");
    put_text(has_attribute(name, READ_ONLY) ? " RO" : " RW");
    put_text(has_attribute(name, ARCHIVED) ? " A" : "  ");
    for (number = 0; number < 4; number++)
        put(has_attribute(name, number) ? '1' + number : ' ');
}

static const char *protection_of(unsigned char mode)
{
    if (mode & PROTECTS_READING)
        return " Read  ";
    if (mode & PROTECTS_WRITING)
        return " Write ";
    return mode & PROTECTS_DELETING ? " Delete" : " None  ";
}

/* The stamps of update and access, which are at 28 and 24 of the file control block; a date of 0 is none. */
static void show_stamps(const struct stamp *update, const struct stamp *access)
{
    if (update->date) {
        put(' ');
        put_day_and_minute(update);
    } else if (access->date)
        put_spaces(15);
    if (access->date) {
        put(' ');
        put_day_and_minute(access);
    }
}

static void show_xfcb(const char *name)
{
    struct file file;
    name_file(&file, &pattern, name);
    if (IS_ERROR(call(READ_XFCB, ADDRESS(&file))))
        return;
    put_text(protection_of(file.extent));
    show_stamps((const struct stamp *) (file.handle + 12), (const struct stamp *) (file.handle + 8));
}

static void add(const struct found *found)
{
    total.records += found->records;
    total.kilobytes += found->kilobytes;
    total.entries += found->entries;
    total.files++;
}

static void show(const struct found *found)
{
    put_name_in_columns(found->name);
    put_padded(found->kilobytes, 6);
    put('k');
    put_padded(found->records, 7);
    show_attributes(found->name);
    show_xfcb(found->name);
    end_line();
}

static void show_total(void)
{
    end_line();
    put_text("Total Bytes = ");
    put_number(total.kilobytes);
    put_text("k  Total Records = ");
    put_number(total.records);
    put_text("  Files Found = ");
    put_number(total.files);
    end_line();
}

static char is_wanted(const char *name)
{
    return has_attribute(name, SYSTEM) ? takes_system : takes_others;
}

static void show_all(void)
{
    struct found found;
    unsigned int answer = find_first(&pattern, &found);
    if (answer && answer != NOT_FOUND) {
        report_error(&pattern, answer);
        return;
    }
    for (; !answer; answer = find_next(&found))
        if (is_wanted(found.name)) {
            if (!total.files)
                show_head();
            add(&found);
            show(&found);
        }
    if (total.files)
        show_total();
    else
        put_line("File not found");
}

static const char *take_option(const char *text)
{
    const char *rest;
    if ((rest = after_word(text, "SYS")) != 0)
        takes_others = 0;
    else if ((rest = after_word(text, "DIR")) != 0)
        takes_system = 0;
    else {
        text = skip_blanks(text);
        rest = strchr("[]", *text) ? text + 1 : 0;
    }
    return rest;
}

static char read_words(const char *text)
{
    text = skip_blanks(text);
    return read_listing(text, *text == '[', &pattern, take_option);
}

int main(void)
{
    begin();
    if (read_words(take_tail()))
        show_all();
    else
        report_usage("SDIR d:name.typ [SYS] [DIR]");
    return 0;
}
