/* STAT                    the room of each drive
   STAT d:                 that of one
   STAT d:=R/O             protects a drive from writing, until DSKRESET
   STAT afn [$S]           the sizes of files; with $S also the record after the last one
   STAT afn $R/O           sets an attribute: $R/O, $R/W, $SYS, $DIR
   STAT [d:]DSK:           the parameters of a drive
   STAT [d:]USR:           the users that have files there
   STAT VAL:               these forms */

#include <string.h>
#include "kernel.h"
#include "console.h"
#include "directory.h"
#include "drives.h"
#include "files.h"
#include "words.h"

static struct file pattern;

/* The attributes that can be set. */
static const struct {
    const char *word;
    unsigned char letter;
    char is_set;
} attributes[] = {
    { "$R/O", READ_ONLY, 1 }, { "$R/W", READ_ONLY, 0 }, { "$SYS", SYSTEM, 1 }, { "$DIR", SYSTEM, 0 }
};

static void show_remaining(unsigned char drive)
{
    unsigned long records;
    read_free_records(drive, &records);
    put_text("Bytes Remaining On ");
    put('A' + drive);
    put_text(": ");
    put_number(records / 8);
    put_line("k");
}

/* The sizes of files. */

static void show_file(const struct found *found, char with_size)
{
    struct file file;
    unsigned long size = 0;
    char is_system = has_attribute(found->name, SYSTEM);
    name_file(&file, &pattern, found->name);
    if (with_size) {
        call(FILE_SIZE, ADDRESS(&file));
        memcpy(&size, file.random, 3);
        put_padded(size, 6);
    }
    put_padded(found->records, 6);
    put_padded(found->kilobytes, 6);
    put('k');
    put_padded(found->entries, 5);
    put_text(has_attribute(found->name, READ_ONLY) ? " R/O " : " R/W ");
    if (is_system)
        put('(');
    put_file(&file);
    put_line(is_system ? ")" : "");
}

static void show_files(char with_size)
{
    struct found found;
    unsigned int answer = find_first(&pattern, &found);
    if (answer) {
        report_error(&pattern, answer);
        return;
    }
    put_line(with_size ? "  Size  Recs  Bytes  Ext Acc" : "  Recs  Bytes  Ext Acc");
    for (; !answer; answer = find_next(&found))
        show_file(&found, with_size);
    show_remaining(drive_of(&pattern));
}

/* The attributes. */

static void set_one(const char *name, unsigned char which)
{
    struct file file;
    unsigned int answer;
    name_file(&file, &pattern, name);
    memcpy(file.name, name, NAME);
    set_attribute(file.name, attributes[which].letter, attributes[which].is_set);
    answer = call_with_password(SET_ATTRIBUTES, &file);
    if (IS_ERROR(answer)) {
        report_error(&file, answer);
        return;
    }
    put_name(name);
    put_text(" set to ");
    put_line(attributes[which].word + 1);
}

static void set_all(unsigned char which)
{
    unsigned int answer, place;
    unsigned int count = find_names(&pattern, &answer);
    if (!count)
        report_error(&pattern, answer);
    for (place = 0; place < count; place++)
        set_one(found_names[place], which);
}

static void protect(unsigned char drive)
{
    unsigned int answer = call(SELECT_DRIVE, drive);
    if (!IS_ERROR(answer) && call(PROTECT_DRIVE, 0))
        put_line("Files are open on the drive");
}

/* The forms. */

static char is_done_by_name(const char *rest)
{
    unsigned char which;
    const char *end = after_word(rest, "$S");
    if (is_end(rest))
        show_files(0);
    else if (end && is_end(end))
        show_files(1);
    else {
        for (which = 0; which < COUNT(attributes); which++)
            if ((end = after_word(rest, attributes[which].word)) && is_end(end)) {
                set_all(which);
                return 1;
            }
        return 0;
    }
    return 1;
}

static char is_done_by_drive(const char *rest)
{
    unsigned char drive = drive_of(&pattern);
    const char *end = skip_blanks(rest);
    if (!is_there_or_reported(drive))
        return 1;
    if (is_end(end))
        show_remaining(drive);
    else if (*end == '=' && (end = after_word(end + 1, "R/O")) && is_end(end))
        protect(drive);
    else
        return 0;
    return 1;
}

static void show_forms(void)
{
    put_line("Temp R/O Disk: d:=R/O");
    put_line("Set Indicator: d:filename.typ $R/O $R/W $SYS $DIR");
    put_line("Disk Status  : DSK: d:DSK:");
    put_line("User Status  : USR: d:USR:");
}

/* `DSK:`, `USR:` and `VAL:`, perhaps after a drive. */
static char is_done_by_device(const char *text)
{
    unsigned char drive = (unsigned char) call(CURRENT_DRIVE, 0);
    if (text[0] >= 'A' && text[0] <= 'P' && text[1] == ':' && text[2]) {
        drive = text[0] - 'A';
        text += 2;
    }
    if (strcmp(text, "VAL:") == 0)
        show_forms();
    else if (strcmp(text, "DSK:") == 0) {
        if (is_there_or_reported(drive))
            show_characteristics(drive);
    } else if (strcmp(text, "USR:") == 0) {
        if (is_there_or_reported(drive))
            show_users(drive, 0);
    } else
        return 0;
    return 1;
}

static char is_done(const char *text)
{
    const char *rest;
    if (is_end(text)) {
        show_space_of_all();
        return 1;
    }
    if (is_done_by_device(skip_blanks(text)))
        return 1;
    rest = read_name(text, &pattern);
    if (!rest)
        return 0;
    return has_name(&pattern) ? is_done_by_name(rest) : is_done_by_drive(rest);
}

int main(void)
{
    begin();
    if (!is_done(take_tail()))
        report_usage("STAT, STAT d:, STAT d:name.typ [$S], STAT VAL:");
    return 0;
}
