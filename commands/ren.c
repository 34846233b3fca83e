/* REN new=old: gives a file another name. Where the old name has wildcards the new one has them at the same places, and each file that
   fits keeps its own letters there. */

#include <string.h>
#include "kernel.h"
#include "console.h"
#include "directory.h"
#include "files.h"
#include "words.h"

static struct file new, old;

/* The new name of a file: its own letters where the new name has `?`. */
static void make_name(char *to, const char *from)
{
    unsigned char letter;
    for (letter = 0; letter < NAME; letter++)
        to[letter] = (new.name[letter] == '?' ? from[letter] : new.name[letter]) & 0x7F;
}

static void rename(const char *name, char is_one_of_many)
{
    struct file file;
    char *new_name = (char *) file.handle + 1;
    unsigned int answer;
    name_file(&file, &old, name);
    make_name(new_name, name);
    answer = call_with_password(RENAME_FILE, &file);
    if (answer == EXTENDED(IS_THERE)) {
        put_text("Not renamed, ");
        copy_name(file.name, new_name);
    }
    if (IS_ERROR(answer))
        report_error(&file, answer);
    else if (is_one_of_many) {
        put_name(new_name);
        put('=');
        put_name(file.name);
        end_line();
    }
}

static void rename_all(void)
{
    unsigned int answer, place;
    unsigned int count = find_names(&old, &answer);
    if (!count)
        report_error(&old, answer);
    for (place = 0; place < count; place++)
        rename(found_names[place], has_wildcards(old.name));
}

/* Whether both names have wildcards at the same places. */
static char have_same_wildcards(void)
{
    unsigned char letter;
    for (letter = 0; letter < NAME; letter++)
        if ((new.name[letter] == '?') != (old.name[letter] == '?'))
            return 0;
    return 1;
}

/* Whether both files are on one drive, which one of them may leave out. */
static char is_one_drive(void)
{
    if (!old.drive)
        old.drive = new.drive;
    return !new.drive || new.drive == old.drive;
}

static char read_words(const char *text)
{
    text = read_name(text, &new);
    if (!text || !has_name(&new))
        return 0;
    text = skip_blanks(text);
    if (*text != '=' || !(text = read_name(text + 1, &old)))
        return 0;
    return has_name(&old) && is_end(text) && have_same_wildcards() && is_one_drive();
}

int main(void)
{
    begin();
    if (read_words(take_tail()))
        rename_all();
    else
        report_usage("REN d:newname.typ=oldname.typ");
    return 0;
}
