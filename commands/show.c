/* SHOW [d:][SPACE]     the room of a drive, or of all
   SHOW [d:][LABEL]     what the label of a drive asks for
   SHOW [d:][USERS]     the users that have files there, and how many
   SHOW [d:][DRIVE]     the parameters of a drive
   The brackets of the options are typed; without an option it is SPACE. */

#include <string.h>
#include "kernel.h"
#include "console.h"
#include "drives.h"
#include "files.h"
#include "words.h"

/* The bits of a label's data (Programmer's Guide, "Function 101: Return Directory Label Data"). */
enum { HAS_LABEL = 0x01, MAKES_XFCBS = 0x10, STAMPS_UPDATE = 0x20, STAMPS_ACCESS = 0x40, ASKS_PASSWORDS = 0x80 };

/* What is shown, and the options that ask for it. */
enum option { SHOW_SPACE, SHOW_LABEL, SHOW_USERS, SHOW_CHARACTERISTICS, SHOW_NOTHING };

static const char *const options[] = { "SPACE", "LABEL", "USERS", "DRIVE" };

static struct file named;

static void show_switch(unsigned char data, unsigned char bit)
{
    put_text(data & bit ? "on       " : "off      ");
}

static void show_label(unsigned char drive)
{
    unsigned char data = (unsigned char) call(LABEL_DATA, drive);
    put_text(data & HAS_LABEL ? "Label for drive " : "No label on drive ");
    put('A' + drive);
    put_line(":");
    if (!(data & HAS_LABEL))
        return;
    end_line();
    put_line("Passwords  Make     Stamp    Stamp");
    put_line("Required   XFCBs    Access   Update");
    put_line("---------  -----    ------   ------");
    show_switch(data, ASKS_PASSWORDS);
    put_text("  ");
    show_switch(data, MAKES_XFCBS);
    show_switch(data, STAMPS_ACCESS);
    show_switch(data, STAMPS_UPDATE);
    end_line();
}

/* Of a drive; the room of all drives where none is named. */
static void show(enum option option)
{
    unsigned char drive = drive_of(&named);
    if (option == SHOW_SPACE && !named.drive)
        show_space_of_all();
    else if (is_there_or_reported(drive))
        switch (option) {
        case SHOW_SPACE: show_space(drive); break;
        case SHOW_LABEL: show_label(drive); break;
        case SHOW_USERS: show_users(drive, 1); break;
        default: show_characteristics(drive); break;
        }
}

static enum option read_option(const char *text)
{
    unsigned char option;
    const char *rest;
    text = skip_blanks(text);
    if (is_end(text))
        return SHOW_SPACE;
    if (*text != '[')
        return SHOW_NOTHING;
    for (option = SHOW_SPACE; option < SHOW_NOTHING; option++)
        if ((rest = after_word(text + 1, options[option])) != 0)
            return *rest == 0 || (*rest == ']' && is_end(rest + 1)) ? option : SHOW_NOTHING;
    return SHOW_NOTHING;
}

int main(void)
{
    const char *text = skip_blanks(take_tail());
    enum option option = SHOW_NOTHING;
    begin();
    name_nothing(&named);
    if (*text && *text != '[')
        text = read_name(text, &named);
    if (text && !has_name(&named))
        option = read_option(text);
    if (option == SHOW_NOTHING)
        report_usage("SHOW d:[SPACE], [LABEL], [USERS] or [DRIVE]");
    else
        show(option);
    return 0;
}
