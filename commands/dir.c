/* DIR [d:][afn] [SYS] [Gn]: the names of the files, four in a line. Those with the attribute SYS are left out, and the last line says so; with
   SYS they alone are shown. With Gn it shows those of user n. */

#include <string.h>
#include "kernel.h"
#include "console.h"
#include "directory.h"
#include "files.h"
#include "listing.h"
#include "words.h"

#define COLUMNS 4

static char shows_system;
static struct file pattern;

/* What an option is: brackets and commas are between them, or blanks. */
static const char *take_option(const char *text)
{
    unsigned int user;
    const char *rest = after_word(text, "SYS");
    if (!rest)
        rest = after_word(text, "S");
    if (rest) {
        shows_system = 1;
        return rest;
    }
    text = skip_blanks(text);
    if (*text == 'G' && (rest = read_number(text + 1, &user)) && user < 16) {
        call(USER, user);
        return rest;
    }
    return strchr("[],", *text) ? text + 1 : 0;
}

/* Whether all words after the command are a name, or none, and options. */
static char read_words(const char *text)
{
    text = skip_blanks(text);
    return read_listing(text, *text == '[' || after_word(text, "SYS"), &pattern, take_option);
}

static void show_user(void)
{
    put_text("Directory for User ");
    put_number(call(USER, 0xFF));
    put_line(":");
}

static void show(const char *name, unsigned int place)
{
    if (place % COLUMNS)
        put_text(" : ");
    else {
        if (place)
            end_line();
        else
            show_user();
        put_drive(&pattern);
        put(' ');
    }
    put_name_in_columns(name);
}

static void list(void)
{
    struct found found;
    unsigned int shown = 0, left_out = 0;
    unsigned int answer = find_first(&pattern, &found);
    if (answer && answer != NOT_FOUND) {
        report_error(&pattern, answer);
        return;
    }
    for (; !answer; answer = find_next(&found))
        if (has_attribute(found.name, SYSTEM) == shows_system)
            show(found.name, shown++);
        else
            left_out++;
    if (shown)
        end_line();
    else
        put_line("File not found");
    if (left_out && !shows_system)
        put_line("System files exist");
}

int main(void)
{
    begin();
    if (read_words(take_tail()))
        list();
    else
        report_usage("DIR d:name.typ [SYS] [Gn]");
    return 0;
}
