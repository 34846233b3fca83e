/* PIP to=from[options],from[options]..: copies a file, several files into one, files to another drive, a text to the console or the
   printer, or what is typed into a file. PIP alone asks for such lines until one is empty.

   A file is copied into one of its name and the type $$n, n being the console, which takes the name in the end: until then an older file
   of that name stays as it is. Sixteen records go in a call.

   Options: V compares each record that was written with what was read; Gn takes the file of user n, or puts it there; O copies the bytes
   after 1Ah too, where several files are joined or shown; R takes files with the attribute SYS; W writes over files that are
   read-only without a question. */

#include <string.h>
#include "kernel.h"
#include "console.h"
#include "directory.h"
#include "files.h"
#include "words.h"

#define END_OF_TEXT 0x1A
#define BYTES (MOST_RECORDS * RECORD)

enum device { DISK, CONSOLE, PRINTER };

/* A side of `=`, or a part of the right one. */
struct side {
    struct file file;
    enum device device;
    unsigned char user;
    char verifies, is_object, takes_system, writes_over;
};

static struct side to, from;
static unsigned char own_user;
static char failed; /* whether what is copied now has failed */
static char is_read_only; /* the file that is written over */

/* What is written: bytes that aren't on the disk yet, and the record at which they go there. */
static struct file target;
static char out[BYTES], in[BYTES], again[BYTES];
static unsigned int out_count;
static unsigned long position;

static void fail(const struct file *file, const char *text)
{
    if (file) {
        put_file(file);
        put_text(" - ");
    }
    put_line(text);
    failed = 1;
}

static void fail_by(const struct file *file, unsigned int answer)
{
    report_error(file, answer);
    failed = 1;
}

static void be_user(unsigned char user)
{
    call(USER, user);
}

/* The words. */

static const char *read_device(const char *text, struct side *side)
{
    side->device = DISK;
    if (!memcmp(text, "CON:", 4))
        side->device = CONSOLE;
    else if (!memcmp(text, "LST:", 4))
        side->device = PRINTER;
    else
        return read_name(text, &side->file);
    return text + 4;
}

static const char *read_user(const char *text, struct side *side)
{
    unsigned int user;
    text = read_number(text, &user);
    if (!text || user > 15)
        return 0;
    side->user = user;
    return text;
}

static const char *read_option(const char *text, struct side *side)
{
    switch (*text++) {
    case 'V': side->verifies = 1; return text;
    case 'O': side->is_object = 1; return text;
    case 'R': side->takes_system = 1; return text;
    case 'W': side->writes_over = 1; return text;
    case 'G': return read_user(text, side);
    case ' ': return text;
    default: return 0;
    }
}

static const char *read_options(const char *text, struct side *side)
{
    if (*text != '[')
        return text;
    text++;
    while (text && *text && *text != ']')
        text = read_option(text, side);
    return text && *text ? text + 1 : text;
}

static const char *read_side(const char *text, struct side *side)
{
    memset(side, 0, sizeof *side);
    side->user = own_user;
    text = read_device(skip_blanks(text), side);
    return text ? skip_blanks(read_options(text, side)) : 0;
}

/* What is written. */

static char is_verified(unsigned char records)
{
    memcpy(target.random, &position, 3);
    call(SET_DMA, ADDRESS(again));
    return call(READ_RANDOM, ADDRESS(&target)) == 0 && !memcmp(again, out, records * (unsigned int) RECORD);
}

/* Writes the whole records that wait. */
static void write_records(void)
{
    unsigned char records = out_count / RECORD;
    unsigned int answer;
    if (!records || failed)
        return;
    call(SET_RECORDS, records);
    call(SET_DMA, ADDRESS(out));
    memcpy(target.random, &position, 3);
    answer = call(WRITE_RANDOM, ADDRESS(&target));
    if (IS_ERROR(answer))
        fail_by(&target, answer);
    else if (answer)
        fail(&target, "Disk full");
    else if (to.verifies && !is_verified(records))
        fail(&target, "Verify error");
    call(SET_RECORDS, 1);
    position += records;
    out_count = 0;
}

static void put_out(char byte)
{
    if (failed)
        return;
    if (to.device == CONSOLE)
        put(byte);
    else if (to.device == PRINTER) {
        if (IS_ERROR(call(WRITE_PRINTER, (unsigned char) byte)))
            fail(0, "No printer");
    } else {
        out[out_count++] = byte;
        if (out_count == BYTES)
            write_records();
    }
}

/* The last record is filled with 1Ah. */
static void finish_text(void)
{
    while (out_count % RECORD)
        out[out_count++] = END_OF_TEXT;
}

/* What is read. */

static void copy_typed(void)
{
    char key;
    while (!failed && (key = (char) call(READ_KEY, 0)) != END_OF_TEXT) {
        put_out(key);
        if (key == '\r') {
            put_out('\n');
            if (to.device != CONSOLE)
                put('\n');
        }
    }
    end_line();
}

/* Copies bytes up to the end of the text; whether it goes on. */
static char copy_bytes(const char *bytes, unsigned int count)
{
    for (; count; count--, bytes++) {
        if (*bytes == END_OF_TEXT && !from.is_object)
            return 0;
        put_out(*bytes);
    }
    return !failed;
}

/* Whole records, which are read to where they are written from. */
static void copy_records(struct file *file)
{
    unsigned char records;
    while (!failed && (records = read_records(file, out)) != 0) {
        out_count = records * (unsigned int) RECORD;
        write_records();
    }
}

static void copy_text(struct file *file)
{
    unsigned char records;
    char goes_on = 1;
    while (goes_on && (records = read_records(file, in)) != 0)
        goes_on = copy_bytes(in, records * (unsigned int) RECORD);
}

/* Copies what a file has, by whole records or as a text. */
static void copy_file(struct file *file, char is_whole)
{
    unsigned int answer;
    be_user(from.user);
    answer = open_to_read(file);
    be_user(own_user);
    if (IS_ERROR(answer)) {
        fail_by(file, answer);
        return;
    }
    if (has_attribute(file->name, SYSTEM) && !from.takes_system)
        fail_by(file, NOT_FOUND);
    else if (is_whole)
        copy_records(file);
    else
        copy_text(file);
    close_file(file);
}

/* The file that is written. */

static void name_target(const char *name)
{
    name_file(&target, &to.file, name);
    memcpy(target.name + 8, "$$0", 3);
    target.name[10] += (char) call(CONSOLE_NUMBER, 0);
    out_count = 0;
    position = 0;
    failed = 0;
}

/* Whether a file that is there may be written over, where it is read-only. */
static char may_write_over(const char *name)
{
    struct file old;
    struct found found;
    name_file(&old, &to.file, name);
    is_read_only = find_first(&old, &found) == 0 && has_attribute(found.name, READ_ONLY);
    if (!is_read_only || to.writes_over)
        return 1;
    put_file(&old);
    return ask(" is R/O, delete");
}

/* Makes the file that is written; whether it is there. */
static char make_target(const char *name)
{
    unsigned int answer;
    name_target(name);
    be_user(to.user);
    failed = !may_write_over(name);
    if (!failed) {
        answer = call_with_password(DELETE_FILE, &target);
        if (!IS_ERROR(answer) || answer == NOT_FOUND)
            answer = call_with_password(MAKE_FILE, &target);
        if (answer == NOT_FOUND)
            fail(&target, "Directory full");
        else if (IS_ERROR(answer))
            fail_by(&target, answer);
    }
    be_user(own_user);
    return !failed;
}

/* Erases an older file of a name; whether none is there now. */
static char erase_old(const char *name)
{
    struct file old;
    unsigned int answer;
    name_file(&old, &to.file, name);
    if (is_read_only)
        call_with_password(SET_ATTRIBUTES, &old);
    answer = call_with_password(DELETE_FILE, &old);
    if (!IS_ERROR(answer) || answer == NOT_FOUND)
        return 1;
    fail_by(&old, answer);
    return 0;
}

/* Gives the file its name, in the place of an older one; another program may have made one meanwhile. */
static void rename_target(const char *name)
{
    unsigned int answer;
    do {
        if (!erase_old(name))
            return;
        copy_name((char *) target.handle + 1, name);
        answer = call_with_password(RENAME_FILE, &target);
    } while (answer == EXTENDED(IS_THERE));
    if (IS_ERROR(answer))
        fail_by(&target, answer);
}

/* Closes the file and gives it its name, and the attributes of the one it was copied from; or erases it where something has failed. */
static void finish_target(const char *name, const char *attributes)
{
    struct file file;
    close_file(&target);
    be_user(to.user);
    name_file(&file, &target, target.name);
    target = file;
    if (!failed)
        rename_target(name);
    if (failed)
        call_with_password(DELETE_FILE, &target);
    else if (attributes) {
        name_file(&file, &to.file, name);
        memcpy(file.name, attributes, NAME);
        call_with_password(SET_ATTRIBUTES, &file);
    }
    be_user(own_user);
}

/* The forms of a line. */

/* Copies one file whole, as it is, to a file of a name. */
static void copy_whole(const char *from_name, const char *name)
{
    struct file file;
    char attributes[NAME];
    unsigned char letter;
    if (!make_target(name))
        return;
    name_file(&file, &from.file, from_name);
    copy_file(&file, 1);
    copy_name(attributes, name);
    for (letter = 0; letter < NAME; letter++)
        if (letter != UNLOCKED && letter != READ_ONLY_MODE)
            attributes[letter] |= file.name[letter] & 0x80;
    finish_target(name, attributes);
}

/* The names that fit and are taken go to the front of those that were found: how many. */
static unsigned int take_names(unsigned int *answer)
{
    unsigned int place, taken = 0;
    unsigned int count;
    be_user(from.user);
    count = find_names(&from.file, answer);
    be_user(own_user);
    for (place = 0; place < count; place++)
        if (from.takes_system || !has_attribute(found_names[place], SYSTEM))
            memcpy(found_names[taken++], found_names[place], NAME);
    return taken;
}

/* Copies each file that fits to the drive, under its own name. */
static void copy_each(void)
{
    unsigned int answer = NOT_FOUND, place, count;
    take_all_names(&from.file);
    count = take_names(&answer);
    if (!count) {
        fail_by(&from.file, answer ? answer : NOT_FOUND);
        return;
    }
    if (has_wildcards(from.file.name))
        put_line("COPYING -");
    for (place = 0; place < count; place++) {
        if (has_wildcards(from.file.name)) {
            put_name(found_names[place]);
            end_line();
        }
        copy_whole(found_names[place], found_names[place]);
    }
}

/* Copies a part of the right side into what is written, as a text. */
static void copy_part(void)
{
    struct file file;
    if (from.device == CONSOLE)
        copy_typed();
    else if (from.device == PRINTER || !has_name(&from.file) || has_wildcards(from.file.name))
        fail(0, "Invalid source");
    else {
        name_file(&file, &from.file, from.file.name);
        copy_file(&file, 0);
    }
}

/* V and W of a source count for what is written of it, and after it. */
static void take_options(void)
{
    to.verifies |= from.verifies;
    to.writes_over |= from.writes_over;
}

/* Goes on with the parts after the first, which is read already. */
static void copy_parts(const char *rest)
{
    copy_part();
    while (!failed && rest && *rest == ',') {
        rest = read_side(rest + 1, &from);
        if (rest) {
            take_options();
            copy_part();
        }
    }
    if (!rest || (*rest && *rest != ','))
        fail(0, "Invalid format");
}

static void join(const char *rest)
{
    if (to.device != DISK) {
        failed = 0;
        copy_parts(rest);
    } else if (make_target(to.file.name)) {
        copy_parts(rest);
        finish_text();
        write_records();
        finish_target(to.file.name, 0);
    }
}

/* To a drive alone: one form after another. */
static void copy_to_drive(const char *rest)
{
    for (;;) {
        take_options();
        copy_each();
        if (!rest || *rest != ',')
            break;
        rest = read_side(rest + 1, &from);
    }
    if (!rest || *rest)
        fail(0, "Invalid format");
}

static void copy(const char *line)
{
    const char *rest = read_side(line, &to);
    if (!rest || *rest != '=' || !(rest = read_side(rest + 1, &from)) || (*rest && *rest != ',')) {
        fail(0, "Invalid format");
        return;
    }
    take_options();
    if (to.device == DISK && has_wildcards(to.file.name))
        fail(0, "Invalid destination");
    else if (to.device == DISK && !has_name(&to.file)) {
        if (from.device == DISK)
            copy_to_drive(rest);
        else
            fail(0, "Invalid destination");
    } else if (to.device == DISK && from.device == DISK && !*rest && !has_wildcards(from.file.name)) {
        if (!has_name(&from.file))
            copy_name(from.file.name, to.file.name);
        copy_whole(from.file.name, to.file.name);
    } else
        join(rest);
}

/* Lines that are typed, until one is empty. */
static void converse(void)
{
    char *line;
    for (;;) {
        put('*');
        line = read_line();
        if (is_end(line))
            return;
        raise_letters(line);
        copy(line);
    }
}

int main(void)
{
    const char *tail = take_tail();
    begin();
    own_user = (unsigned char) call(USER, 0xFF);
    if (is_end(tail))
        converse();
    else
        copy(tail);
    return 0;
}
