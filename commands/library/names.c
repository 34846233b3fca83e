/* Files by their names: names.h says what each function does. */

#include <string.h>
#include "kernel.h"
#include "console.h"
#include "names.h"
#include "words.h"

/* The parameter of function 152. */
static struct {
    const char *text;
    struct file *file;
} parsed;

/* Moves the password to its place, and leaves zeros in the block after the name, as function 15 wants them. */
static void take_password(struct file *file)
{
    memcpy(file->password, file->handle, PASSWORD);
    memset(&file->extent, 0, 24);
}

void name_nothing(struct file *file)
{
    memset(file, 0, sizeof *file);
    memset(file->name, ' ', NAME);
}

static const char *read_drive(const char *text, struct file *file)
{
    if (text[0] < 'A' || text[0] > 'P' || text[1] != ':' || is_letter_or_digit(text[2]))
        return 0;
    name_nothing(file);
    file->drive = text[0] - 'A' + 1;
    return text + 2;
}

const char *read_name(const char *text, struct file *file)
{
    unsigned int rest;
    text = skip_blanks(text);
    parsed.text = text;
    parsed.file = file;
    rest = call(PARSE_NAME, ADDRESS(&parsed));
    if (rest == 0xFFFF)
        return read_drive(text, file);
    take_password(file);
    return rest ? (const char *) rest : text + strlen(text);
}

char has_name(const struct file *file)
{
    return file->name[0] != ' ';
}

char has_wildcards(const char *name)
{
    return memchr(name, '?', NAME) != 0;
}

void take_all_names(struct file *file)
{
    if (!has_name(file))
        memset(file->name, '?', NAME);
}

char has_attribute(const char *name, unsigned char letter)
{
    return (name[letter] & 0x80) != 0;
}

void set_attribute(char *name, unsigned char letter, char is_set)
{
    name[letter] &= 0x7F;
    if (is_set)
        name[letter] |= 0x80;
}

char is_same_name(const char *one, const char *other)
{
    unsigned char letter;
    for (letter = 0; letter < NAME; letter++)
        if ((one[letter] ^ other[letter]) & 0x7F)
            return 0;
    return 1;
}

void copy_name(char *to, const char *from)
{
    unsigned char letter;
    for (letter = 0; letter < NAME; letter++)
        to[letter] = from[letter] & 0x7F;
}

unsigned char drive_of(const struct file *file)
{
    return file->drive ? file->drive - 1 : (unsigned char) call(CURRENT_DRIVE, 0);
}

void put_drive(const struct file *file)
{
    put('A' + drive_of(file));
    put(':');
}

static void put_letters(const char *letters, unsigned char count, char is_padded)
{
    char letter;
    while (count--) {
        letter = *letters++ & 0x7F;
        if (letter != ' ' || is_padded)
            put(letter);
    }
}

void put_name(const char *name)
{
    put_letters(name, 8, 0);
    if ((name[8] & 0x7F) != ' ') {
        put('.');
        put_letters(name + 8, 3, 0);
    }
}

void put_name_in_columns(const char *name)
{
    put_letters(name, 8, 1);
    put(' ');
    put_letters(name + 8, 3, 1);
}

void put_file(const struct file *file)
{
    put_drive(file);
    put_name(file->name);
}

void name_file(struct file *file, const struct file *like, const char *name)
{
    memset(file, 0, sizeof *file);
    file->drive = like->drive;
    copy_name(file->name, name);
    memcpy(file->password, like->password, PASSWORD);
}
