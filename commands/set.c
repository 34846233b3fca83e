/* SET d:[option,option..]         the label of a drive, or the drive itself
   SET afn[option,option..]        files

   A drive: RO and RW protect it from writing until DSKRESET, or no longer. NAME=name gives the label its name; PROTECT=ON has files'
   passwords asked for; MAKE=ON makes an XFCB with each file; ACCESS=ON and UPDATE=ON keep their stamps; each can be OFF. PASSWORD=word is
   the password of the label itself, which SET asks for from then on; PASSWORD= takes it away. A call sets the label with its name, and none
   answers the name: where NAME isn't typed it becomes LABEL.

   Files: RO, RW, SYS and DIR; ARCHIVE, F1, F2, F3 and F4, each =ON or =OFF; PASSWORD=word, and PROTECT= READ, WRITE, DELETE or NONE. */

#include <string.h>
#include "kernel.h"
#include "console.h"
#include "directory.h"
#include "drives.h"
#include "files.h"
#include "words.h"

/* The bits of a label's data, and of an XFCB's mode (Programmer's Guide, "Function 100" and "Function 103"). */
enum { SETS_PASSWORD = 0x01, MAKES_XFCBS = 0x10, STAMPS_UPDATE = 0x20, STAMPS_ACCESS = 0x40, ASKS_PASSWORDS = 0x80 };
enum { PROTECTS_READING = 0x80, PROTECTS_WRITING = 0x40, PROTECTS_DELETING = 0x20, MODES = 0xE0 };

static struct file pattern;

/* What the options ask for. */
static struct {
    unsigned char label_on, label_off;      /* bits of the label's data */
    char has_label_name, has_password, has_mode;
    struct file label;
    char password[PASSWORD];
    unsigned char mode;
    char letters_on[NAME], letters_off[NAME]; /* attributes */
    char has_attributes;
    char protects, frees;                   /* the drive */
} wanted;

/* What functions 100 and 103 take at the DMA address: the password that is there, and the new one. */
static struct {
    char old[PASSWORD], new[PASSWORD];
} passwords;

/* The options. */

static const struct {
    const char *word;
    unsigned char bit;
} label_options[] = {
    { "PROTECT", ASKS_PASSWORDS }, { "MAKE", MAKES_XFCBS }, { "ACCESS", STAMPS_ACCESS }, { "UPDATE", STAMPS_UPDATE }
}, modes[] = {
    { "READ", PROTECTS_READING }, { "WRITE", PROTECTS_WRITING }, { "DELETE", PROTECTS_DELETING }, { "NONE", 0 }
};

/* Attributes that a word alone sets or clears, and those after which ON or OFF comes. */
static const struct {
    const char *word;
    unsigned char letter;
    char is_set;
} attribute_words[] = {
    { "RO", READ_ONLY, 1 }, { "RW", READ_ONLY, 0 }, { "SYS", SYSTEM, 1 }, { "DIR", SYSTEM, 0 }
}, attribute_switches[] = {
    { "ARCHIVE", ARCHIVED, 0 }, { "F1", 0, 0 }, { "F2", 1, 0 }, { "F3", 2, 0 }, { "F4", 3, 0 }
};

/* What comes after a word and `=`. */
static const char *after_equals(const char *text, const char *word)
{
    text = after_word(text, word);
    if (!text)
        return 0;
    text = skip_blanks(text);
    return *text == '=' ? skip_blanks(text + 1) : 0;
}

/* ON or OFF. */
static const char *read_switch(const char *text, char *is_on)
{
    const char *rest = after_word(text, "ON");
    *is_on = rest != 0;
    return rest ? rest : after_word(text, "OFF");
}

static void want_attribute(unsigned char letter, char is_set)
{
    (is_set ? wanted.letters_on : wanted.letters_off)[letter] = 1;
    wanted.has_attributes = 1;
}

/* A password ends where an option does; without a letter it is eight zeros, which are none. */
static const char *read_password(const char *text)
{
    unsigned char length = 0;
    wanted.has_password = 1;
    if (is_letter_or_digit(*text))
        memset(wanted.password, ' ', PASSWORD);
    for (; *text && !strchr(",] ", *text); text++) {
        if (length == PASSWORD)
            return 0;
        wanted.password[length++] = *text;
    }
    return text;
}

static const char *read_mode(const char *text)
{
    unsigned char which;
    const char *rest;
    for (which = 0; which < COUNT(modes); which++)
        if ((rest = after_word(text, modes[which].word)) != 0) {
            wanted.has_mode = 1;
            wanted.mode = modes[which].bit;
            return rest;
        }
    return 0;
}

static const char *read_label_option(const char *text)
{
    unsigned char which;
    const char *rest;
    char is_on;
    if ((rest = after_word(text, "RO")) != 0)
        wanted.protects = 1;
    else if ((rest = after_word(text, "RW")) != 0)
        wanted.frees = 1;
    else if ((rest = after_equals(text, "NAME")) != 0) {
        wanted.has_label_name = 1;
        rest = read_name(rest, &wanted.label);
    } else if ((rest = after_equals(text, "PASSWORD")) != 0)
        rest = read_password(rest);
    else
        for (which = 0; which < COUNT(label_options); which++)
            if ((rest = after_equals(text, label_options[which].word)) != 0) {
                rest = read_switch(rest, &is_on);
                *(is_on ? &wanted.label_on : &wanted.label_off) |= label_options[which].bit;
                break;
            }
    return rest;
}

static const char *read_file_option(const char *text)
{
    unsigned char which;
    const char *rest;
    char is_on;
    for (which = 0; which < COUNT(attribute_words); which++)
        if ((rest = after_word(text, attribute_words[which].word)) != 0) {
            want_attribute(attribute_words[which].letter, attribute_words[which].is_set);
            return rest;
        }
    for (which = 0; which < COUNT(attribute_switches); which++)
        if ((rest = after_equals(text, attribute_switches[which].word)) != 0) {
            rest = read_switch(rest, &is_on);
            want_attribute(attribute_switches[which].letter, is_on);
            return rest;
        }
    if ((rest = after_equals(text, "PASSWORD")) != 0)
        return read_password(rest);
    rest = after_equals(text, "PROTECT");
    return rest ? read_mode(rest) : 0;
}

/* The options in brackets, with commas or blanks between them. */
static char read_options(const char *text)
{
    text = skip_blanks(text);
    if (*text++ != '[')
        return 0;
    do {
        text = has_name(&pattern) ? read_file_option(text) : read_label_option(text);
        if (!text)
            return 0;
        text = skip_blanks(text);
        if (*text == ',')
            text++;
    } while (*text && *text != ']');
    return *text == 0 || is_end(text + 1);
}

/* A label. */

/* Keys that aren't shown, up to CR. */
static void ask_password(void)
{
    unsigned char length = 0;
    char key;
    memset(passwords.old, ' ', PASSWORD);
    put_text("Password? ");
    while ((key = (char) call(READ_RAW_KEY, 0)) != '\r' && key != 3)
        if (length < PASSWORD)
            passwords.old[length++] = key >= 'a' && key <= 'z' ? key - 0x20 : key;
    end_line();
}

static unsigned int call_with_passwords(unsigned char function, struct file *file)
{
    call(SET_DMA, ADDRESS(&passwords));
    return call(function, ADDRESS(file));
}

static unsigned int write_label(struct file *label)
{
    unsigned int answer = call_with_passwords(SET_LABEL, label);
    if (answer != EXTENDED(WRONG_PASSWORD))
        return answer;
    ask_password();
    return call_with_passwords(SET_LABEL, label);
}

static void set_label(unsigned char drive)
{
    struct file label;
    unsigned int answer;
    unsigned char data = (unsigned char) call(LABEL_DATA, drive) & ~SETS_PASSWORD;
    if (!wanted.has_label_name)
        memcpy(wanted.label.name, "LABEL      ", NAME);
    name_file(&label, &pattern, wanted.label.name);
    label.extent = (data | wanted.label_on) & ~wanted.label_off;
    if (wanted.has_password) {
        label.extent |= SETS_PASSWORD;
        memcpy(passwords.new, wanted.password, PASSWORD);
    }
    answer = write_label(&label);
    if (answer == NOT_FOUND)
        put_line("Directory full");
    else if (IS_ERROR(answer)) {
        put_error(answer);
        end_line();
    }
}

static void set_drive(void)
{
    unsigned char drive = drive_of(&pattern);
    if (!is_there_or_reported(drive))
        return;
    if (wanted.protects || wanted.frees) {
        call(SELECT_DRIVE, drive);
        if (wanted.protects ? call(PROTECT_DRIVE, 0) : call(RESET_DRIVES, 1u << drive))
            put_line("Others have files open on the drive");
    }
    if (wanted.label_on || wanted.label_off || wanted.has_label_name || wanted.has_password)
        set_label(drive);
}

/* Files. */

/* A password without a mode guards reading, where the file has no mode yet. */
static unsigned char mode_of(const struct file *file)
{
    struct file asked;
    if (wanted.has_mode)
        return wanted.mode;
    name_file(&asked, file, file->name);
    if (!wanted.password[0] || IS_ERROR(call(READ_XFCB, ADDRESS(&asked))))
        return 0;
    return asked.extent & MODES ? asked.extent & MODES : PROTECTS_READING;
}

static unsigned int protect_file(struct file *file)
{
    file->extent = mode_of(file);
    if (wanted.has_password)
        file->extent |= SETS_PASSWORD;
    memcpy(passwords.old, file->password, PASSWORD);
    memcpy(passwords.new, wanted.password, PASSWORD);
    return call_with_passwords(WRITE_XFCB, file);
}

static unsigned int set_attributes(struct file *file, const char *name)
{
    unsigned char letter;
    memcpy(file->name, name, NAME);
    for (letter = 0; letter < NAME; letter++)
        if (wanted.letters_on[letter] || wanted.letters_off[letter])
            set_attribute(file->name, letter, wanted.letters_on[letter]);
    return call_with_password(SET_ATTRIBUTES, file);
}

static void set_file(const char *name)
{
    struct file file;
    unsigned int answer = 0;
    name_file(&file, &pattern, name);
    if (wanted.has_attributes)
        answer = set_attributes(&file, name);
    if (!IS_ERROR(answer) && (wanted.has_password || wanted.has_mode)) {
        name_file(&file, &pattern, name);
        answer = protect_file(&file);
    }
    if (answer == NOT_FOUND)
        put_line("Directory full");
    else if (IS_ERROR(answer))
        report_error(&file, answer);
    else {
        put_file(&file);
        put_line(" set");
    }
}

int main(void)
{
    const char *text = skip_blanks(take_tail());
    begin();
    name_nothing(&pattern);
    if (*text != '[')
        text = read_name(text, &pattern);
    if (!text || !read_options(text))
        report_usage("SET d:[option] or SET d:name.typ[option]");
    else if (has_name(&pattern))
        each_name(&pattern, set_file);
    else
        set_drive();
    return 0;
}
