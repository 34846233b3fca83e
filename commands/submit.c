/* SUBMIT name words..: does the commands of a text of the type SUB, line by line, with the words in the place of $1 to $9; $$ is a dollar
   sign. Each command is sent to the command line interpreter with the console (function 150). SUBMIT then waits for the console, and has it
   back as the command ends: its priority is better than that of the terminal message processor, which waits too, and than that of the
   interpreter, so that it waits before the command can have ended.

   A line that is a drive or `USER n` counts for the lines after it, an empty one and one that begins with `;` for nothing. One that is a
   SUBMIT itself is done here. */

#include <string.h>
#include "kernel.h"
#include "console.h"
#include "files.h"
#include "words.h"

#define END_OF_TEXT 0x1A
#define ROOM 6144
#define DEEPEST 4 /* texts within one another */
#define WORDS 9
#define LINE 128 /* the text of function 150 */
#define BETTER_PRIORITY 189 /* the interpreter has 190, a terminal message processor 198 */

struct words {
    const char *words[WORDS];
    unsigned char lengths[WORDS];
};

/* The parameter of function 150. */
static struct {
    unsigned char user_and_drive, console;
    char line[LINE + 1];
} command;

/* The texts that are being done, each after the one that called it. */
static char room[ROOM + 1];
static unsigned int used;
static unsigned char depth;

static unsigned char user, drive;

static void submit(const char *tail);

static void take_words(const char *tail, struct words *words)
{
    unsigned char count;
    memset(words, 0, sizeof *words);
    for (count = 0; count < WORDS && *(tail = skip_blanks(tail)); count++) {
        words->words[count] = tail;
        while (*tail && *tail != ' ' && *tail != '\t')
            tail++;
        words->lengths[count] = tail - words->words[count];
    }
}

/* Takes a text into the room; whether it fits. */
static char take_text(struct file *file)
{
    unsigned char records = 1;
    while (records && used <= ROOM - MOST_RECORDS * RECORD) {
        records = read_records(file, room + used);
        used += records * (unsigned int) RECORD;
    }
    room[used++] = 0;
    return !records && used < ROOM;
}

/* A line. */

static unsigned char add_word(unsigned char length, const struct words *words, unsigned char number)
{
    unsigned char count = words->lengths[number];
    if (count > LINE - length)
        count = LINE - length;
    memcpy(command.line + length, words->words[number], count);
    return length + count;
}

static char is_end_of_line(char character)
{
    return character == 0 || character == '\r' || character == '\n' || character == END_OF_TEXT;
}

/* Takes a line with the words in their places; where it ends. */
static const char *take_line(const char *text, const struct words *words)
{
    unsigned char length = 0;
    for (; !is_end_of_line(*text); text++) {
        if (*text == '$' && text[1] >= '1' && text[1] <= '9')
            length = add_word(length, words, *++text - '1');
        else if (length < LINE) {
            if (*text == '$' && text[1] == '$')
                text++;
            command.line[length++] = *text;
        }
    }
    command.line[length] = 0;
    return text;
}

static void put_prompt(void)
{
    put_number(user);
    put('A' + drive);
    put('>');
    put_line(command.line);
}

/* What the terminal message processor does itself; whether the line is that. */
static char is_own_line(const char *line)
{
    unsigned int number;
    const char *rest = after_word(line, "USER");
    if (rest && (rest = read_number(rest, &number)) && is_end(rest) && number < 16) {
        user = number;
        return 1;
    }
    if (*line < 'A' || *line > 'P' || line[1] != ':' || !is_end(line + 2))
        return 0;
    if (call(MOUNTED_DRIVES, 0) >> (*line - 'A') & 1)
        drive = *line - 'A';
    else
        put_line("No drive");
    return 1;
}

static void send(void)
{
    command.user_and_drive = user << 4 | drive;
    command.console = (unsigned char) call(CONSOLE_NUMBER, 0);
    call(SEND_COMMAND, ADDRESS(&command));
    call(ATTACH_CONSOLE, 0);
}

/* A SUBMIT within a text: its words are kept in the room meanwhile. */
static void submit_within(const char *tail)
{
    unsigned int length = strlen(tail) + 1;
    char *kept = room + used;
    if (depth == DEEPEST || length > ROOM - used) {
        put_line("Too many commands");
        return;
    }
    memcpy(kept, tail, length);
    used += length;
    submit(kept);
    used -= length;
}

static void do_line(void)
{
    const char *line, *tail;
    put_prompt();
    raise_letters(command.line);
    line = skip_blanks(command.line);
    tail = after_word(line, "SUBMIT");
    if (*line == ';' || is_own_line(line))
        return;
    if (tail)
        submit_within(tail);
    else
        send();
}

static void do_lines(const char *text, const struct words *words)
{
    while (*text && *text != END_OF_TEXT) {
        text = take_line(text, words);
        if (!is_end(command.line))
            do_line();
        if (*text == '\r' || *text == '\n')
            text++;
    }
}

static void submit(const char *tail)
{
    struct file file;
    struct words words;
    unsigned int answer, before = used;
    tail = read_name(tail, &file);
    if (!tail || !has_name(&file)) {
        report_usage("SUBMIT d:name words");
        return;
    }
    memcpy(file.name + 8, "SUB", 3);
    take_words(tail, &words);
    answer = open_to_read(&file);
    if (IS_ERROR(answer)) {
        report_error(&file, answer);
        return;
    }
    answer = take_text(&file);
    close_file(&file);
    depth++;
    if (answer)
        do_lines(room + before, &words);
    else
        put_line("Too many commands");
    depth--;
    used = before;
}

int main(void)
{
    begin();
    call(SET_PRIORITY, BETTER_PRIORITY);
    user = (unsigned char) call(USER, 0xFF);
    drive = (unsigned char) call(CURRENT_DRIVE, 0);
    submit(take_tail());
    return 0;
}
