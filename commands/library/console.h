/* What a command writes to its console, and asks there. */

#ifndef CONSOLE_H
#define CONSOLE_H

void put(char character);
void put_text(const char *text);
void end_line(void);
void put_line(const char *text);

/* Tells how a command is typed. */
void report_usage(const char *usage);

/* A number in decimal, and one on the right of so many columns. */
void put_number(unsigned long number);
void put_padded(unsigned long number, unsigned char width);

/* A byte and a word in hexadecimal. */
void put_byte(unsigned char byte);
void put_word(unsigned int word);

/* So many characters of a text, and so many spaces. */
void put_characters(const char *text, unsigned char count);
void put_spaces(unsigned char count);

/* A line that is typed, ended by a zero byte; the console goes on in a new line. */
#define MOST_KEYS 126
char *read_line(void);

/* Asks a question after which `(Y/N)?` is written, until a line that begins with Y or N is typed; whether it was Y. */
char ask(const char *question);

#endif
