/* The words of a command's tail, which the command line interpreter has put into the base page in upper case. */

#ifndef WORDS_H
#define WORDS_H

/* The tail, ended by a zero byte. */
char *take_tail(void);

/* Makes letters upper case, as the interpreter does. */
void raise_letters(char *text);

const char *skip_blanks(const char *text);

/* Whether nothing but blanks is left. */
char is_end(const char *text);

/* What comes after a word, where the text begins with it and it ends there; else 0. */
const char *after_word(const char *text, const char *word);

/* What comes after a number, up to 65,535, which is put to its place; 0 where none is there. */
const char *read_number(const char *text, unsigned int *number);

char is_letter_or_digit(char character);

#endif
