/* The calls on files, with the password that was typed with a file's name, and what is wrong in words. */

#ifndef FILES_H
#define FILES_H

#include "names.h"

#define RECORD 128
#define MOST_RECORDS 16 /* of one call: function 44 */

/* What a call answers: an extended error (Programmer's Guide, "BDOS Error Handling") has its number in the high byte, and FFh below. */
#define NOT_FOUND 0x00FF
enum { DRIVE_IS_READ_ONLY = 2, FILE_IS_READ_ONLY = 3, NO_DRIVE = 4, IS_OPEN_ELSEWHERE = 5, WRONG_PASSWORD = 7, IS_THERE = 8, IS_NO_SINGLE_FILE = 9 };
#define EXTENDED(error) (256u * (error) + 0xFF)

/* Asks for extended errors to be answered, and not to end the program: function 45. */
void begin(void);

/* A call of a function that takes a file and its password. */
unsigned int call_with_password(unsigned char function, struct file *file);

/* Erases the file of a name on another one's drive, or says why it can't. */
void erase_or_report(const struct file *like, const char *name);

/* Opens a file to read it, beside others that read it, and beside those that share it in unlocked mode. */
unsigned int open_to_read(struct file *file);

/* Reads up to 16 records, and answers how many there were. */
unsigned char read_records(struct file *file, char *to);

void close_file(struct file *file);

/* An answer in words, and a file with them on a line. */
void put_error(unsigned int answer);
void report_error(const struct file *file, unsigned int answer);

#endif
