/* Files by their names. */

#ifndef NAMES_H
#define NAMES_H

#define NAME 11 /* letters of a name and its type */
#define PASSWORD 8

/* The file control block that the calls take (Programmer's Guide, "File Control Block Definition"), and what is typed with it. */
struct file {
    unsigned char drive; /* 0 for the process's own, 1 to 16 for A to P */
    char name[NAME];     /* the attributes are in bit 7 of the letters */
    unsigned char extent, s1, s2, records;
    unsigned char handle[16]; /* also the new name, from its second byte on */
    unsigned char record;
    unsigned char random[3];
    /* the control block ends here */
    char password[PASSWORD]; /* zeros where none was typed */
};

/* The letters whose bit 7 are attributes. */
enum { UNLOCKED = 4, READ_ONLY_MODE = 5, READ_ONLY = 8, SYSTEM = 9, ARCHIVED = 10 };

/* Reads a name, such as `B:LETTER.TXT;SECRET`, or a drive alone, such as `B:`, whose name is all spaces. What comes after it; 0 where
   the text is neither. */
const char *read_name(const char *text, struct file *file);

/* Makes a file one without a name, on the current drive. */
void name_nothing(struct file *file);

char has_name(const struct file *file);
char has_wildcards(const char *name);

/* `?` in each place of a name that is missing. */
void take_all_names(struct file *file);

char has_attribute(const char *name, unsigned char letter);
void set_attribute(char *name, unsigned char letter, char is_set);

/* Whether two names are the same, whatever their attributes. */
char is_same_name(const char *one, const char *other);
void copy_name(char *to, const char *from);

/* The drive of a file from 0 on, and its letter. */
unsigned char drive_of(const struct file *file);
void put_drive(const struct file *file);

/* A name as it is typed, and one in columns. */
void put_name(const char *name);
void put_name_in_columns(const char *name);
void put_file(const struct file *file);

/* A control block of that name on a file's drive, with its password. */
void name_file(struct file *file, const struct file *like, const char *name);

#endif
