/* What STAT and SHOW say of drives. A drive is a number from 0 on. */

#ifndef DRIVES_H
#define DRIVES_H

#define DRIVES 16
#define USERS 16

char is_mounted(unsigned char drive);

/* Its letter, whether it may be written, and how much room is left. */
void show_space(unsigned char drive);
void show_space_of_all(void);

/* Its disk parameters. */
void show_characteristics(unsigned char drive);

/* The users that have files there; and how many, where that is asked. */
void show_users(unsigned char drive, char with_counts);

/* Whether a drive is mounted; it is reported where it isn't. */
char is_there_or_reported(unsigned char drive);

#endif
