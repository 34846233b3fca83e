/* The files of a directory, one after another in the order of their names, as functions 17 and 18 give their entries. */

#ifndef DIRECTORY_H
#define DIRECTORY_H

#include "names.h"

/* A file as its entries have it. The records that a hole in a file leaves out aren't counted. */
struct found {
    char name[NAME];        /* with the attributes */
    unsigned long records;
    unsigned int kilobytes; /* whole blocks */
    unsigned int entries;
};

/* Finds the first and the next file that fits a pattern, of the current user: 0, or what the call answered. Between the two the program
   makes no other search. */
unsigned int find_first(struct file *pattern, struct found *found);
unsigned int find_next(struct found *found);

/* The names that fit, found all at once, so that what is done with a file changes no search: how many, or 0 with the answer. */
#define MOST_NAMES 512 /* entries of the largest directory */
extern char found_names[MOST_NAMES][NAME];
unsigned int find_names(struct file *pattern, unsigned int *answer);

/* Does something with each name that fits; where none does, what the call answered is reported. */
void each_name(struct file *pattern, void (*act)(const char *name));

/* The parameters of a drive: bytes of its disk parameter block (System Guide, "Disk Parameter Block"). */
struct parameters {
    unsigned int sectors;
    unsigned char block_shift, block_mask, extent_mask;
    unsigned int last_block, last_entry;
    unsigned char directory_blocks[2];
    unsigned int checked;
    unsigned int system_tracks;
};

/* Those of a drive from 0 on, which becomes the current one: 0, or what the call answered. */
unsigned int read_parameters(unsigned char drive, struct parameters *parameters);

/* The records that are free on a drive from 0 on: 0, or what the call answered. */
unsigned int read_free_records(unsigned char drive, unsigned long *records);

#endif
