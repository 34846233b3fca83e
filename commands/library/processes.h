/* Processes by their names. */

#ifndef PROCESSES_H
#define PROCESSES_H

#define PROCESS_NAME 8

/* Reads the name of a process, filled with spaces. What comes after it; 0 where there is none, or it is too long. */
const char *read_process_name(const char *text, char *name);

#endif
