/* The kernel: its functions (MP/M II Programmer's Guide, "BDOS Function Calls" and "XDOS Function Calls"), and the base page of the
   program's segment. */

#ifndef KERNEL_H
#define KERNEL_H

/* What a function answers in HL. */
unsigned int call(unsigned char function, unsigned int parameter);

/* Whether an answer is an extended error, or FFh alone, as where nothing was found (Programmer's Guide, "BDOS Error Handling"). */
#define IS_ERROR(answer) (((answer) & 0xFF) == 0xFF)

#define ADDRESS(object) ((unsigned int) (object))
#define COUNT(table) (sizeof (table) / sizeof *(table))

/* The base page of the segment, at any address: the tail of the command is at 80h. */
extern unsigned char base_page[256];
#define TAIL_LENGTH 0x80
#define TAIL 0x81

enum {
    READ_KEY = 1,
    WRITE_CONSOLE = 2,
    READ_RAW_KEY = 3,
    WRITE_PRINTER = 5,
    WRITE_STRING = 9,
    READ_LINE = 10,
    IS_KEY_THERE = 11,
    RESET_DISKS = 13,
    SELECT_DRIVE = 14,
    OPEN_FILE = 15,
    CLOSE_FILE = 16,
    SEARCH_FIRST = 17,
    SEARCH_NEXT = 18,
    DELETE_FILE = 19,
    READ_SEQUENTIAL = 20,
    WRITE_SEQUENTIAL = 21,
    MAKE_FILE = 22,
    RENAME_FILE = 23,
    MOUNTED_DRIVES = 24,
    CURRENT_DRIVE = 25,
    SET_DMA = 26,
    PROTECT_DRIVE = 28,
    PROTECTED_DRIVES = 29,
    SET_ATTRIBUTES = 30,
    DISK_PARAMETERS = 31,
    USER = 32,
    READ_RANDOM = 33,
    WRITE_RANDOM = 34,
    FILE_SIZE = 35,
    RESET_DRIVES = 37,
    LOCK_RECORD = 42,
    UNLOCK_RECORD = 43,
    SET_RECORDS = 44,
    SET_ERROR_MODE = 45,
    FREE_RECORDS = 46,
    SET_LABEL = 100,
    LABEL_DATA = 101,
    READ_XFCB = 102,
    WRITE_XFCB = 103,
    SET_TIME = 104,
    MAKE_QUEUE = 134,
    OPEN_QUEUE = 135,
    READ_QUEUE = 137,
    READ_QUEUE_IF_THERE = 138,
    WRITE_QUEUE = 139,
    DELAY = 141,
    DISPATCH = 142,
    SET_PRIORITY = 145,
    ATTACH_CONSOLE = 146,
    ASSIGN_CONSOLE = 149,
    SEND_COMMAND = 150,
    PARSE_NAME = 152,
    CONSOLE_NUMBER = 153,
    SYSTEM_DATA = 154,
    GET_TIME = 155,
    DESCRIPTOR = 156,
    ABORT_PROCESS = 157,
    SET_PRINTER = 160,
    PRINTER_NUMBER = 164
};

#endif
