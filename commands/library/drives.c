/* What STAT and SHOW say of drives: drives.h says what each function does. */

#include <string.h>
#include "kernel.h"
#include "console.h"
#include "directory.h"
#include "drives.h"

static char has_bit(unsigned int drives, unsigned char drive)
{
    return (drives >> drive & 1) != 0;
}

char is_mounted(unsigned char drive)
{
    return has_bit(call(MOUNTED_DRIVES, 0), drive);
}

char is_there_or_reported(unsigned char drive)
{
    if (is_mounted(drive))
        return 1;
    put('A' + drive);
    put_line(": - Invalid drive");
    return 0;
}

void show_space(unsigned char drive)
{
    unsigned long records;
    read_free_records(drive, &records);
    put('A' + drive);
    put_text(has_bit(call(PROTECTED_DRIVES, 0), drive) ? ": R/O, Space: " : ": R/W, Space: ");
    put_padded(records / 8, 5);
    put_line("k");
}

void show_space_of_all(void)
{
    unsigned char drive;
    for (drive = 0; drive < DRIVES; drive++)
        if (is_mounted(drive))
            show_space(drive);
}

static void show_row(unsigned long number, const char *text)
{
    put_padded(number, 5);
    put_text(": ");
    put_line(text);
}

void show_characteristics(unsigned char drive)
{
    struct parameters parameters;
    unsigned long records;
    read_parameters(drive, &parameters);
    records = (unsigned long) (parameters.last_block + 1) << parameters.block_shift;
    put_text("    ");
    put('A' + drive);
    put_line(": Drive Characteristics");
    show_row(records, "128 Byte Record Capacity");
    show_row(records / 8, "Kilobyte Drive  Capacity");
    show_row(parameters.last_entry + 1, "32  Byte Directory Entries");
    show_row(parameters.checked, "Checked  Directory Entries");
    show_row((parameters.extent_mask + 1) * 128u, "Records/ Extent");
    show_row(parameters.block_mask + 1, "Records/ Block");
    show_row(parameters.sectors, "Sectors/ Track");
    show_row(parameters.system_tracks, "Reserved Tracks");
}

static unsigned int count_files(unsigned char drive, unsigned char user)
{
    struct file pattern;
    struct found found;
    unsigned int answer, count = 0;
    memset(&pattern, 0, sizeof pattern);
    memset(pattern.name, '?', NAME);
    pattern.drive = drive + 1;
    call(USER, user);
    for (answer = find_first(&pattern, &found); !answer; answer = find_next(&found))
        count++;
    return count;
}

void show_users(unsigned char drive, char with_counts)
{
    unsigned int counts[USERS];
    unsigned char user, own = (unsigned char) call(USER, 0xFF);
    for (user = 0; user < USERS; user++)
        counts[user] = count_files(drive, user);
    call(USER, own);
    put_text("Active User : ");
    put_padded(own, 4);
    end_line();
    put_text("Active Files: ");
    for (user = 0; user < USERS; user++)
        if (counts[user])
            put_padded(user, 4);
    if (with_counts) {
        end_line();
        put_text("# of Files  : ");
        for (user = 0; user < USERS; user++)
            if (counts[user])
                put_padded(counts[user], 4);
    }
    end_line();
}
