/* Dates and times as the kernel has them: days from 1 for 1 January 1978, and packed decimal (Programmer's Guide, "Function 104"). */

#ifndef DATES_H
#define DATES_H

/* A stamp of a file, or what functions 104 and 155 take and give. */
struct stamp {
    unsigned int date;
    unsigned char hour, minute, second;
};

struct date {
    unsigned int year;
    unsigned char month, day;
    unsigned char weekday; /* 0 for Sunday */
};

#define FIRST_YEAR 1978

unsigned char days_of_month(unsigned char month, unsigned int year);

/* What date a number of days is, and the number of a date. */
void take_days(unsigned int days, struct date *date);
unsigned int days_of(const struct date *date);

/* `mm/dd/yy`, and `hh:mm` after a space. */
void put_date(const struct date *date);
void put_day_and_minute(const struct stamp *stamp);

#endif
