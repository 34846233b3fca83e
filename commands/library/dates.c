/* Dates and stamps: dates.h says what each function does. */

#include "kernel.h"
#include "console.h"
#include "dates.h"

static char is_leap(unsigned int year)
{
    return year % 4 == 0 && (year % 100 != 0 || year % 400 == 0);
}

unsigned char days_of_month(unsigned char month, unsigned int year)
{
    if (month == 2)
        return 28 + is_leap(year);
    return month == 4 || month == 6 || month == 9 || month == 11 ? 30 : 31;
}

static unsigned int days_of_year(unsigned int year)
{
    return 365 + is_leap(year);
}

void take_days(unsigned int days, struct date *date)
{
    date->year = FIRST_YEAR;
    date->month = 1;
    date->weekday = (days + 6) % 7; /* the first day was a Sunday */
    while (days > days_of_year(date->year))
        days -= days_of_year(date->year++);
    while (days > days_of_month(date->month, date->year))
        days -= days_of_month(date->month++, date->year);
    date->day = (unsigned char) days;
}

unsigned int days_of(const struct date *date)
{
    unsigned int days = date->day;
    unsigned int passed_year;
    unsigned char passed_month;
    for (passed_year = FIRST_YEAR; passed_year < date->year; passed_year++)
        days += days_of_year(passed_year);
    for (passed_month = 1; passed_month < date->month; passed_month++)
        days += days_of_month(passed_month, date->year);
    return days;
}

static void put_two(unsigned char number)
{
    put('0' + number / 10);
    put('0' + number % 10);
}

void put_date(const struct date *date)
{
    put_two(date->month);
    put('/');
    put_two(date->day);
    put('/');
    put_two(date->year % 100);
}

void put_day_and_minute(const struct stamp *stamp)
{
    struct date date;
    take_days(stamp->date, &date);
    put_date(&date);
    put(' ');
    put_byte(stamp->hour);
    put(':');
    put_byte(stamp->minute);
}
