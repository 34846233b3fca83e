/* TOD                        the date and the time
   TOD mm/dd/yy hh:mm[:ss]    sets them as a key is struck; the second begins at 0
   TOD P                      the time, again as each second begins, until a key is struck */

#include "kernel.h"
#include "console.h"
#include "dates.h"
#include "files.h"
#include "words.h"

static struct stamp now;

static const char days[7][4] = { "Sun", "Mon", "Tue", "Wed", "Thu", "Fri", "Sat" };

static void show(void)
{
    struct date date;
    take_days(now.date, &date);
    put_text(days[date.weekday]);
    put(' ');
    put_day_and_minute(&now);
    put(':');
    put_byte(now.second);
}

/* Shows each second once, until a key is struck. */
static void show_always(void)
{
    unsigned char last = 0xFF;
    while (!call(IS_KEY_THERE, 0)) {
        call(GET_TIME, ADDRESS(&now));
        if (now.second != last) {
            last = now.second;
            put('\r');
            show();
        }
        call(DELAY, 1);
    }
    call(READ_RAW_KEY, 0);
    end_line();
}

/* A number from a least one to a greatest one, and the character after it, or any that ends a word where that is 0. */
static const char *read_part(const char *text, unsigned int least, unsigned int most, char rest, unsigned int *number)
{
    text = read_number(text, number);
    if (!text || *number < least || *number > most)
        return 0;
    if (!rest)
        return is_letter_or_digit(*text) ? 0 : text;
    return *text == rest ? text + 1 : 0;
}

static unsigned char packed(unsigned int number)
{
    return (unsigned char) (number / 10 * 16 + number % 10);
}

/* A year of two digits is one from 1978 to 2077. */
static const char *read_date(const char *text)
{
    struct date date;
    unsigned int month, day, year;
    if (!(text = read_part(text, 1, 12, '/', &month)) || !(text = read_part(text, 1, 31, '/', &day)) || !(text = read_part(text, 0, 99, 0, &year)))
        return 0;
    date.year = year + (year < FIRST_YEAR % 100 ? 2000 : 1900);
    date.month = month;
    date.day = day;
    if (day > days_of_month(date.month, date.year))
        return 0;
    now.date = days_of(&date);
    return text;
}

static const char *read_time(const char *text)
{
    unsigned int hour, minute, second;
    if (!(text = read_part(text, 0, 23, ':', &hour)) || !(text = read_part(text, 0, 59, 0, &minute)))
        return 0;
    now.hour = packed(hour);
    now.minute = packed(minute);
    return *text == ':' ? read_part(text + 1, 0, 59, 0, &second) : text;
}

static void set(void)
{
    put_text("Strike key to set time");
    call(READ_KEY, 0);
    call(SET_TIME, ADDRESS(&now));
    end_line();
    call(GET_TIME, ADDRESS(&now));
    show();
    end_line();
}

int main(void)
{
    const char *tail = take_tail();
    const char *rest = after_word(tail, "P");
    if (is_end(tail)) {
        call(GET_TIME, ADDRESS(&now));
        show();
        end_line();
    } else if (rest && is_end(rest))
        show_always();
    else if ((rest = read_date(tail)) && (rest = read_time(rest)) && is_end(rest))
        set();
    else
        report_usage("TOD mm/dd/yy hh:mm:ss, or TOD P");
    return 0;
}
