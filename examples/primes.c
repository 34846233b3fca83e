/* primes.bin: writes the prime numbers below 100, and ends. `commands/make` makes it, with its library. */

#include "console.h"

static unsigned char limit = 100;

static unsigned char is_prime(unsigned char number)
{
    unsigned char factor;
    for (factor = 2; factor * factor <= number; factor++)
        if (number % factor == 0)
            return 0;
    return 1;
}

int main(void)
{
    unsigned char number;
    for (number = 2; number < limit; number++)
        if (is_prime(number)) {
            put_number(number);
            put(' ');
        }
    end_line();
    return 0;
}
