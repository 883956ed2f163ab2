#include "text.h"

/* Division by a constant becomes a high product, which the written machine doesn't have; so the digits are counted out. */
static const unsigned int powers[] = {1000000000, 100000000, 10000000, 1000000, 100000, 10000, 1000, 100, 10, 1};

unsigned long decimal(char *at, unsigned int number) {
    unsigned long count = 0;
    for (unsigned long i = 0; i < sizeof powers / sizeof powers[0]; i++) {
        char digit = '0';
        while (number >= powers[i]) {
            number -= powers[i];
            digit++;
        }
        if (count > 0 || digit != '0' || powers[i] == 1) at[count++] = digit;
    }
    return count;
}
