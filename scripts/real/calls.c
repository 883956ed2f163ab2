/* Calls within a file and across files, through pointers, and to a weak function that nobody defines. */
#include "system.h"

number twice(number n);
number apply(number (*step)(number), number n);
number recursive(number n);
void perhaps(void) __attribute__((weak));

static number add_seven(number n) { return n + 7; }

static number recursive_below(number n) { return recursive(n % 16); }

static number (*const steps[])(number) = {twice, add_seven, recursive_below};

void _start(void) {
    number n = 1;
    for (int i = 0; i < 9; i++) n = apply(steps[i % 3], n) % 1000003;
    print_number(n);
    if (perhaps) perhaps();
    print_number(recursive(12));
    leave((int)(n % 100));
}
