/* What all programs share: text and numbers to standard output, and the end. */
#include "system.h"

static number length(const char *text) {
    number n = 0;
    while (text[n] != 0) n++;
    return n;
}

void print(const char *text) { system_call(4, 1, (number)text, length(text)); }

void print_number(number n) {
    char digits[24];
    number at = sizeof digits;
    digits[--at] = 0;
    digits[--at] = '\n';
    do {
        digits[--at] = (char)('0' + n % 10);
        n /= 10;
    } while (n != 0);
    print(digits + at);
}

_Noreturn void leave(int status) {
    for (;;) system_call(1, (number)status, 0, 0);
}
