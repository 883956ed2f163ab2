/* Copies standard input to standard output, with each letter thirteen places on and each line numbered. Its status is 0, 2
   where it can't read, and 3 where it can't write. */
#include "system.h"
#include "text.h"

enum { READ_FAILED = 2, WRITE_FAILED = 3 };

static char input[48];
static char output[1024];

static int put_out(unsigned long length) {
    unsigned long at = 0;
    while (at < length) {
        long n = write_some(1, output + at, length - at);
        if (n <= 0) return 0;
        at += (unsigned long)n;
    }
    return 1;
}

int main(void) {
    unsigned int line = 0;
    char before = '\n';
    for (;;) {
        long n = read_some(0, input, sizeof input);
        if (n == 0) return 0;
        if (n < 0) return READ_FAILED;
        unsigned long length = 0;
        for (const char *at = input; at != input + n; at++) {
            if (before == '\n') {
                length += decimal(output + length, ++line);
                output[length++] = ' ';
            }
            before = *at;
            output[length++] = rotated(before);
        }
        if (!put_out(length)) return WRITE_FAILED;
    }
}
