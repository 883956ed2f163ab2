/* Greets in three languages: a table of strings, a function that is called through a pointer, and a buffer in .bss. */
#include "system.h"

static const char *const greetings[] = {"hello", "bonjour", "guten tag"};
static char line[64];

static unsigned long plain(char *at, const char *text) {
    unsigned long n = 0;
    while (text[n] != 0) {
        at[n] = text[n];
        n++;
    }
    return n;
}

static unsigned long in_capitals(char *at, const char *text) {
    unsigned long n = plain(at, text);
    for (unsigned long i = 0; i < n; i++)
        if (at[i] >= 'a' && at[i] <= 'z') at[i] = (char)(at[i] - 'a' + 'A');
    return n;
}

unsigned long (*style)(char *at, const char *text) = plain;

int main(void) {
    for (int i = 0; i < 3; i++) {
        unsigned long n = style(line, greetings[i]);
        line[n++] = '\n';
        if (write_some(1, line, n) < 0) return 1;
        style = in_capitals;
    }
    return 0;
}
