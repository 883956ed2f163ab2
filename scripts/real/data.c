/* Data of every sort: constants, tables of addresses, zeroed arrays, commons, and a switch that jumps by a table. */
#include "system.h"

static const number primes[] = {2, 3, 5, 7, 11, 13, 17, 19};
static number sums[64];
number shared_total;
int counter = 40;
static const char *const names[] = {"zero\n", "one\n", "two\n", "three\n"};
extern number shared_total, common_words[16];
number common_words[16];

static int kind_of(int n) {
    switch (n) {
        case 0: return 11;
        case 1: return 23;
        case 2: return 5;
        case 3: return 42;
        case 4: return 8;
        case 5: return 77;
        case 6: return 19;
        default: return -1;
    }
}

void _start(void) {
    for (int i = 0; i < 64; i++) sums[i] = primes[i % 8] * (number)(i + 1);
    for (int i = 0; i < 64; i++) shared_total += sums[i];
    common_words[0] = shared_total;
    common_words[3] = shared_total >> 3;
    print(names[shared_total % 4]);
    print_number(shared_total);
    int kinds = 0;
    for (int n = -1; n < 8; n++) kinds = kinds * 3 + kind_of(n);
    counter += kinds & 63;
    print_number(common_words[3] + (number)kinds);
    leave(counter & 0x7F);
}
