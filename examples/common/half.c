/* A program that `check` leaves with `part`, where it is compiled for the medium code model with -Os: the high half of an address is kept
   over a call, in a register that the callee saves to its stack. docs/USING.md says what to do. */
#include "system.h"

static long total;
static long sums[3];

__attribute__((noinline)) static long stepped(long n, long m) {
    long a = n + 1;
    long b = m + 2;
    for (long i = 0; i < 2; i++) {
        write_some(1, "x", 1);
        a += b;
        b += n;
    }
    return a + b;
}

int main(void) {
    for (long i = 0; i < 3; i++) {
        sums[i] = stepped(i, total);
        total += sums[i];
    }
    return (int)(total & 63);
}
