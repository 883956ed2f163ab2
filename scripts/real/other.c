/* The other file of `calls`. */
#include "system.h"

static number called;

__attribute__((noinline)) number twice(number n) {
    called++;
    return 2 * n + called;
}

__attribute__((noinline)) number apply(number (*step)(number), number n) { return step(n) ^ called; }

__attribute__((noinline)) number recursive(number n) {
    return n < 2 ? n : recursive(n - 1) + recursive(n - 2);
}
