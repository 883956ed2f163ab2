/* The two system calls that the programs make, and the numbers that they print. */
#ifndef SYSTEM_H
#define SYSTEM_H

typedef unsigned long number;

static inline long system_call(number which, number a, number b, number c) {
    register number r0 __asm__("r0") = which;
    register number r3 __asm__("r3") = a;
    register number r4 __asm__("r4") = b;
    register number r5 __asm__("r5") = c;
    __asm__ volatile("sc"
                     : "+r"(r0), "+r"(r3), "+r"(r4), "+r"(r5)
                     :
                     : "r6", "r7", "r8", "r9", "r10", "r11", "r12", "cr0", "ctr", "memory");
    return (long)r3;
}

void print(const char *text);
void print_number(number n);
_Noreturn void leave(int status);

#endif
