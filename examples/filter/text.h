/* Two functions of the library libtext.a. */
#ifndef TEXT_H
#define TEXT_H

/* A letter thirteen places on; what is no letter stays. */
char rotated(char letter);

/* Writes a number in decimal digits, and answers how many. */
unsigned long decimal(char *at, unsigned int number);

#endif
