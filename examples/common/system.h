/* The calls of start.s. */
#ifndef SYSTEM_H
#define SYSTEM_H

long read_some(int descriptor, void *bytes, unsigned long length);
long write_some(int descriptor, const void *bytes, unsigned long length);

#endif
