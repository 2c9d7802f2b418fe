/* What the line card's program uses of <string.h>; controller/memory.c has the functions. */
#ifndef CONTROLLER_STRING_H
#define CONTROLLER_STRING_H

#include <stddef.h>

void *memcpy(void *to, const void *from, size_t n);
void *memmove(void *to, const void *from, size_t n);
void *memset(void *to, int value, size_t n);
int memcmp(const void *a, const void *b, size_t n);

#endif
