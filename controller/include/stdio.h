/* What the example uses of <stdio.h>; controller/program.c has it. */
#ifndef CONTROLLER_STDIO_H
#define CONTROLLER_STDIO_H

int putchar(int c);

#endif
