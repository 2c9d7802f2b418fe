/* A C program on the emulated controller: runs its `main` on the card's stack, and writes what it prints to the file `output`. */
#include <stdio.h>

#include "host.h"

/* The linker script places it. */
extern uint8_t card_stack_top[];

int main(void);

static int output_file, status;

int putchar(int c) {
  uint8_t byte = (uint8_t)c;
  host_write(output_file, &byte, 1);
  return c;
}

static void run(void) { status = main(); }

void line_card(void) {
  host_faults_where_not_aligned();
  output_file = host_open_to_write("output");
  on_card_stack(run, card_stack_top);
  host_end(0, status);
}
