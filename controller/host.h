/* The machine around the emulated controller: files and the end of the program by semihosting, and a counter of instructions. */
#ifndef HOST_H
#define HOST_H

#include <stddef.h>
#include <stdint.h>

/* Is there such a file in the folder in which the emulator runs? */
int host_has(const char *name);

/* Opens a file of that folder. */
int host_open_to_read(const char *name);
int host_open_to_write(const char *name);

/* As many of `n` bytes as the file has. */
size_t host_read(int file, uint8_t *bytes, size_t n);

void host_write(int file, const uint8_t *bytes, size_t n);

/* The words the emulator was given behind the program's name. */
void host_words(char *words, size_t n);

/* Says why on the emulator's console where there is something to say, and ends it: status 0 is good. */
_Noreturn void host_end(const char *why, int status);

/* The emulated board has a Cortex-M3; from here on a word or half-word at an odd address faults, as it does on a Cortex-M0+. */
void host_faults_where_not_aligned(void);

/* Runs the function with the stack pointer at `top` (start.S). */
void on_card_stack(void (*function)(void), void *top);

/* Starts the counter, and reads how many instructions have run since. */
void host_count_from_here(void);
uint32_t host_counted(void);

#endif
