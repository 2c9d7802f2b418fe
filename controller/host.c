#include "host.h"

#include <string.h>

/* Numbers of the semihosting calls (Arm, 'Semihosting for AArch32 and AArch64'). */
enum { SYS_OPEN = 0x01, SYS_WRITE0 = 0x04, SYS_WRITE = 0x05, SYS_READ = 0x06, SYS_GET_CMDLINE = 0x15, SYS_EXIT_EXTENDED = 0x20 };

static uint32_t host_call(uint32_t number, const void *block) {
  register uint32_t r0 __asm__("r0") = number;
  register const void *r1 __asm__("r1") = block;
  __asm__ volatile("bkpt 0xab" : "+r"(r0) : "r"(r1) : "memory");
  return r0;
}

static uint32_t length_of(const char *text) {
  uint32_t n = 0;
  while (text[n]) n++;
  return n;
}

/* How a file is opened: 'rb' and 'wb' of the C library. */
enum { TO_READ = 1, TO_WRITE = 5 };

static int host_try(const char *name, uint32_t mode) {
  uint32_t block[3] = {(uint32_t)(uintptr_t)name, mode, length_of(name)};
  return (int)host_call(SYS_OPEN, block);
}

static int host_open(const char *name, uint32_t mode) {
  int file = host_try(name, mode);
  if (file < 0) host_end("a file cannot be opened\n", 2);
  return file;
}

int host_has(const char *name) { return host_try(name, TO_READ) >= 0; }

int host_open_to_read(const char *name) { return host_open(name, TO_READ); }

int host_open_to_write(const char *name) { return host_open(name, TO_WRITE); }

size_t host_read(int file, uint8_t *bytes, size_t n) {
  size_t got = 0;
  while (got < n) {
    uint32_t block[3] = {(uint32_t)file, (uint32_t)(uintptr_t)(bytes + got), n - got};
    size_t missing = host_call(SYS_READ, block);
    if (missing >= n - got) break;
    got = n - missing;
  }
  return got;
}

void host_write(int file, const uint8_t *bytes, size_t n) {
  uint32_t block[3] = {(uint32_t)file, (uint32_t)(uintptr_t)bytes, n};
  if (n > 0 && host_call(SYS_WRITE, block) != 0) host_end("a file cannot be written\n", 2);
}

void host_words(char *words, size_t n) {
  uint32_t block[2] = {(uint32_t)(uintptr_t)words, n - 1};
  words[0] = 0;
  host_call(SYS_GET_CMDLINE, block);
  words[n - 1] = 0;
}

_Noreturn void host_end(const char *why, int status) {
  uint32_t block[2] = {0x20026, (uint32_t)status};
  if (why) host_call(SYS_WRITE0, why);
  host_call(SYS_EXIT_EXTENDED, block);
  for (;;) {
  }
}

void line_fault(void) { host_end("fault: no memory there (the stack ran over), or no such instruction\n", 3); }

void host_faults_where_not_aligned(void) { *(volatile uint32_t *)0xe000ed14 |= 1u << 3; }

/* The board's first timer goes down at 25 MHz, one step in 40 ns, and the emulator lets each instruction take 64 ns
 * (`-icount shift=6`), so that a step is less than an instruction: the number of instructions is exact. */
static volatile uint32_t *const timer = (volatile uint32_t *)0x40000000;
enum { CONTROL, VALUE, RELOAD };

void host_count_from_here(void) {
  timer[CONTROL] = 0;
  timer[RELOAD] = 0xffffffff;
  timer[VALUE] = 0xffffffff;
  timer[CONTROL] = 1;
}

uint32_t host_counted(void) {
  uint64_t steps = 0xffffffff - timer[VALUE];
  return (uint32_t)(steps * 5 >> 3);
}
