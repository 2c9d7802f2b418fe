/* Copying, filling and comparing bytes: what the compilers call by these names where there is no C library. */
#include <stdint.h>
#include <string.h>

/* Is the address, or are both that are joined in it, one of words, so that four bytes go at a time? */
static int is_word(uintptr_t address) { return (address & 3) == 0; }

void *memcpy(void *to, const void *from, size_t n) {
  uint8_t *t = to;
  const uint8_t *f = from;
  if (is_word((uintptr_t)t | (uintptr_t)f)) {
    for (; n >= 4; n -= 4, t += 4, f += 4) *(uint32_t *)t = *(const uint32_t *)f;
  }
  for (; n > 0; n--) *t++ = *f++;
  return to;
}

void *memmove(void *to, const void *from, size_t n) {
  uint8_t *t = to;
  const uint8_t *f = from;
  if (t <= f || t >= f + n) return memcpy(to, from, n);
  while (n > 0) {
    n--;
    t[n] = f[n];
  }
  return to;
}

void *memset(void *to, int value, size_t n) {
  uint8_t *t = to;
  uint32_t word = (uint8_t)value * 0x01010101u;
  for (; n > 0 && !is_word((uintptr_t)t); n--) *t++ = (uint8_t)value;
  for (; n >= 4; n -= 4, t += 4) *(uint32_t *)t = word;
  for (; n > 0; n--) *t++ = (uint8_t)value;
  return to;
}

int memcmp(const void *a, const void *b, size_t n) {
  const uint8_t *x = a, *y = b;
  for (; n > 0; n--, x++, y++) {
    if (*x != *y) return *x < *y ? -1 : 1;
  }
  return 0;
}

/* The same under the names of the Arm run-time ABI: 4 and 8 tell what the addresses are aligned to. */
#define COPY(name, of) \
  void name(void *to, const void *from, size_t n) { of(to, from, n); }
#define FILL(name) \
  void name(void *to, size_t n, int value) { memset(to, value, n); }
#define CLEAR(name) \
  void name(void *to, size_t n) { memset(to, 0, n); }

COPY(__aeabi_memcpy, memcpy)
COPY(__aeabi_memcpy4, memcpy)
COPY(__aeabi_memcpy8, memcpy)
COPY(__aeabi_memmove, memmove)
COPY(__aeabi_memmove4, memmove)
COPY(__aeabi_memmove8, memmove)
FILL(__aeabi_memset)
FILL(__aeabi_memset4)
FILL(__aeabi_memset8)
CLEAR(__aeabi_memclr)
CLEAR(__aeabi_memclr4)
CLEAR(__aeabi_memclr8)
