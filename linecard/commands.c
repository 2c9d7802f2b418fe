#include "commands.h"

#include <string.h>

#define LONGEST 8192

/* Six digits as a number. */
static int six_digits(const uint8_t *s, uint32_t *day) {
  *day = 0;
  for (int i = 0; i < 6; i++) {
    if (s[i] < '0' || s[i] > '9') return 0;
    *day = *day * 10 + (uint32_t)(s[i] - '0');
  }
  return 1;
}

int read_number(const uint8_t *s, size_t n, size_t limit, size_t *number) {
  if (n == 0) return 0;
  *number = 0;
  for (size_t i = 0; i < n; i++) {
    if (s[i] < '0' || s[i] > '9') return 0;
    *number = *number * 10 + (size_t)(s[i] - '0');
    if (*number > limit) return 0;
  }
  return 1;
}

/* The length of the command line at `s`, without its CR LF. */
static int line_length(const uint8_t *s, size_t size, size_t *n) {
  for (size_t i = 0; i + 1 < size; i++) {
    if (s[i] == '\n') return 0;
    if (s[i] == '\r') {
      *n = i;
      return s[i + 1] == '\n';
    }
  }
  return 0;
}

/* Two lengths with a comma between them. */
static int two_lengths(const uint8_t *s, size_t n, size_t *first, size_t *second) {
  size_t k = 0;
  while (k < n && s[k] != ',') k++;
  if (k == n) return 0;
  return read_number(s, k, LONGEST, first) && read_number(s + k + 1, n - k - 1, LONGEST, second);
}

/* The kind of a command that has one text, by its letter. */
static int kind_of(uint8_t letter, enum kind *kind) {
  switch (letter) {
    case 'M': *kind = COMMAND_MESSAGE; return 1;
    case 'N': *kind = COMMAND_NEWER; return 1;
    case 'P': *kind = COMMAND_OLDER; return 1;
  }
  return 0;
}

int next_command(const uint8_t *input, size_t size, size_t *at, struct command *command) {
  const uint8_t *s = input + *at;
  size_t left = size - *at, n, length = 0, list_length = 0;
  if (!line_length(s, left, &n)) return 0;
  if (n >= 2 && memcmp(s, "T,", 2) == 0) {
    if (n != 8 || !six_digits(s + 2, &command->day)) return 0;
    command->kind = COMMAND_TURN;
  } else if (n >= 2 && s[1] == ',' && kind_of(s[0], &command->kind)) {
    if (!read_number(s + 2, n - 2, LONGEST, &length)) return 0;
  } else if (n >= 9 && memcmp(s, "O,", 2) == 0 && s[8] == ',') {
    if (!six_digits(s + 2, &command->day) || !two_lengths(s + 9, n - 9, &length, &list_length)) return 0;
    command->kind = COMMAND_OPEN;
  } else {
    return 0;
  }
  if (length + list_length > left - n - 2) return 0;
  command->text = s + n + 2;
  command->length = length;
  command->list = command->text + length;
  command->list_length = list_length;
  *at += n + 2 + length + list_length;
  return 1;
}
