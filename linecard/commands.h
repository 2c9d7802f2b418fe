/* The input of the replay program: commands one behind the other. */
#ifndef COMMANDS_H
#define COMMANDS_H

#include <stddef.h>
#include <stdint.h>

enum kind { COMMAND_OPEN, COMMAND_MESSAGE, COMMAND_TURN, COMMAND_NEWER, COMMAND_OLDER };

struct command {
  enum kind kind;
  uint32_t day;        /* of an opening or a turn */
  const uint8_t *text; /* the register or the message */
  size_t length;
  const uint8_t *list; /* of an opening: the holiday list, which stands behind the register */
  size_t list_length;
};

/* One or more digits as a number; 0 where they are none or it is above the limit. */
int read_number(const uint8_t *s, size_t n, size_t limit, size_t *number);

/* The command at `*at`, behind which `*at` then stands; 0 where the input is outside the form. */
int next_command(const uint8_t *input, size_t size, size_t *at, struct command *command);

#endif
