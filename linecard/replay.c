/* A line card that replays a day: lends the card areas from its own memory, reads commands from standard input and
 * prints what the card answers. `--room N` gives the output another room than CARD_OUTPUT. */
#include <inttypes.h>
#include <stdio.h>
#include <stdlib.h>
#include <string.h>

#include "card.h"
#include "commands.h"

#define LARGEST_ROOM 1048576

static uint8_t area[CARD_AREA];

/* The room that the words of the command line ask for; 0 where they say something else. */
static int asked_room(int count, char **words, size_t *room) {
  *room = CARD_OUTPUT;
  if (count <= 1) return 1;
  if (count != 3 || strcmp(words[1], "--room") != 0 || strlen(words[2]) > 7) return 0;
  return read_number((const uint8_t *)words[2], strlen(words[2]), LARGEST_ROOM, room);
}

/* All of standard input, or no bytes at all where there is no memory for it. */
static uint8_t *read_input(size_t *size) {
  uint8_t *input = NULL, *larger;
  size_t room = 0, got;
  *size = 0;
  do {
    if (*size == room) {
      room = room ? room * 2 : 65536;
      larger = realloc(input, room);
      if (!larger) {
        free(input);
        return NULL;
      }
      input = larger;
    }
    got = fread(input + *size, 1, room - *size, stdin);
    *size += got;
  } while (got > 0);
  return input;
}

static void replay(const uint8_t *input, size_t size, uint8_t *output, size_t room) {
  size_t at = 0;
  struct command command;
  while (next_command(input, size, &at, &command)) {
    uint64_t written = 0;
    int64_t difference = 0;
    uint32_t number = 0;
    switch (command.kind) {
      case COMMAND_OPEN:
        number = card_open(command.text, command.length, command.list, command.list_length, command.day, area, sizeof area, &written,
                           &difference);
        break;
      case COMMAND_MESSAGE:
        number = card_message(command.text, command.length, area, sizeof area, output, room, &written, &difference);
        break;
      case COMMAND_TURN:
        number = card_turn(command.day, area, sizeof area, output, room, &written, &difference);
        break;
      case COMMAND_NEWER:
        number = card_newer(command.text, command.length, output, room, &written, &difference);
        break;
      case COMMAND_OLDER:
        number = card_older(command.text, command.length, output, room, &written, &difference);
        break;
    }
    printf("%" PRIu32 ",%" PRId64 "\r\n", number, difference);
    fwrite(output, 1, written, stdout);
  }
}

int main(int count, char **words) {
  size_t room, size;
  uint8_t *output, *input;
  if (!asked_room(count, words, &room)) {
    fputs("usage: replay [--room N] <COMMANDS >ANSWERS (N: the room of the output in bytes, at most 1048576)\n", stderr);
    return 2;
  }
  output = malloc(room ? room : 1);
  input = read_input(&size);
  if (!output || !input) return 1;
  replay(input, size, output, room);
  free(input);
  free(output);
  return 0;
}
