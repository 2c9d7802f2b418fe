/* A line card that hands the card anything: damaged messages, registers, days and areas, any text to the moves of a register, lengths of 0,
 * short outputs, areas of 6,143 to 6,145 bytes. It fails when a call touches a byte that it should not, or answers a number that its call does not have.
 *
 *   bounds CALLS SEED FILE...      FILE: input of the replay program, from which commands are drawn
 */
#include <inttypes.h>
#include <stdio.h>
#include <stdlib.h>
#include <string.h>

#include "card.h"
#include "commands.h"

#define GUARD 64
#define MOST_COMMANDS 4096

static uint64_t state;

/* The next number of a xorshift generator. */
static uint64_t draw(uint64_t below) {
  state ^= state << 13;
  state ^= state >> 7;
  state ^= state << 17;
  return state % below;
}

/* Memory with guards before and behind what is lent. */
struct lent {
  uint8_t bytes[GUARD + CARD_OUTPUT + GUARD];
  uint8_t before[GUARD + CARD_OUTPUT + GUARD];
};

static struct lent area_memory, output_memory, text_memory, list_memory;
static struct command commands[MOST_COMMANDS];
static size_t command_count;
static uint64_t answered[32];

static uint8_t *lend(struct lent *memory) { return memory->bytes + GUARD; }

static void remember(struct lent *memory) { memcpy(memory->before, memory->bytes, sizeof memory->bytes); }

static void fail(const char *what, uint64_t call) {
  fprintf(stderr, "bounds: call %" PRIu64 ": %s\n", call, what);
  exit(1);
}

/* Nothing but the bytes from `from` up to `to` of what is lent differs from before. */
static void unchanged_outside(struct lent *memory, size_t from, size_t to, const char *what, uint64_t call) {
  if (memcmp(memory->bytes, memory->before, GUARD + from) != 0) fail(what, call);
  size_t behind = GUARD + to;
  if (memcmp(memory->bytes + behind, memory->before + behind, sizeof memory->bytes - behind) != 0) fail(what, call);
}

static void load(const char *path) {
  FILE *file = fopen(path, "rb");
  if (!file) fail("a file cannot be read", 0);
  uint8_t *input = malloc(1 << 20);
  size_t size = fread(input, 1, 1 << 20, file), at = 0;
  fclose(file);
  while (command_count < MOST_COMMANDS && next_command(input, size, &at, &commands[command_count])) command_count++;
}

/* Damages a few bytes of a text, or cuts it short. */
static size_t damage(uint8_t *text, size_t length) {
  if (length == 0) return length;
  for (uint64_t n = draw(3); n > 0; n--) {
    uint64_t value = draw(4) == 0 ? draw(256) : text[draw(length)];
    text[draw(length)] = (uint8_t)value;
  }
  return draw(16) == 0 ? draw(length + 1) : length;
}

/* A move of a register is lent no area. */
static int is_move(enum kind kind) { return kind == COMMAND_NEWER || kind == COMMAND_OLDER; }

static int number_is_of(enum kind kind, uint32_t number) {
  if (number == 0) return 1;
  if (is_move(kind)) return number == 9 || number == 16 || (number == 19 && kind == COMMAND_OLDER);
  if (number == 10) return 1;
  if (kind == COMMAND_OPEN) return number == 3 || number == 9 || number == 17 || number == 18;
  if (kind == COMMAND_TURN) return number == 3 || number == 11 || number == 16 || number == 17;
  return number <= 16 && number != 9;
}

static void one_call(uint64_t call) {
  static const uint64_t area_lengths[] = {0, 1, 16, 6143, 6145, 7000};
  static size_t place;
  int moved = draw(16) == 0; /* the text of the last call, whatever it is, handed to a move */
  if (!moved) place = draw(32) == 0 ? draw(command_count) : (place + 1) % command_count;
  const struct command *command = &commands[place];
  enum kind kind = !moved ? command->kind : draw(2) == 0 ? COMMAND_NEWER : COMMAND_OLDER;
  uint8_t *text = lend(&text_memory), *list = lend(&list_memory), *area = lend(&area_memory), *output = lend(&output_memory);
  size_t length = command->length, list_length = command->list_length;
  uint32_t day = command->day;
  memcpy(text, command->text, length);
  memcpy(list, command->list, list_length);
  if (draw(4) == 0) length = damage(text, length);
  if (draw(8) == 0) list_length = damage(list, list_length);
  if (draw(40) == 0) day = (uint32_t)draw(1u << 31);
  uint64_t area_length = draw(64) == 0 ? area_lengths[draw(6)] : CARD_AREA;
  uint64_t room = draw(16) == 0 ? draw(1200) : CARD_OUTPUT;
  if (is_move(kind) && draw(2) == 0) room = draw(2 * length + 8);
  if (draw(256) == 0) {
    for (uint64_t n = 1 + draw(4); n > 0; n--) area[draw(CARD_AREA)] = (uint8_t)draw(256);
  }
  if (draw(512) == 0) {
    for (size_t i = 0; i < CARD_AREA; i++) area[i] = (uint8_t)draw(256);
  }
  remember(&area_memory);
  remember(&output_memory);
  remember(&text_memory);
  remember(&list_memory);
  uint64_t written = 77;
  int64_t difference = 77;
  uint32_t number = 0;
  switch (kind) {
    case COMMAND_OPEN:
      number = card_open(text, length, list, list_length, day, area, area_length, &written, &difference);
      break;
    case COMMAND_MESSAGE:
      number = card_message(text, length, area, area_length, output, room, &written, &difference);
      break;
    case COMMAND_TURN:
      number = card_turn(day, area, area_length, output, room, &written, &difference);
      break;
    case COMMAND_NEWER:
      number = card_newer(text, length, output, room, &written, &difference);
      break;
    case COMMAND_OLDER:
      number = card_older(text, length, output, room, &written, &difference);
      break;
  }
  if (!number_is_of(kind, number)) fail("a number that the call does not have", call);
  unchanged_outside(&text_memory, 0, 0, "the text was changed", call);
  unchanged_outside(&list_memory, 0, 0, "the holiday list was changed", call);
  if (number != 0) {
    if (written != 0 || difference != 0) fail("a refusal with bytes or a difference", call);
    unchanged_outside(&area_memory, 0, 0, "a refusal changed the area", call);
    unchanged_outside(&output_memory, 0, 0, "a refusal changed the output", call);
  } else {
    if (area_length < CARD_AREA && !is_move(kind)) fail("accepted with a short area", call);
    if (written > room) fail("more bytes than the room", call);
    unchanged_outside(&area_memory, 0, is_move(kind) ? 0 : CARD_AREA, "bytes that are not the engine's were changed", call);
    unchanged_outside(&output_memory, 0, written, "bytes behind the output were changed", call);
  }
  answered[number]++;
}

int main(int count, char **arguments) {
  if (count < 4) return 2;
  uint64_t calls = strtoull(arguments[1], NULL, 10);
  state = strtoull(arguments[2], NULL, 10) * 2654435761u + 1;
  for (int i = 3; i < count; i++) load(arguments[i]);
  if (command_count == 0) fail("no commands", 0);
  for (uint64_t call = 1; call <= calls; call++) one_call(call);
  printf("%" PRIu64 " calls:", calls);
  for (int i = 0; i < 32; i++) {
    if (answered[i]) printf(" %d x %" PRIu64, i, answered[i]);
  }
  printf("\n");
  return 0;
}
