/* The line card on the emulated controller: replays a day as linecard/replay.c does, each call on the card's own stack.
 *
 * It reads the file `input` and writes `output`, the bytes that the replay program prints, and `figures`, a line for each call:
 * call, number answered, length of its text, bytes written, deepest stack, instructions. The area begins as the file `area` where there is one,
 * else as zeros, and is left in the file `left`. The first word the program is given is the room of the output. With a second word
 * `damaged` the last call is made again and again, each time with another byte of the area changed, and those that answer 10 have a line too.
 */
#include <string.h>

#include "card.h"
#include "commands.h"
#include "host.h"

/* The card's own RAM: the linker script places these. */
extern uint8_t card_stack[], card_stack_top[], card_area[];

/* Everything of the line card is in other memory. */
static uint8_t input[1 << 20], output[CARD_OUTPUT], before[CARD_AREA];
static struct command command;
static struct {
  uint64_t room, written;
  int64_t difference;
  uint32_t number, depth, instructions;
} call;
static int output_file, figures_file;
static uint32_t instructions_of_nothing;

static void nothing(void) {}

static void call_open(void) {
  call.number = card_open(command.text, command.length, command.list, command.list_length, command.day, card_area, CARD_AREA, &call.written,
                          &call.difference);
}

static void call_message(void) {
  call.number = card_message(command.text, command.length, card_area, CARD_AREA, output, call.room, &call.written, &call.difference);
}

static void call_turn(void) {
  call.number = card_turn(command.day, card_area, CARD_AREA, output, call.room, &call.written, &call.difference);
}

static void call_newer(void) {
  call.number = card_newer(command.text, command.length, output, call.room, &call.written, &call.difference);
}

static void call_older(void) {
  call.number = card_older(command.text, command.length, output, call.room, &call.written, &call.difference);
}

static void (*const calls[])(void) = {
    [COMMAND_OPEN] = call_open, [COMMAND_MESSAGE] = call_message, [COMMAND_TURN] = call_turn, [COMMAND_NEWER] = call_newer, [COMMAND_OLDER] = call_older};
static const char *const names[] = {
    [COMMAND_OPEN] = "open", [COMMAND_MESSAGE] = "message", [COMMAND_TURN] = "turn", [COMMAND_NEWER] = "newer", [COMMAND_OLDER] = "older"};

#define PAINT 0xa5

/* Runs a function on the painted stack, counting its instructions, and sees how far the paint is gone. */
static void measured(void (*function)(void)) {
  size_t size = (size_t)(card_stack_top - card_stack), kept = 0;
  memset(card_stack, PAINT, size);
  host_count_from_here();
  on_card_stack(function, card_stack_top);
  call.instructions = host_counted() - instructions_of_nothing;
  while (kept < size && card_stack[kept] == PAINT) kept++;
  call.depth = (uint32_t)(size - kept);
}

static void print_text(int file, const char *text) {
  size_t n = 0;
  while (text[n]) n++;
  host_write(file, (const uint8_t *)text, n);
}

static void print_number(int file, uint64_t value, const char *behind) {
  uint8_t digits[20];
  size_t at = sizeof digits;
  do {
    digits[--at] = (uint8_t)('0' + value % 10);
    value /= 10;
  } while (value > 0);
  host_write(file, digits + at, sizeof digits - at);
  print_text(file, behind);
}

static void print_answer(void) {
  print_number(output_file, call.number, call.difference < 0 ? ",-" : ",");
  print_number(output_file, call.difference < 0 ? 0 - (uint64_t)call.difference : (uint64_t)call.difference, "\r\n");
  host_write(output_file, output, call.written);
}

static void print_figures(const char *name) {
  print_text(figures_file, name);
  print_text(figures_file, ",");
  print_number(figures_file, call.number, ",");
  print_number(figures_file, command.length, ",");
  print_number(figures_file, call.written, ",");
  print_number(figures_file, call.depth, ",");
  print_number(figures_file, call.instructions, "\n");
}

/* The last call again with one byte of the area changed, at places all over it and at its last byte. */
static void make_damaged_calls(void) {
  memcpy(before, card_area, CARD_AREA);
  for (size_t step = 0; step <= CARD_AREA / 61; step++) {
    memcpy(card_area, before, CARD_AREA);
    card_area[CARD_AREA - 1 - step * 61] ^= 0x55;
    measured(calls[command.kind]);
    if (call.number == CARD_ENGINE) print_figures("damaged");
  }
}

/* The digits that the words begin with behind the program's name, as the room, and whether `damaged` follows. */
static int read_words(void) {
  char words[256];
  const char *w = words;
  host_words(words, sizeof words);
  while (*w && *w != ' ') w++;
  while (*w == ' ') w++;
  for (call.room = 0; *w >= '0' && *w <= '9'; w++) call.room = call.room * 10 + (uint64_t)(*w - '0');
  if (call.room > sizeof output) host_end("more room than the line card has\n", 2);
  while (*w == ' ') w++;
  return *w == 'd';
}

void line_card(void) {
  host_faults_where_not_aligned();
  int damaged = read_words();
  size_t size = host_read(host_open_to_read("input"), input, sizeof input), at = 0;
  if (size == sizeof input) host_end("more input than the line card has room for\n", 2);
  output_file = host_open_to_write("output");
  figures_file = host_open_to_write("figures");
  memset(card_area, 0, CARD_AREA);
  if (host_has("area")) host_read(host_open_to_read("area"), card_area, CARD_AREA);
  measured(nothing);
  instructions_of_nothing = call.instructions;
  while (next_command(input, size, &at, &command)) {
    call.written = 0;
    call.difference = 0;
    measured(calls[command.kind]);
    print_answer();
    print_figures(names[command.kind]);
  }
  host_write(host_open_to_write("left"), card_area, CARD_AREA);
  if (damaged) make_damaged_calls();
  host_end(0, 0);
}
