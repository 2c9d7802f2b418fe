/* The reconciliation card's calls, as the line card makes them.
 *
 * A slice is a pointer and a length; lengths and counts have 64 bits on every machine.
 * The areas handed to one call must not overlap; a length of 0 still wants a pointer that is not null.
 * Each call answers 0 (accepted) or the number of one refusal, and sets `written` and `difference`.
 * A refusal sets both to 0 and changes no byte of area or output. Output behind the bytes written stays,
 * and so do the bytes of the area behind the first CARD_AREA.
 */
#ifndef CARD_H
#define CARD_H

#include <stdint.h>

/* The engine stands in the first CARD_AREA bytes of the area between calls. */
#define CARD_AREA 6144

/* A message has at most CARD_MESSAGE bytes, and a call writes fewer than CARD_OUTPUT. A register has at most CARD_TEXT: 40 account lines and
 * 40 code lines. A holiday list has at most CARD_HOLIDAYS: 60 dates. */
#define CARD_MESSAGE 4096
#define CARD_OUTPUT 32768
#define CARD_TEXT 2949
#define CARD_HOLIDAYS 419

enum {
  CARD_ACCEPTED = 0,
  /* stopped by the input */
  CARD_FRAME = 1,        /* length, line end, first line's form or closing line */
  CARD_ADDRESS = 2,      /* type or receiver */
  CARD_FORM = 3,         /* a field's order or form, or a date that doesn't exist */
  CARD_DETAILS = 4,      /* more than 16 details */
  CARD_REFERENCE = 5,    /* a reference with a slash out of place, or one field 21 twice */
  CARD_AMOUNT = 6,       /* currency not BGN, or amount 0 */
  CARD_ACCOUNT = 7,      /* not the temporary account, or a foreign payer */
  CARD_DATES = 8,        /* details of different centralisation dates */
  CARD_REGISTER = 9,     /* the register */
  CARD_ENGINE = 10,      /* the area is too short, or holds no engine within the limits */
  /* stopped by the state */
  CARD_DAY = 11,         /* MT103 not dated today, MT101 dated after today, turn to no later day */
  CARD_REPEATED = 12,    /* this sender's field 20 was accepted today */
  CARD_MESSAGES = 13,    /* 64 messages were accepted today */
  CARD_POSITIONS = 14,   /* 32 positions are open, none of them this one */
  CARD_LIMIT = 15,       /* a total over its limit */
  CARD_ROOM = 16,        /* the output is shorter than this call's bytes */
  /* of an opening or a turn */
  CARD_CLOSED = 17,      /* the day is a Saturday, a Sunday or a listed holiday */
  CARD_LIST = 18,        /* the holiday list */
  /* of a register that is moved to the older form */
  CARD_CODES = 19        /* code lines stand in the way */
};

/* Opens an engine with a register, a holiday list and a day (six digits as a number: 060302 is 60302). The register has a line with the temporary
 * account, up to 40 lines `IBAN,low,high`, behind them up to 40 lines `code,IBAN`, and a last line `END`, each ended by CR LF. The list has dates of six
 * digits, each later than the last, with a comma between two and nothing else; no holidays are a length of 0. The engine keeps both until the next
 * accepted opening. */
uint32_t card_open(const uint8_t *text, uint64_t text_length, const uint8_t *list, uint64_t list_length, uint32_t day,
                   uint8_t *area, uint64_t area_length, uint64_t *written, int64_t *difference);

/* Takes an MT103 or MT101; the difference is its position's transferred minus detailed. */
uint32_t card_message(const uint8_t *message, uint64_t message_length, uint8_t *area, uint64_t area_length,
                      uint8_t *output, uint64_t output_length, uint64_t *written, int64_t *difference);

/* Turns to a later banking day; the difference is refunded minus collected. */
uint32_t card_turn(uint32_t day, uint8_t *area, uint64_t area_length, uint8_t *output, uint64_t output_length,
                   uint64_t *written, int64_t *difference);

/* Writes a register of the older form, which has no code lines and no `END`, in the form that an opening takes: the same bytes and `END`. */
uint32_t card_newer(const uint8_t *text, uint64_t text_length, uint8_t *output, uint64_t output_length, uint64_t *written, int64_t *difference);

/* Writes a register that an opening takes in the older form: the same bytes without `END`. It must have no code lines. */
uint32_t card_older(const uint8_t *text, uint64_t text_length, uint8_t *output, uint64_t output_length, uint64_t *written, int64_t *difference);

#endif
