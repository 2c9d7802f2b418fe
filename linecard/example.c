/* The smallest line card: opens an engine, hands the card a transfer and an order, turns to the next day and prints what the card writes.
 * The register, the messages and the days are those of document 01's listing. */
#include <stdio.h>

#include "card.h"

static uint8_t area[CARD_AREA];     /* the card's own between calls */
static uint8_t output[CARD_OUTPUT]; /* what a call writes */
static uint64_t written;
static int64_t difference;

static const char accounts[] =
    "BG80BNBG96611020345678\r\n"
    "BG56BNBG96613000000001,000000,999999\r\n"
    "END\r\n";

static const char holidays[] = "060101,060306,060501";

static const char transfer[] =
    "103,AAAABGSF,BNBGBGSD\r\n"
    ":20:T1\r\n"
    ":23B:CRED\r\n"
    ":32A:060302BGN100,00\r\n"
    ":50K:/BG33AAAA12311012345678\r\n"
    "BANKA A\r\n"
    ":52D:AAAA1231\r\n"
    "BANKA A\r\n"
    ":57D:BNBG9661\r\n"
    "BNB\r\n"
    ":59:/BG80BNBG96611020345678\r\n"
    "VREMENNA SMETKA NA MF\r\n"
    ":70:CENTRALIZIRANE\r\n"
    ":71A:OUR\r\n"
    ":72:/DTYPE/PORD\r\n"
    "/BAEREF/060302A0\r\n"
    "/CENTRB/\r\n"
    "-\r\n";

static const char order[] =
    "101,AAAABGSF,BNBGBGSD\r\n"
    ":20:D1\r\n"
    ":21:1\r\n"
    ":32B:BGN60,00\r\n"
    ":50H:/BG33AAAA12311012345678PAY000001\r\n"
    "PREDPRIATIE\r\n"
    ":52D:AAAA1231\r\n"
    "BANKA A\r\n"
    ":59:/BG56BNBG96613000000001\r\n"
    "POLUCHATEL\r\n"
    ":70:CENTRB060302\r\n"
    "BAEREF060302A1\r\n"
    "OSNOVANIE\r\n"
    ":21:2\r\n"
    ":32B:BGN54,00\r\n"
    ":50H:/BG33AAAA12311012345678PAY000001\r\n"
    "PREDPRIATIE\r\n"
    ":52D:AAAA1231\r\n"
    "BANKA A\r\n"
    ":59:/BG57BNBG96613000000001PAY000001\r\n"
    "POLUCHATEL\r\n"
    ":70:CENTRB060302\r\n"
    "BAEREF060302A2\r\n"
    "OSNOVANIE\r\n"
    "-\r\n";

/* A text without C's closing zero, as a slice. */
#define SLICE(text) (const uint8_t *)(text), sizeof(text) - 1

static uint32_t open_day(uint32_t day) {
  return card_open(SLICE(accounts), SLICE(holidays), day, area, sizeof area, &written, &difference);
}

static uint32_t take(const uint8_t *message, uint64_t length) {
  return card_message(message, length, area, sizeof area, output, sizeof output, &written, &difference);
}

static uint32_t turn_to(uint32_t day) {
  return card_turn(day, area, sizeof area, output, sizeof output, &written, &difference);
}

/* Does what an answer asks for, and tells whether the day goes on; docs/LINECARD.md says it for every number. */
static int done(uint32_t number) {
  if (number == CARD_REPEATED) return 1; /* the card has booked this message already */
  if (number != CARD_ACCEPTED) return 0; /* to the bank or the operator */
  for (uint64_t i = 0; i < written; i++) putchar(output[i]);
  return 1;
}

int main(void) {
  if (!done(open_day(60302))) return 1;
  if (!done(take(SLICE(transfer)))) return 1;
  if (!done(take(SLICE(order)))) return 1;
  if (!done(take(SLICE(order)))) return 1; /* the line repeats it: number 12 */
  if (!done(turn_to(60303))) return 1;
  return 0;
}
