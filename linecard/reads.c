/* How many times the card reads the bytes of a message, and that the sum of its amounts costs no reading of its own (request 4).
 *
 * The card is compiled so that each of its loads is told to the functions below. It is handed messages with one amount in all their fields 32: an
 * MT103, whose amount is added to no other, and MT101 of one detail and of 16, accepted and refused by 15. In each of them every byte of an amount
 * must be read as often as in the MT103, and the amounts must be passed twice: by the search for line ends, and by the walk over the details. */
#include <stdint.h>
#include <stdio.h>
#include <string.h>

#include "card.h"

#define AMOUNT "059999999999,99"
#define AMOUNT_BYTES (sizeof AMOUNT - 1)
#define DETAILS 16

static const char REGISTER[] = "BG80BNBG96611020345678\r\nBG56BNBG96613000000001,000000,499999\r\nEND\r\n";

static uint8_t area[CARD_AREA], output[CARD_OUTPUT];
static uint8_t message[CARD_MESSAGE];
static size_t length;
static unsigned times[CARD_MESSAGE]; /* how many times each byte of the message was read */
static size_t amount_at[DETAILS];    /* where the amounts stand */
static int amounts;
static int last, passes; /* the amount that was read last, and how many times the amounts were passed */

/* ---- what the card loads */

/* A byte of the message was read. */
static void read_byte(size_t at) {
  times[at]++;
  for (int k = 0; k < amounts; k++) {
    if (at < amount_at[k] || at >= amount_at[k] + AMOUNT_BYTES) continue;
    if (passes == 0 || k < last) passes++;
    last = k;
  }
}

/* Some bytes were loaded, of the message or from elsewhere. */
static void loaded(const uint8_t *from, size_t size) {
  for (size_t k = 0; k < size; k++) {
    if (from + k >= message && from + k < message + length) read_byte((size_t)(from + k - message));
  }
}

void __sanitizer_cov_load1(const uint8_t *from) { loaded(from, 1); }
void __sanitizer_cov_load2(const uint8_t *from) { loaded(from, 2); }
void __sanitizer_cov_load4(const uint8_t *from) { loaded(from, 4); }
void __sanitizer_cov_load8(const uint8_t *from) { loaded(from, 8); }
void __sanitizer_cov_load16(const uint8_t *from) { loaded(from, 16); }
void __sanitizer_cov_trace_pc_guard(uint32_t *guard) { (void)guard; }
void __sanitizer_cov_trace_pc_guard_init(uint32_t *start, uint32_t *stop) { (void)start, (void)stop; }

/* ---- messages */

static void add(const char *text) {
  size_t n = strlen(text);
  memcpy(message + length, text, n);
  length += n;
}

static void add_amount(void) {
  amount_at[amounts++] = length;
  add(AMOUNT "\r\n");
}

static void begin(const char *type, const char *reference) {
  length = 0;
  amounts = 0;
  add(type);
  add(",AAAABGSF,BNBGBGSD\r\n:20:");
  add(reference);
  add("\r\n");
}

static void mt103(const char *reference) {
  begin("103", reference);
  add(":23B:CRED\r\n:32A:060302BGN");
  add_amount();
  add(":50K:/BG33AAAA12311012345678\r\nBANKA\r\n:52D:AAAA1231\r\nBANKA\r\n:57D:BNBG9661\r\nBNB\r\n:59:/BG80BNBG96611020345678\r\nSMETKA\r\n"
      ":70:CENTRALIZACIA\r\n:71A:OUR\r\n:72:/DTYPE/PORD\r\n/BAEREF/060302N1\r\n/CENTRB/\r\n-\r\n");
}

/* An MT101 of so many details to the register's account, with a payment code. */
static void mt101(const char *reference, int count, const char *code) {
  char field[24];
  begin("101", reference);
  for (int k = 0; k < count; k++) {
    snprintf(field, sizeof field, ":21:D%02d\r\n", k);
    add(field);
    add(":32B:BGN");
    add_amount();
    add(":50H:/BG33AAAA12311012345678PAY000001\r\nIME NA ZADALZHENOTO LITSE, AVTOR\r\n:52D:AAAA1231\r\nBANKA, KLON ZA OBSLUZHVANE, SOFIA\r\n"
        ":59:/BG56BNBG96613000000001PAY");
    add(code);
    add("\r\nPOLUCHATEL\r\n:70:CENTRB060302\r\nBAEREF060302N1\r\nOSNOVANIE\r\n");
  }
  add("-\r\n");
}

/* ---- calls */

static int opened(void) {
  uint64_t written;
  int64_t difference;
  return card_open((const uint8_t *)REGISTER, sizeof REGISTER - 1, (const uint8_t *)"", 0, 60302, area, sizeof area, &written, &difference) == 0;
}

/* Hands the message over and prints how often it was read; is the answer the one expected? */
static int handed(const char *what, uint32_t expected) {
  uint64_t written;
  int64_t difference;
  unsigned total = 0;
  memset(times, 0, sizeof times);
  last = passes = 0;
  uint32_t number = card_message(message, length, area, sizeof area, output, sizeof output, &written, &difference);
  for (size_t k = 0; k < length; k++) total += times[k];
  printf("%-31s %6u %6zu %6u %6.1f %6d\n", what, number, length, total, (double)total / (double)length, passes);
  return number == expected;
}

/* Is every byte of the amounts read so often, and are they passed twice? */
static int read_so_often(const unsigned *alone) {
  for (int k = 0; k < amounts; k++) {
    if (memcmp(times + amount_at[k], alone, AMOUNT_BYTES * sizeof *alone) != 0) return 0;
  }
  return amounts == 1 || passes == 2;
}

int main(void) {
  unsigned alone[AMOUNT_BYTES];
  printf("%-31s %6s %6s %6s %6s %6s\n", "message", "answer", "bytes", "reads", "a byte", "passes");
  mt103("T1");
  int good = opened() && handed("MT103", 0);
  memcpy(alone, times + amount_at[0], sizeof alone);
  mt101("D1", 1, "000001");
  good = good && opened() && handed("MT101, 1 detail credited", 0) && read_so_often(alone);
  mt101("D2", DETAILS, "999999");
  good = good && opened() && handed("MT101, 16 details returned", 0) && read_so_often(alone);
  mt101("D3", DETAILS, "000001");
  good = good && opened() && handed("MT101, 16 details credited", 0) && read_so_often(alone);
  mt101("D4", DETAILS, "000001");
  good = good && handed("MT101, 16 more, over the limit", 15) && read_so_often(alone);
  printf("the bytes of an amount:");
  for (size_t k = 0; k < AMOUNT_BYTES; k++) printf(" %u", alone[k]);
  printf(" reads in the MT103%s\n", good ? ", and so in each of the others" : "; the last message is answered or read otherwise");
  return !good;
}
