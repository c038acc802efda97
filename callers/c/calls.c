/* Each call once: on the example book, and where it is refused, which leaves everything that was lent. */
#include <stdio.h>
#include <string.h>

#include "tautlichen.h"

#define LENT 0xEE /* what stands in a lent buffer before a call */

static int failed = 0;

#define EXPECT(fact)                                                                                                          \
  do {                                                                                                                        \
    if (!(fact)) {                                                                                                            \
      printf("calls.c:%d: %s\n", __LINE__, #fact);                                                                            \
      failed = 1;                                                                                                             \
    }                                                                                                                         \
  } while (0)

/* Three stores, two actors, three steps: a send, its receipt, and a timeout that is refused with 7. */
static const uint8_t BOOK[] = {3, 2, 0, 5, 1, 6, 3, 0, 1, 0, 1, 0, 7, 0, 0, 0, 0, 0, 2, 0, 5, 0, 2};
static const char LISTING[] = "3 2 1 3 2\n0 0 1 0 -\n0 1 1 1 -\n";
static const char RESTED[] = "3 2 1 3 2\n0 0 5 0 1\n0 1 5 1 0\n";

static const char LINEAGE[] = "document\nprefix r <urn:runs:>\nentity(r:i0)\nactivity(r:a0,-,-)\n"
                              "wasGeneratedBy(r:i0,r:a0,-)\nendDocument\n";

static uint8_t answers[TAUTLICHEN_ANSWERS], text[TAUTLICHEN_PROVN], keys[TAUTLICHEN_KEYS], met, lookups;
static uint16_t len, count;

static void lend(void) {
  memset(answers, LENT, sizeof answers);
  memset(text, LENT, sizeof text);
  memset(keys, LENT, sizeof keys);
  len = count = met = lookups = LENT;
}

static int all_lent(const uint8_t *bytes, size_t n) {
  while (n > 0 && bytes[n - 1] == LENT)
    n--;
  return n == 0;
}

static int nothing_written(void) {
  return all_lent(answers, sizeof answers) && all_lent(text, sizeof text) && all_lent(keys, sizeof keys) && len == LENT &&
         count == LENT && met == LENT && lookups == LENT;
}

static void calls(void) {
  static const uint8_t numbers[] = {0, 0, 7, LENT};
  lend();
  EXPECT(tautlichen_run(BOOK, sizeof BOOK, answers, sizeof answers) == 0);
  EXPECT(memcmp(answers, numbers, sizeof numbers) == 0);
  lend();
  EXPECT(tautlichen_list(BOOK, sizeof BOOK, answers, sizeof answers, text, sizeof text, &len) == 0);
  EXPECT(memcmp(answers, numbers, sizeof numbers) == 0);
  EXPECT(len == strlen(LISTING) && memcmp(text, LISTING, len) == 0 && all_lent(text + len, sizeof text - len));
  EXPECT(tautlichen_drain(BOOK, sizeof BOOK, text, sizeof text, &len, &count) == 0);
  EXPECT(len == strlen(RESTED) && memcmp(text, RESTED, len) == 0 && count == 12);
  /* The setup, and then the example's send with the thirteen steps that bring it to rest. */
  static const uint8_t rested[] = {3, 2, 0, 5, 1, 6, 14, 0, 1, 0, 1, 0, 7, 0, 0, 0, 0, 0, 2, 0, 3, 0, 4, 0, 6,
                                   0, 0, 0, 17, 0, 7, 0, 0, 0, 8, 0, 3, 1, 4, 1, 6, 1, 0, 1, 17, 1, 7, 1, 0,
                                   1, 8, 1};
  EXPECT(tautlichen_walk(rested, sizeof rested, 0, keys, sizeof keys, &met, &lookups) == 0);
  EXPECT(met == 1 && lookups == 1 && keys[0] == 0 && all_lent(keys + 1, sizeof keys - 1));
  lend();
  EXPECT(tautlichen_walk(rested, sizeof rested, 0, keys, 0, &met, &lookups) == 14);
  EXPECT(tautlichen_lineage(rested, sizeof rested, 0, text, strlen(LINEAGE) - 1, &len) == 14);
  EXPECT(nothing_written());
  EXPECT(tautlichen_lineage(rested, sizeof rested, 0, text, strlen(LINEAGE), &len) == 0);
  EXPECT(len == strlen(LINEAGE) && memcmp(text, LINEAGE, len) == 0 && all_lent(text + len, sizeof text - len));
}

static void refusals(void) {
  lend();
  EXPECT(tautlichen_run(BOOK, sizeof BOOK - 1, answers, sizeof answers) == 10);
  EXPECT(tautlichen_run(BOOK, sizeof BOOK, answers, 2) == 12);
  EXPECT(tautlichen_list(BOOK, sizeof BOOK, answers, 2, text, 0, &len) == 12);
  EXPECT(tautlichen_list(BOOK, sizeof BOOK, answers, sizeof answers, text, strlen(LISTING) - 1, &len) == 14);
  EXPECT(tautlichen_drain(BOOK, sizeof BOOK, text, strlen(RESTED) - 1, &len, &count) == 14);
  EXPECT(tautlichen_walk(BOOK, sizeof BOOK, 0, keys, sizeof keys, &met, &lookups) == 13);
  EXPECT(tautlichen_walk(BOOK, sizeof BOOK, 1, keys, sizeof keys, &met, &lookups) == 2);
  EXPECT(tautlichen_lineage(BOOK, sizeof BOOK - 1, 0, text, sizeof text, &len) == 10);
  EXPECT(tautlichen_lineage(BOOK, sizeof BOOK, 0, text, 0, &len) == 13);
  EXPECT(tautlichen_lineage(BOOK, sizeof BOOK, 1, text, 0, &len) == 2);
  EXPECT(nothing_written());
}

/* Weights, a scaler and a forecast of bundle 7, all at rest; the scaler's bundle is one byte of the book. */
static void pairs(void) {
  static uint8_t pair[] = {
    3, 2, 0, 5, 1, 6, 42, 0, 1, 0, 1, 0, 7, 0, 0, 1, 0, 0, 1, 0, 1, 0, 7, 0, 0, 2, 0, 0, 2, 0, 2, 1,
    1, 1, 0, 1, 7, 0, 0, 3, 3, 0, 2, 2, 3, 0, 4, 0, 6, 0, 0, 0, 17, 0, 7, 0, 0, 0, 8, 0, 3, 0, 4, 0,
    6, 0, 1, 0, 17, 0, 7, 0, 1, 0, 8, 0, 3, 0, 4, 0, 6, 0, 2, 1, 17, 0, 7, 0, 2, 1, 8, 0, 3, 1, 4, 1,
    6, 1, 0, 1, 17, 1, 7, 1, 0, 1, 8, 1, 3, 1, 4, 1, 6, 1, 1, 1, 17, 1, 7, 1, 1, 1, 8, 1, 3, 1, 4, 1,
    6, 1, 2, 0, 17, 1, 7, 1, 2, 0, 8, 1};
  uint8_t passes = LENT;
  EXPECT(tautlichen_pair(pair, sizeof pair, 1, 2, &passes) == 0 && passes == 1);
  EXPECT(tautlichen_pair(pair, sizeof pair, 2, 2, &passes) == 0 && passes == 1);
  pair[22] = 8;
  EXPECT(tautlichen_pair(pair, sizeof pair, 1, 2, &passes) == 0 && passes == 0);
  EXPECT(tautlichen_pair(pair, sizeof pair, 2, 2, &passes) == 0 && passes == 0);
  passes = LENT;
  EXPECT(tautlichen_pair(pair, sizeof pair - 1, 3, 2, &passes) == 19);
  EXPECT(tautlichen_pair(pair, sizeof pair - 1, 1, 2, &passes) == 10);
  EXPECT(tautlichen_pair(pair, sizeof pair, 1, 3, &passes) == 2);
  EXPECT(tautlichen_pair(BOOK, sizeof BOOK, 1, 0, &passes) == 13);
  EXPECT(tautlichen_pair(pair, sizeof pair, 1, 0, &passes) == 20);
  EXPECT(passes == LENT);
}

int main(void) {
  calls();
  refusals();
  pairs();
  return failed;
}
