/* Random calls: a code, or an answer within its limits, and never a crash.

     fuzz CALLS SEED

   A quarter of the lists are such as a process can hear, some of them with one number changed; the others are random, some nearly
   all 0. Givens and workers are sometimes wild. What amo_next, amo_batch and amo_leave answer of one list has to agree. The last
   line says how often each code came and each phase, each of which has to. */
#include "amo.h"
#include <stdio.h>
#include <stdlib.h>
#include <string.h>

enum { ROOM = 34, LONGEST = 60, UNTOUCHED = 0x5a };
static uint64_t state;

static uint64_t draw(void) {
  state ^= state << 13;
  state ^= state >> 7;
  state ^= state << 17;
  return state;
}

static uint64_t below(uint64_t n) { return draw() % n; }

static uint64_t wild(uint64_t tame) { return below(50) ? tame : draw(); }

static int is_within(const amo_next_t *next, const amo_givens_t *givens) {
  uint64_t words = amo_words(givens);
  if (next->phase > AMO_LEFT || next->perform > givens->jobs || next->doubt > givens->jobs || (next->perform && next->doubt))
    return 0;
  if ((next->perform || next->doubt) != (next->phase == AMO_HOLDING))
    return 0;
  if (next->claims != next->dones + (next->phase == AMO_HOLDING) || next->dones > givens->jobs)
    return 0;
  switch (next->access) {
  case AMO_NOTHING:
    return next->phase == AMO_OVER && next->word == 0 && next->value == 0;
  case AMO_LOAD:
    return next->word > 0 && next->word < words && next->value == 0;
  case AMO_STORE:
    return next->word > 0 && next->word < words && next->value <= givens->jobs && !next->value == (next->phase == AMO_LEFT);
  default:
    return 0;
  }
}

static int is_item(const amo_item_t *item, const amo_givens_t *givens, int loads_before) {
  uint64_t words = amo_words(givens);
  if (item->word == 0 || item->word >= words)
    return 0;
  if (item->access == AMO_STORE)
    return !loads_before && item->value > 0 && item->value <= givens->jobs;
  if (item->access == AMO_LOAD)
    return item->value == 0;
  return item->access == AMO_LOAD_ROW && item->word <= item->value && item->value < words;
}

/* Returns whether the first item of a batch is the access of amo_next. */
static int is_first(const amo_item_t *item, const amo_next_t *next) {
  if (item->access == AMO_STORE)
    return next->access == AMO_STORE && item->word == next->word && item->value == next->value;
  return next->access == AMO_LOAD && item->word == next->word;
}

/* A call, and what amo_next answered. */
typedef struct {
  amo_givens_t givens;
  uint64_t worker, heard[LONGEST];
  size_t len;
  amo_next_t next;
  uint32_t code;
} asked_t;

static void ask(asked_t *it) {
  memset(&it->next, UNTOUCHED, sizeof it->next);
  it->code = amo_next(&it->givens, it->worker, it->heard, it->len, &it->next);
}

/* Returns whether the values of amo_next are within their limits, or nothing was written if it returned none. */
static int is_answer(const asked_t *it) {
  amo_next_t untouched;
  memset(&untouched, UNTOUCHED, sizeof untouched);
  return it->code == AMO_OK ? is_within(&it->next, &it->givens) : !memcmp(&it->next, &untouched, sizeof untouched);
}

/* A list that is as long as it may be, or shorter. */
static void hear(asked_t *it) {
  size_t len = below(LONGEST);
  int zeros = below(2) == 0;
  for (it->len = 0; it->len < len; it->len++)
    it->heard[it->len] = below(zeros ? 12 : 3) ? 0 : below(20) ? below(21) : draw();
}

static void hear_in_order(asked_t *it) {
  size_t len = below(LONGEST);
  it->len = 0;
  it->givens.workers = 1 + below(4);
  it->givens.beta = it->givens.workers + below(3);
  it->worker = 1 + below(it->givens.workers);
  for (ask(it); it->len < len && it->code == AMO_OK && it->next.access != AMO_NOTHING; ask(it))
    it->heard[it->len++] = it->next.access == AMO_STORE || below(3) ? 0 : below(it->givens.jobs + 1);
  if (it->len && below(4) == 0)
    it->heard[below(it->len)] = below(21);
}

/* Returns whether amo_batch answers as amo_next did, its items are within their limits, and places beyond them are untouched. */
static int is_batch(const asked_t *it) {
  amo_item_t items[ROOM], untouched;
  amo_next_t same;
  uint64_t count = 77, room = below(ROOM + 1);
  memset(items, UNTOUCHED, sizeof items), memset(&untouched, UNTOUCHED, sizeof untouched);
  if (amo_batch(&it->givens, it->worker, it->heard, it->len, items, room, &count, &same) != it->code)
    return 0;
  uint64_t written = it->code == AMO_OK ? count : 0;
  int holds = it->code == AMO_OK ? !memcmp(&same, &it->next, sizeof same) && count <= room : count == 77, loads = 0;
  if (it->code == AMO_OK && room)
    holds = holds && (count ? is_first(&items[0], &it->next) : it->next.access == AMO_NOTHING);
  for (uint64_t i = 0; i < ROOM && holds; i++) {
    holds = i < written ? is_item(&items[i], &it->givens, loads) : !memcmp(&items[i], &untouched, sizeof untouched);
    loads |= items[i].access != AMO_STORE;
  }
  return holds;
}

/* Returns whether amo_leave answers as it must after this answer of amo_next. */
static int is_leave(const asked_t *it) {
  amo_next_t leaving;
  uint32_t answer = amo_leave(&it->givens, it->worker, it->heard, it->len, &leaving);
  if (it->code != AMO_OK)
    return answer == it->code;
  if (it->next.phase == AMO_BEGINNING || it->next.phase >= AMO_HOLDING)
    return answer == AMO_MAY_NOT_LEAVE;
  return answer == AMO_OK && leaving.phase == AMO_LEFT && leaving.access == AMO_STORE && leaving.claims == it->next.claims &&
         leaving.word == amo_announcement_word(&it->givens, it->worker) && is_within(&leaving, &it->givens);
}

int main(int argc, char **argv) {
  if (argc != 3)
    return fputs("usage: fuzz CALLS SEED\n", stderr), 2;
  long codes[AMO_BAD_HEARD + 1] = {0}, phases[AMO_LEFT + 1] = {0}, wrong = 0;
  state = strtoull(argv[2], NULL, 10) * 2 + 1;
  for (long calls = strtol(argv[1], NULL, 10); calls > 0; calls--) {
    asked_t it = {.givens = {wild(below(20)), wild(below(5)), wild(below(7))}, .worker = wild(below(5))};
    below(4) ? hear(&it) : hear_in_order(&it);
    ask(&it);
    if (it.code > AMO_BAD_HEARD) {
      wrong++;
      continue;
    }
    codes[it.code]++;
    if (it.code == AMO_OK && it.next.phase <= AMO_LEFT)
      phases[it.next.phase]++;
    wrong += !is_answer(&it) || !is_batch(&it) || !is_leave(&it);
  }
  for (int code = 0; code <= AMO_BAD_HEARD; code++)
    printf("%scode %d: %ld", code ? ", " : "", code, codes[code]), wrong += !codes[code];
  for (int phase = 0; phase <= AMO_OVER; phase++)
    printf(", phase %d: %ld", phase, phases[phase]), wrong += !phases[phase];
  printf(", wrong: %ld\n", wrong);
  return wrong != 0;
}
