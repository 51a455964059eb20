/* Holds amo.h to the library, which no proof does: sizes and places, and what the calls answer on cases worked out by hand, so that
   each phase, each code but 8, each field and each kind of access is met, and each call is linked by its name.

     header

   In all cases there are 3 jobs and 2 workers, and beta is 2. So the words 1 and 2 are announcements, 3 and 4 counts of claims,
   5 to 8 the row of worker 1, and 9 to 12 that of worker 2. The last line is 'N passed, M failed'. */
#include "amo.h"
#include <stdio.h>
#include <string.h>

#define AT(type, field, place) _Static_assert(offsetof(type, field) == (place), #field)
_Static_assert(sizeof(amo_givens_t) == 24 && sizeof(amo_next_t) == 48 && sizeof(amo_item_t) == 24, "sizes");
AT(amo_givens_t, jobs, 0);
AT(amo_givens_t, workers, 8);
AT(amo_givens_t, beta, 16);
AT(amo_next_t, access, 0);
AT(amo_next_t, phase, 4);
AT(amo_next_t, word, 8);
AT(amo_next_t, value, 16);
AT(amo_next_t, perform, 24);
AT(amo_next_t, doubt, 28);
AT(amo_next_t, claims, 32);
AT(amo_next_t, dones, 40);
AT(amo_item_t, access, 0);
AT(amo_item_t, word, 8);
AT(amo_item_t, value, 16);

enum { ROOM = 5, NOBODY = 0xff };
static const amo_givens_t givens = {3, 2, 2};
static int passed, failed;

static void count(const char *what, int holds) {
  holds ? passed++ : failed++;
  if (!holds)
    printf("header: FAILED: %s\n", what);
}

/* What a worker is told that has heard these numbers: access, phase, word, value, perform, doubt, claims, dones; and the items of
   its batch: access, word, value. All are numbers, not amo.h's names for them. */
typedef struct {
  const char *what;
  uint64_t worker, len, heard[8];
  amo_next_t next;
  uint64_t count;
  amo_item_t items[ROOM];
} told_t;

static const told_t told[] = {
    {"own announcement", 1, 0, {0}, {1, 0, 1, 0, 0, 0, 0, 0}, 3, {{1, 1, 0}, {1, 3, 0}, {3, 5, 8}}},
    {"own announcement of 2", 2, 0, {0}, {1, 0, 2, 0, 0, 0, 0, 0}, 3, {{1, 2, 0}, {1, 4, 0}, {3, 9, 12}}},
    {"own count", 1, 1, {0}, {1, 0, 3, 0, 0, 0, 0, 0}, 2, {{1, 3, 0}, {3, 5, 8}}},
    {"own row", 1, 2, {0}, {1, 0, 5, 0, 0, 0, 0, 0}, 1, {{3, 5, 8}}},
    {"own row, further", 1, 3, {3, 1, 3}, {1, 0, 6, 0, 0, 0, 0, 0}, 1, {{3, 6, 8}}},
    {"announces", 1, 3, {0}, {2, 1, 1, 1, 0, 0, 0, 0}, 3, {{2, 1, 1}, {1, 2, 0}, {3, 9, 12}}},
    {"announces what comes next", 1, 4, {1, 1, 1, 0}, {2, 1, 1, 2, 0, 0, 1, 1}, 3, {{2, 1, 2}, {1, 2, 0}, {3, 9, 12}}},
    {"tries", 1, 4, {0}, {1, 2, 2, 0, 0, 0, 0, 0}, 2, {{1, 2, 0}, {3, 9, 12}}},
    {"reads", 1, 5, {0}, {1, 3, 9, 0, 0, 0, 0, 0}, 1, {{3, 9, 12}}},
    {"reads further", 1, 6, {0, 0, 0, 0, 0, 3}, {1, 3, 10, 0, 0, 0, 0, 0}, 1, {{3, 10, 12}}},
    {"claims", 1, 6, {0}, {2, 4, 3, 1, 0, 0, 0, 0}, 1, {{2, 3, 1}}},
    {"performs", 1, 7, {0}, {2, 5, 5, 1, 1, 0, 1, 0}, 4, {{2, 5, 1}, {2, 1, 2}, {1, 2, 0}, {3, 9, 12}}},
    {"has filed", 1, 8, {0}, {2, 1, 1, 2, 0, 0, 1, 1}, 3, {{2, 1, 2}, {1, 2, 0}, {3, 9, 12}}},
    {"is in doubt", 1, 3, {3, 1, 0}, {2, 5, 5, 3, 0, 3, 1, 0}, 4, {{2, 5, 3}, {2, 1, 1}, {1, 2, 0}, {3, 9, 12}}},
    {"is over", 1, 5, {2, 2, 1, 2, 0}, {0, 6, 0, 0, 0, 0, 2, 2}, 0, {{0, 0, 0}}},
};

/* amo_next, amo_batch with room for all, and with room for one item, which is the first. */
static void try_told(const told_t *it) {
  amo_next_t next, next_too;
  amo_item_t items[ROOM], untouched;
  uint64_t found = 99, wanted = it->count ? 1 : 0;
  memset(&next, NOBODY, sizeof next);
  count(it->what, amo_next(&givens, it->worker, it->heard, it->len, &next) == 0 && !memcmp(&next, &it->next, sizeof next));
  for (size_t room = ROOM; room; room = room == ROOM ? 1 : 0) {
    memset(items, NOBODY, sizeof items), memset(&next_too, NOBODY, sizeof next_too), memset(&untouched, NOBODY, sizeof untouched);
    int holds = amo_batch(&givens, it->worker, it->heard, it->len, items, room, &found, &next_too) == 0;
    holds = holds && found == (room == 1 ? wanted : it->count) && !memcmp(&next_too, &it->next, sizeof next);
    for (uint64_t i = 0; i < ROOM; i++)
      holds = holds && !memcmp(&items[i], i < found ? &it->items[i] : &untouched, sizeof untouched);
    count(it->what, holds);
  }
}

/* The codes of amo_next, amo_batch and amo_leave, and that nothing is written. */
typedef struct {
  const char *what;
  amo_givens_t givens;
  uint64_t worker, len, heard[8];
  uint32_t of_next, of_leave;
} refused_t;

static const refused_t refused[] = {
    {"4097 jobs", {4097, 0, 2}, 1, 0, {0}, 1, 1},
    {"no workers", {3, 0, 2}, 1, 0, {0}, 2, 2},
    {"17 workers", {3, 17, 2}, 1, 0, {0}, 3, 3},
    {"beta below the workers", {3, 2, 1}, 3, 0, {0}, 4, 4},
    {"beta of 65536", {3, 2, 65536}, 3, 0, {0}, 5, 5},
    {"worker 3", {3, 2, 2}, 3, 3, {1, 2, 0}, 6, 6},
    {"worker 0", {3, 2, 2}, 0, 3, {1, 2, 0}, 6, 6},
    {"two claims and no entry", {3, 2, 2}, 1, 3, {1, 2, 0}, 7, 7},
    {"the announcement of a job 4", {3, 2, 2}, 1, 5, {0, 0, 0, 0, 4}, 7, 7},
    {"a store that gave 1", {3, 2, 2}, 1, 4, {0, 0, 0, 1}, 7, 7},
    {"more after the end", {3, 2, 2}, 1, 6, {2, 2, 1, 2, 0, 0}, 7, 7},
    {"leaves while it begins", {3, 2, 2}, 1, 2, {0}, 0, 9},
    {"leaves with a job in its hand", {3, 2, 2}, 1, 7, {0}, 0, 9},
    {"leaves with a job in doubt", {3, 2, 2}, 1, 3, {1, 1, 0}, 0, 9},
    {"leaves after the end", {3, 2, 2}, 1, 5, {2, 2, 1, 2, 0}, 0, 9},
};

static void try_refused(const refused_t *it) {
  amo_next_t next, before;
  amo_item_t item, item_before;
  uint64_t found = 99;
  memset(&next, NOBODY, sizeof next), memset(&before, NOBODY, sizeof before);
  memset(&item, NOBODY, sizeof item), memset(&item_before, NOBODY, sizeof item_before);
  int holds = amo_leave(&it->givens, it->worker, it->heard, it->len, &next) == it->of_leave;
  if (it->of_next != 0) {
    holds = holds && amo_next(&it->givens, it->worker, it->heard, it->len, &next) == it->of_next;
    holds = holds && amo_batch(&it->givens, it->worker, it->heard, it->len, &item, 1, &found, &next) == it->of_next;
  }
  count(it->what, holds && found == 99 && !memcmp(&next, &before, sizeof next) && !memcmp(&item, &item_before, sizeof item));
}

static void try_leaving(const char *what, uint64_t worker, size_t len, const uint64_t *heard, amo_next_t wanted) {
  amo_next_t next;
  memset(&next, NOBODY, sizeof next);
  count(what, amo_leave(&givens, worker, heard, len, &next) == 0 && !memcmp(&next, &wanted, sizeof next));
}

/* The numbers that stand in amo.h beside their names, and the words of the crew. */
static void try_numbers(void) {
  const amo_givens_t broken = {3, 2, 1}, many = {4096, 16, 65535};
  count("accesses", AMO_NOTHING == 0 && AMO_LOAD == 1 && AMO_STORE == 2 && AMO_LOAD_ROW == 3);
  count("phases", AMO_BEGINNING == 0 && AMO_ANNOUNCING == 1 && AMO_TRYING == 2 && AMO_READING == 3 && AMO_CLAIMING == 4 &&
                      AMO_HOLDING == 5 && AMO_OVER == 6 && AMO_LEFT == 7);
  count("codes", AMO_OK == 0 && AMO_TOO_MANY_JOBS == 1 && AMO_NO_WORKERS == 2 && AMO_TOO_MANY_WORKERS == 3 && AMO_BETA_LOW == 4 &&
                     AMO_BETA_HIGH == 5 && AMO_NO_SUCH_WORKER == 6 && AMO_BAD_HEARD == 7 && AMO_NO_MEMORY == 8 &&
                     AMO_MAY_NOT_LEAVE == 9);
  count("amo_words", amo_words(&givens) == 13 && amo_words(&many) == 16 * 4099 + 1 && amo_words(&broken) == 0);
  count("amo_bound", amo_bound(&givens) == 1 && amo_bound(&many) == 0 && amo_bound(&broken) == 0);
  count("amo_announcement_word", amo_announcement_word(&givens, 1) == 1 && amo_announcement_word(&givens, 2) == 2 &&
                                     amo_announcement_word(&givens, 3) == 0 && amo_announcement_word(&givens, 0) == 0);
  count("amo_claims_word", amo_claims_word(&givens, 1) == 3 && amo_claims_word(&givens, 2) == 4 &&
                               amo_claims_word(&givens, 3) == 0 && amo_claims_word(&broken, 1) == 0);
  count("amo_entry_word", amo_entry_word(&givens, 1, 1) == 5 && amo_entry_word(&givens, 1, 4) == 8 &&
                              amo_entry_word(&givens, 2, 1) == 9 && amo_entry_word(&givens, 2, 4) == 12 &&
                              amo_entry_word(&givens, 2, 5) == 0 && amo_entry_word(&givens, 1, 0) == 0);
}

int main(void) {
  const uint64_t heard[6] = {0};
  for (size_t i = 0; i < sizeof told / sizeof *told; i++)
    try_told(&told[i]);
  for (size_t i = 0; i < sizeof refused / sizeof *refused; i++)
    try_refused(&refused[i]);
  try_leaving("leaves", 2, 3, heard, (amo_next_t){2, 7, 2, 0, 0, 0, 0, 0});
  try_leaving("leaves before a claim", 1, 6, heard, (amo_next_t){2, 7, 1, 0, 0, 0, 0, 0});
  try_leaving("leaves after a filing", 1, 4, (uint64_t[]){1, 1, 1, 0}, (amo_next_t){2, 7, 1, 0, 0, 0, 1, 1});
  try_numbers();
  printf("%d passed, %d failed\n", passed, failed);
  return failed != 0;
}
