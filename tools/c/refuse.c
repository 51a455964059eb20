/* Refuses the library's requests for memory, each in turn alone, and each with all after it. The call has to answer code 8 and
   write nothing, or what it answers with all memory; and it has to give back all that it took. How often a
   call asks for memory, and for how many bytes, hangs on the givens alone, however long the list is. Of a
   list that can't be amo_batch asks for none for its items.

     refuse

   It is linked with --wrap=malloc, --wrap=realloc and --wrap=free. The last line says how many requests were refused. */
#include "amo.h"
#include <stdio.h>
#include <stdlib.h>
#include <string.h>

void *__real_malloc(size_t size);
void *__real_realloc(void *old, size_t size);
void __real_free(void *old);
void *__wrap_malloc(size_t size);
void *__wrap_realloc(void *old, size_t size);
void __wrap_free(void *old);

/* How many requests come before the next that is refused, or negative; how many there were, for how many
   bytes, and were refused; how many blocks are held. */
static long until = -1, requests, bytes, refusals, held;
static int all_after; /* whether all requests after one that is refused are refused too */

static int is_refused(size_t size) {
  int refuses = until == 0;
  requests++;
  bytes += (long)size;
  if (until > 0 || (until == 0 && !all_after))
    until--;
  refusals += refuses;
  return refuses;
}

void *__wrap_malloc(size_t size) {
  void *block = is_refused(size) ? NULL : __real_malloc(size);
  held += block != NULL;
  return block;
}

void *__wrap_realloc(void *old, size_t size) {
  void *block = is_refused(size) ? NULL : __real_realloc(old, size);
  held += block != NULL && old == NULL;
  return block;
}

void __wrap_free(void *old) {
  held -= old != NULL;
  __real_free(old);
}

typedef struct {
  amo_next_t next;
  amo_item_t items[7];
  uint64_t count;
} written_t;

enum { NEXT, LEAVE, BATCH, CALLS };

static uint32_t call(int which, const uint64_t *heard, size_t len, written_t *to) {
  static const amo_givens_t givens = {100, 3, 3};
  memset(to, 0x5a, sizeof *to);
  if (which == BATCH)
    return amo_batch(&givens, 1, heard, len, to->items, 7, &to->count, &to->next);
  return (which == LEAVE ? amo_leave : amo_next)(&givens, 1, heard, len, &to->next);
}

/* Returns how often a call requests memory, and for how many bytes. */
typedef struct {
  long requests, bytes;
} asked_t;

static int are_same(asked_t one, asked_t other) {
  return one.requests == other.requests && one.bytes == other.bytes;
}

/* Returns the requests of this call for this list. */
static asked_t requests_of(int which, const uint64_t *heard, size_t len) {
  written_t found;
  asked_t before = {requests, bytes};
  until = -1;
  call(which, heard, len, &found);
  return (asked_t){requests - before.requests, bytes - before.bytes};
}

/* Refuses each request of this call; how many answers were wrong. */
static long refuse_each(int which, const uint64_t *heard, size_t len) {
  written_t untouched, wanted, found;
  memset(&untouched, 0x5a, sizeof untouched);
  long wrong = 0, before = held;
  until = -1;
  uint32_t code = call(which, heard, len, &wanted);
  for (long place = 0;; place++) {
    long refused_before = refusals;
    until = place;
    uint32_t answer = call(which, heard, len, &found);
    int was_refused = refusals > refused_before;
    until = -1;
    const written_t *right = answer == AMO_NO_MEMORY && was_refused ? &untouched : &wanted;
    wrong += held != before || memcmp(&found, right, sizeof found) || (right == &wanted && answer != code);
    if (!was_refused)
      return wrong;
  }
}

int main(void) {
  /* Nothing heard, to announce, a job in doubt, in the middle of an attempt, a job in hand; three long lists;
     a word that can't be, and a long list with it. */
  enum { LISTS = 10, SPOILED = 8 };
  static const uint64_t zeros[500], doubted[] = {3, 2, 2, 0}, spoiled[1000] = {1, 2, 0};
  static const uint64_t *const heard[LISTS] = {zeros, zeros, doubted, zeros,   zeros,
                                               zeros, zeros, zeros,   spoiled, spoiled};
  static const size_t lens[LISTS] = {0, 3, 4, 5, 8, 100, 333, 500, 3, 1000};
  long wrong = 0;
  asked_t asked = requests_of(NEXT, zeros, 0), for_batch = requests_of(BATCH, zeros, 0);
  written_t found;
  for (int list = 0; list < LISTS; list++) {
    int can_be = list < SPOILED;
    wrong += call(NEXT, heard[list], lens[list], &found) != (can_be ? AMO_OK : AMO_BAD_HEARD);
    for (int which = 0; which < CALLS; which++) {
      asked_t found_asked = requests_of(which, heard[list], lens[list]);
      wrong += !are_same(found_asked, which == BATCH && can_be ? for_batch : asked);
    }
  }
  for (all_after = 0; all_after < 2; all_after++)
    for (int list = 0; list < LISTS; list++)
      for (int which = 0; which < CALLS; which++)
        wrong += refuse_each(which, heard[list], lens[list]);
  printf("%ld requests refused, %ld answers wrong\n", refusals, wrong);
  return wrong != 0 || refusals == 0;
}
