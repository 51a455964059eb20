/* Calls at each number of jobs and workers, and on lists of each length: no contract says that memory is really wanting where a call
   answers so. What has to be told follows from the numbers.

     sizes

   First, a worker that has loaded its own words, all 0: it announces a job, by its share of the list, and then reads what each other
   worker has announced and filed; or it has ended, where there are fewer jobs than beta. Then a worker alone, with lists of zeros: after
   its own words each three accesses announce, claim and file a job, in their order. Last, many lengths of
   lists for many givens: no call reports a want of memory, and a list that no process can hear is refused
   as such, however long it is. The last line says how many lists were tried. */
#include "amo.h"
#include <stdio.h>
#include <string.h>

enum { ROOM = 33, JOBS = 4096, EACH_BELOW = 130, LONGEST = 4098 };

static long tried, wrong;

/* The answers that the three calls must give to one list. */
typedef struct {
  amo_givens_t givens;
  uint64_t worker, len, count;
  amo_next_t next, leaving;
  uint32_t left;
  amo_item_t items[ROOM];
} case_t;

static const uint64_t zeros[3 + 3 * JOBS + 1];

static void count(const char *call, const case_t *it, int holds) {
  wrong += !holds;
  if (!holds && wrong < 10)
    printf("sizes: FAILED: %s: %llu jobs, worker %llu of %llu, %llu heard\n", call, (unsigned long long)it->givens.jobs,
           (unsigned long long)it->worker, (unsigned long long)it->givens.workers, (unsigned long long)it->len);
}

static void try_case(const case_t *it) {
  amo_next_t next, leaving, same;
  amo_item_t items[ROOM];
  uint64_t found = 99;
  memset(&next, 0, sizeof next), memset(&leaving, 0, sizeof leaving), memset(items, 0, sizeof items);
  uint32_t code = amo_next(&it->givens, it->worker, zeros, it->len, &next);
  count("amo_next", it, code == AMO_OK && !memcmp(&next, &it->next, sizeof next));
  code = amo_leave(&it->givens, it->worker, zeros, it->len, &leaving);
  count("amo_leave", it, code == it->left && !memcmp(&leaving, &it->leaving, sizeof leaving));
  code = amo_batch(&it->givens, it->worker, zeros, it->len, items, ROOM, &found, &same);
  int holds = code == AMO_OK && !memcmp(&same, &next, sizeof same) && found == it->count;
  count("amo_batch", it, holds && !memcmp(items, it->items, sizeof items));
  tried++;
}

static void add(case_t *it, uint64_t access, uint64_t word, uint64_t value) {
  it->items[it->count++] = (amo_item_t){access, word, value};
}

/* The store that comes next, and in its phase what the worker may do. */
static void told(case_t *it, uint32_t phase, uint64_t word, uint64_t value, uint64_t claims, uint64_t dones) {
  it->next = (amo_next_t){AMO_STORE, phase, word, value, phase == AMO_HOLDING ? (uint32_t)value : 0, 0, claims, dones};
  it->left = phase == AMO_HOLDING ? AMO_MAY_NOT_LEAVE : AMO_OK;
  if (it->left == AMO_OK)
    it->leaving = (amo_next_t){AMO_STORE, AMO_LEFT, it->worker, 0, 0, 0, claims, dones};
  add(it, AMO_STORE, word, value);
}

static void ended(case_t *it, uint64_t dones) {
  it->next = (amo_next_t){AMO_NOTHING, AMO_OVER, 0, 0, 0, 0, dones, dones};
  it->left = AMO_MAY_NOT_LEAVE;
}

static void try_first(uint64_t jobs, uint64_t workers, uint64_t p, uint64_t beta) {
  case_t it = {.givens = {jobs, workers, beta}, .worker = p, .len = 3};
  if (jobs < beta) {
    ended(&it, 0);
  } else {
    uint64_t spare = jobs - (workers - 1);
    told(&it, AMO_ANNOUNCING, p, 1 + (spare >= workers ? (p - 1) * spare / workers : p - 1), 0, 0);
    for (uint64_t q = 1; q <= workers; q++)
      if (q != p)
        add(&it, AMO_LOAD, q, 0);
    for (uint64_t q = 1; q <= workers; q++)
      if (q != p)
        add(&it, AMO_LOAD_ROW, 2 * workers + (q - 1) * (jobs + 1) + 1, 2 * workers + q * (jobs + 1));
  }
  try_case(&it);
}

static void try_alone(uint64_t jobs, uint64_t len) {
  case_t it = {.givens = {jobs, 1, 1}, .worker = 1, .len = len, .left = AMO_MAY_NOT_LEAVE};
  uint64_t job = len < 3 ? 0 : (len - 3) / 3 + 1;
  if (len < 3) {
    it.next = (amo_next_t){AMO_LOAD, AMO_BEGINNING, len + 1, 0, 0, 0, 0, 0};
    for (uint64_t word = len + 1; word < 3; word++)
      add(&it, AMO_LOAD, word, 0);
    add(&it, AMO_LOAD_ROW, 3, 3 + jobs);
  } else if (job > jobs) {
    ended(&it, jobs);
  } else if (len % 3 == 0) {
    told(&it, AMO_ANNOUNCING, 1, job, job - 1, job - 1);
  } else if (len % 3 == 1) {
    told(&it, AMO_CLAIMING, 2, job, job - 1, job - 1);
  } else {
    told(&it, AMO_HOLDING, 2 + job, job, job, job - 1);
    if (job < jobs)
      add(&it, AMO_STORE, 1, job + 1);
  }
  try_case(&it);
}

/* The code that all three calls return of a list, or AMO_NO_MEMORY if they don't agree. */
static uint32_t code_of(const amo_givens_t *givens, uint64_t p, const uint64_t *heard, size_t len) {
  amo_next_t next;
  amo_item_t items[ROOM];
  uint64_t found;
  uint32_t code = amo_next(givens, p, heard, len, &next);
  uint32_t left = amo_leave(givens, p, heard, len, &next);
  uint32_t batch = amo_batch(givens, p, heard, len, items, ROOM, &found, &next);
  int agree = batch == code && (left == code || (code == AMO_OK && left == AMO_MAY_NOT_LEAVE));
  return agree ? code : AMO_NO_MEMORY;
}

/* A list of zeros, and one whose last number is no job: the code of the first is that of a list that
   can be heard or of one that can't, and the second can't. */
static void try_length(const amo_givens_t *givens, uint64_t p, size_t len) {
  static uint64_t heard[LONGEST];
  case_t it = {.givens = *givens, .worker = p, .len = len};
  uint32_t code = code_of(givens, p, heard, len);
  count("a list of zeros", &it, code == AMO_OK || (len > 3 && code == AMO_BAD_HEARD));
  if (len > 3) {
    heard[len - 1] = UINT64_MAX;
    count("a list that can't be", &it, code_of(givens, p, heard, len) == AMO_BAD_HEARD);
    heard[len - 1] = 0;
  }
  tried++;
}

/* Returns whether lists of this length are tried beyond the small ones: those next to multiples of 200 and of
   256, and the multiples of 97, as tests/amo_test_sizes has it. */
static int is_tried(size_t len) {
  return (len + 2) % 200 < 5 || (len + 2) % 256 < 5 || len % 97 == 0;
}

static void try_lengths(uint64_t jobs, uint64_t workers) {
  for (uint64_t p = 1; p <= workers; p++)
    for (uint64_t beta = workers; beta <= workers + 1; beta++) {
      amo_givens_t givens = {jobs, workers, beta};
      for (size_t len = 0; len < EACH_BELOW; len++)
        try_length(&givens, p, len);
      int is_first_or_last = (p == 1 || p == workers) && beta == workers;
      for (size_t len = EACH_BELOW; len <= LONGEST && is_first_or_last; len++)
        if (is_tried(len))
          try_length(&givens, p, len);
    }
}

int main(void) {
  for (uint64_t jobs = 0; jobs <= JOBS; jobs++)
    for (uint64_t workers = 1; workers <= 16; workers++)
      try_first(jobs, workers, jobs % workers + 1, workers + jobs % 2);
  for (uint64_t len = 0; len <= 3 + 3 * 300; len++)
    try_alone(300, len);
  for (uint64_t len = 0; len <= 3 + 3 * JOBS; len += 61)
    try_alone(JOBS, len);
  static const uint64_t many[] = {1, 16, 67, 300, JOBS};
  for (size_t i = 0; i < sizeof many / sizeof *many; i++)
    for (uint64_t workers = 1; workers <= 16; workers++)
      try_lengths(many[i], workers);
  printf("%ld lists, %ld answers wrong\n", tried, wrong);
  return wrong != 0;
}
