/* Measures what whole runs cost by amo_next and by amo_batch, in calls and in processor time.

     cost JOBS WORKERS [each]

   All workers take turns on one thread, an access at a time, so that both kinds make the same accesses in the same order, which is
   checked. By amo_next a worker asks before each access; by amo_batch where nothing is left of its last batch. With `each` there is
   a third kind, which asks by amo_batch before each access and has to be told just what was left. At the end each worker begins
   again from its own words, and has to know what it has filed. A line is written for each kind; the status is 1 where anything is
   otherwise.

     cc -std=gnu11 -O2 cost.c libamo_c.a liblibc_c.a -o cost */
#include "amo.h"
#include <stdio.h>
#include <stdlib.h>
#include <string.h>
#include <time.h>

enum { ROOM = 33 };
typedef enum { BY_NEXT, BY_BATCH, EACH } kind_t;

typedef struct {
  uint64_t p, *heard, len, room, at, count;
  int over;
  amo_item_t items[ROOM];
} worker_t;

typedef struct {
  amo_givens_t givens;
  kind_t kind;
  uint64_t *words, calls, accesses, most, longest, order; /* order: a hash of all accesses, in their order */
  double seconds;
  worker_t workers[16];
} run_t;

static void fail(const char *what) {
  fprintf(stderr, "cost: FAILED: %s\n", what);
  exit(1);
}

static double now(void) {
  struct timespec time;
  clock_gettime(CLOCK_PROCESS_CPUTIME_ID, &time);
  return (double)time.tv_sec + (double)time.tv_nsec / 1e9;
}

/* Notes what a worker heard. */
static void hear(worker_t *worker, uint64_t number) {
  if (worker->len == worker->room) {
    worker->room = 2 * worker->room + 1024;
    worker->heard = realloc(worker->heard, worker->room * sizeof number);
    if (worker->heard == NULL)
      fail("no memory");
  }
  worker->heard[worker->len++] = number;
}

/* Asks what comes next. With EACH what is told has to be what was left of the batch. */
static void ask(run_t *run, worker_t *worker) {
  amo_next_t next;
  amo_item_t left[ROOM];
  uint64_t count = worker->count - worker->at;
  memcpy(left, &worker->items[worker->at], count * sizeof *left);
  double before = now();
  uint32_t code = run->kind == BY_NEXT
                      ? amo_next(&run->givens, worker->p, worker->heard, worker->len, &next)
                      : amo_batch(&run->givens, worker->p, worker->heard, worker->len, worker->items, ROOM, &worker->count, &next);
  run->seconds += now() - before;
  run->calls++;
  if (code != AMO_OK)
    fail("a call is refused");
  if (run->kind == BY_NEXT) {
    worker->items[0] = (amo_item_t){next.access, next.word, next.value};
    worker->count = next.access != AMO_NOTHING;
  }
  if (count != 0 && (count != worker->count || memcmp(left, worker->items, count * sizeof *left)))
    fail("another batch is told than was left");
  worker->at = 0;
  worker->over = worker->count == 0;
  run->most = worker->count > run->most ? worker->count : run->most;
}

static void note(run_t *run, uint64_t number) { run->order = (run->order ^ number) * 1099511628211u; }

static void turn(run_t *run, worker_t *worker) {
  if (worker->at == worker->count || run->kind == EACH)
    ask(run, worker);
  if (worker->over)
    return;
  amo_item_t *item = &worker->items[worker->at];
  uint64_t value = item->access == AMO_STORE ? 0 : run->words[item->word];
  note(run, worker->p), note(run, item->word), note(run, item->access == AMO_STORE ? item->value : UINT64_MAX);
  if (item->access == AMO_STORE)
    run->words[item->word] = item->value;
  if (item->access != AMO_LOAD_ROW || value == 0 || item->word++ == item->value)
    worker->at++;
  hear(worker, value);
  run->accesses++;
}

/* Begins again as this worker, from its words alone: how many jobs it has filed. */
static uint64_t begin_again(const run_t *run, uint64_t p) {
  worker_t again = {.p = p};
  amo_next_t next;
  do {
    hear(&again, 0), again.len--; /* room for one more */
    if (amo_next(&run->givens, p, again.heard, again.len, &next) != AMO_OK)
      fail("a worker can't begin again");
    if (next.access == AMO_LOAD)
      hear(&again, run->words[next.word]);
  } while (next.phase == AMO_BEGINNING);
  if (next.perform != 0 || next.doubt != 0)
    fail("a worker that was over has a job in its hand");
  free(again.heard);
  return next.dones;
}

static uint64_t do_run(run_t *run, amo_givens_t givens, kind_t kind) {
  static const char *names[] = {"amo_next", "amo_batch", "amo_batch, each time anew"};
  uint64_t left = givens.workers, filed = 0;
  *run = (run_t){.givens = givens, .kind = kind, .words = calloc(amo_words(&givens), sizeof *run->words)};
  if (run->words == NULL)
    fail("no memory");
  for (uint64_t p = 1; p <= givens.workers; p++) {
    run->workers[p - 1].p = p;
    hear(&run->workers[p - 1], 0), run->workers[p - 1].len--;
  }
  while (left != 0)
    for (uint64_t p = 0; p < givens.workers; p++)
      if (!run->workers[p].over) {
        turn(run, &run->workers[p]);
        left -= run->workers[p].over;
      }
  for (uint64_t p = 1; p <= givens.workers; p++) {
    filed += begin_again(run, p);
    run->longest = run->workers[p - 1].len > run->longest ? run->workers[p - 1].len : run->longest;
    free(run->workers[p - 1].heard);
  }
  free(run->words);
  if (filed < amo_bound(&givens))
    fail("fewer jobs are filed than the bound");
  if (kind != BY_NEXT && filed != 0 && run->most != (givens.workers == 1 ? 3 : 2 * givens.workers))
    fail("no batch has a whole pass");
  printf("%llu jobs, %llu workers, %s: %llu filed, %llu accesses, longest list %llu, at most %llu items; %llu calls, %.3f s\n",
         (unsigned long long)givens.jobs, (unsigned long long)givens.workers, names[kind], (unsigned long long)filed,
         (unsigned long long)run->accesses, (unsigned long long)run->longest, (unsigned long long)run->most,
         (unsigned long long)run->calls, run->seconds);
  return run->order;
}

int main(int argc, char **argv) {
  static run_t next, batch, each;
  uint64_t workers = argc >= 3 ? strtoull(argv[2], NULL, 10) : 0;
  amo_givens_t givens = {argc >= 3 ? strtoull(argv[1], NULL, 10) : 0, workers, workers};
  if (argc > 4 || amo_words(&givens) == 0)
    return fputs("usage: cost JOBS WORKERS [each]\n", stderr), 2;
  uint64_t order = do_run(&next, givens, BY_NEXT);
  if (do_run(&batch, givens, BY_BATCH) != order || (argc == 4 && do_run(&each, givens, EACH) != order))
    fail("the accesses come in another order");
  printf("%.1f times fewer calls, %.1f times less time\n", (double)next.calls / (double)batch.calls, next.seconds / batch.seconds);
  return 0;
}
