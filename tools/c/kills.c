/* Crews of processes over shared words that are killed by SIGKILL and begin again by their words alone, and an audit of what they
   performed: no job twice; each filed job performed or told to be in doubt; and the bound, where a worker has ended.

     kills each               a process of a small crew is killed at each of its points in turn, and the one that begins again too
     kills random RUNS SEED   killed at random points, and from outside at any instruction; some leave, and come back
     kills doubted            wrong uses, in which jobs have to be performed twice: a job in doubt is performed;
     kills forgotten          a process that begins again takes its worker's own words for 0;
     kills two RUNS SEED      two processes at a time work as one worker

   A process asks before each access, or for batches, sometimes with little room, and sometimes again within a batch. Its points are
   before each access, before a job is performed, and after it. The last line says what was found; the status is 0 where that is as
   it has to be. */
#define _GNU_SOURCE
#include "amo.h"
#include <sched.h>
#include <signal.h>
#include <stdatomic.h>
#include <stdio.h>
#include <stdlib.h>
#include <string.h>
#include <sys/mman.h>
#include <sys/prctl.h>
#include <sys/wait.h>
#include <time.h>
#include <unistd.h>

_Static_assert(ATOMIC_LLONG_LOCK_FREE == 2, "the words are shared by processes");

enum { MOST_JOBS = 300, MOST_WORKERS = 8, ROOM = 100000, NEVER = -1 };
enum { OVER = 0, LEAVES = 4, FAULTY = 9 }; /* how a process ends by itself */
enum { BY_NEXT, BY_BATCH, MIXED };

/* The memory that the processes share, and the audit reads: the words, and how often each job was performed and told to be in doubt. */
typedef struct {
  amo_givens_t givens;
  int performs_doubts, forgets;
  _Atomic uint64_t words[MOST_WORKERS * (MOST_JOBS + 3) + 1];
  _Atomic unsigned performed[MOST_JOBS + 1], doubted[MOST_JOBS + 1];
} crew_t;

typedef struct {
  uint64_t p, seed;
  long dies_at; /* the point at which it kills itself, from 0, or NEVER */
  int asks;     /* BY_NEXT, BY_BATCH or MIXED */
  int is_first; /* whether its worker's first process */
} process_t;

static crew_t *crew;
static uint64_t state, heard[ROOM];
static long points; /* until this process dies */
static long runs, kills, begun, twice, faults;

static uint64_t below(uint64_t n) {
  state ^= state << 13;
  state ^= state >> 7;
  state ^= state << 17;
  return state % n;
}

static void fail(const char *what) {
  perror(what);
  exit(FAULTY);
}

static void point(void) {
  if (points == 0)
    kill(getpid(), SIGKILL);
  points -= points > 0;
}

static void perform(uint32_t job) {
  point();
  atomic_fetch_add(&crew->performed[job], 1);
  point();
}

/* Makes the first access of this item, and what is left of it; 0 where nothing is. */
static int carry_out(amo_item_t *item, uint64_t *value, int forgets) {
  point();
  *value = 0;
  if (item->access == AMO_STORE) {
    atomic_store(&crew->words[item->word], item->value);
    return 0;
  }
  *value = forgets ? 0 : atomic_load(&crew->words[item->word]);
  return item->access == AMO_LOAD_ROW && *value != 0 && item->word++ < item->value;
}

/* Asks for the items that come next; what there is to perform is performed. */
static uint64_t ask(const process_t *it, size_t len, amo_item_t *items, amo_next_t *next) {
  uint64_t count = 0, room = it->asks == MIXED && below(4) == 0 ? 1 + below(4) : 2 * MOST_WORKERS + 1;
  uint32_t code = it->asks == BY_NEXT ? amo_next(&crew->givens, it->p, heard, len, next)
                                      : amo_batch(&crew->givens, it->p, heard, len, items, room, &count, next);
  if (code != AMO_OK)
    _exit(FAULTY);
  if (it->asks == BY_NEXT) {
    items[0] = (amo_item_t){next->access, next->word, next->value};
    count = next->access != AMO_NOTHING;
  }
  if (next->perform != 0)
    perform(next->perform);
  if (next->doubt != 0) {
    atomic_fetch_add(&crew->doubted[next->doubt], 1);
    if (crew->performs_doubts)
      perform(next->doubt);
  }
  return count;
}

static void leave(uint64_t p, size_t len) {
  amo_next_t next;
  if (amo_leave(&crew->givens, p, heard, len, &next) != AMO_OK)
    return;
  point();
  atomic_store(&crew->words[next.word], next.value);
  _exit(LEAVES);
}

static void work(const process_t *it) {
  amo_item_t items[2 * MOST_WORKERS + 1];
  amo_next_t next;
  uint64_t count = 0, at = 0;
  size_t leaves_at = it->asks == MIXED && below(20) == 0 ? below(40) : ROOM;
  for (size_t len = 0; len < ROOM; len++) {
    if (len >= leaves_at)
      leave(it->p, len);
    if (at == count || (it->asks == MIXED && below(40) == 0)) {
      count = ask(it, len, items, &next), at = 0;
      if (count == 0)
        _exit(OVER);
    }
    int forgets = crew->forgets && !it->is_first && next.phase == AMO_BEGINNING;
    at += !carry_out(&items[at], &heard[len], forgets);
    if (it->asks == MIXED && below(8) == 0)
      sched_yield();
  }
  _exit(FAULTY);
}

static pid_t start(process_t it) {
  pid_t child = fork();
  if (child < 0)
    fail("fork");
  if (child == 0) {
    prctl(PR_SET_PDEATHSIG, SIGKILL); /* where this test is killed, nothing is left */
    state = it.seed | 1, points = it.dies_at;
    work(&it);
  }
  return child;
}

/* The end of this process: OVER, LEAVES, FAULTY, or SIGKILL below 0. */
static int await(pid_t child) {
  int status;
  if (waitpid(child, &status, 0) < 0)
    fail("waitpid");
  kills += WIFSIGNALED(status);
  faults += WIFEXITED(status) && WEXITSTATUS(status) == FAULTY;
  return WIFSIGNALED(status) ? -WTERMSIG(status) : WEXITSTATUS(status);
}

static void begin_run(uint64_t jobs, uint64_t workers, uint64_t beta) {
  int performs_doubts = crew->performs_doubts, forgets = crew->forgets;
  memset(crew, 0, sizeof *crew);
  crew->givens = (amo_givens_t){jobs, workers, beta};
  crew->performs_doubts = performs_doubts, crew->forgets = forgets;
  runs++;
}

/* The jobs that this worker has filed or has in its hand, as `taken` counts them; how many it has filed. */
static uint64_t audit_worker(uint64_t p, unsigned *taken) {
  uint64_t filed = 0, job, claims = crew->words[amo_claims_word(&crew->givens, p)];
  while ((job = crew->words[amo_entry_word(&crew->givens, p, filed + 1)]) != 0) {
    filed++;
    faults += taken[job]++ != 0;
    faults += crew->performed[job] == 0 && crew->doubted[job] == 0;
  }
  for (uint64_t k = filed + 1; k <= crew->givens.jobs + 1; k++)
    faults += crew->words[amo_entry_word(&crew->givens, p, k)] != 0;
  if (claims == filed + 1)
    faults += taken[crew->words[amo_announcement_word(&crew->givens, p)]]++ != 0;
  else
    faults += claims != filed;
  return filed;
}

static void audit(int has_ended) {
  unsigned taken[MOST_JOBS + 1] = {0};
  uint64_t filed = 0;
  for (uint64_t p = 1; p <= crew->givens.workers; p++)
    filed += audit_worker(p, taken);
  faults += has_ended && filed < amo_bound(&crew->givens);
  faults += crew->words[0] != 0;
  for (uint64_t job = 1; job <= crew->givens.jobs; job++) {
    twice += crew->performed[job] > 1;
    faults += crew->performed[job] != 0 && !taken[job];
  }
}

/* A run of 4 jobs and 2 workers in which the first process of worker p dies at one point and its second at another. The other
   worker works at the same time, or after them. Whether the first came so far. */
static int run_killed(uint64_t p, long first, long second, int asks, int together, int *second_died) {
  process_t other = {.p = 3 - p, .dies_at = NEVER, .asks = asks, .is_first = 1};
  begin_run(4, 2, 2);
  pid_t child = together ? start(other) : 0;
  int first_died = await(start((process_t){.p = p, .dies_at = first, .asks = asks, .is_first = 1})) < 0;
  *second_died = await(start((process_t){.p = p, .dies_at = second, .asks = asks})) < 0;
  if (*second_died)
    await(start((process_t){.p = p, .dies_at = NEVER, .asks = asks}));
  begun += 1 + *second_died;
  audit(await(together ? child : start(other)) == OVER);
  return first_died;
}

static void kill_each(int asks, int together) {
  for (uint64_t p = 1; p <= 2; p++)
    for (long first = 0, first_died = 1; first_died; first++) {
      first_died = 0;
      for (int second = 0, second_died = 1; second_died; second++)
        first_died |= run_killed(p, first, second, asks, together, &second_died);
    }
}

static process_t drawn(uint64_t p, int is_first) {
  long span = (long)(crew->givens.jobs * (2 * crew->givens.workers + 8) * 2 / crew->givens.workers) + 8;
  long dies_at = below(2) ? NEVER : (long)below(below(3) ? (uint64_t)span : 40);
  return (process_t){.p = p, .seed = below(UINT64_MAX), .dies_at = dies_at, .asks = (int)below(MIXED + 1), .is_first = is_first};
}

/* Waits for the process of worker p, and begins again for it some times; whether it ended. */
static int see_out(uint64_t p, pid_t child) {
  int ended = await(child);
  for (int more = 10; more > 0 && (ended != OVER || below(4) == 0); more--) {
    process_t it = drawn(p, 0);
    it.dies_at = more > 1 ? it.dies_at : NEVER;
    begun++;
    ended = await(start(it));
  }
  return ended == OVER;
}

static void run_random(int two) {
  uint64_t workers = 1 + below(MOST_WORKERS);
  pid_t children[2][MOST_WORKERS + 1] = {{0}};
  int has_ended = 0;
  begin_run(below(10) ? below(50) : below(MOST_JOBS), workers, workers + (below(3) ? 0 : below(6)));
  for (uint64_t p = 1; p <= workers; p++)
    for (int which = 0; which <= two; which++)
      children[which][p] = start(drawn(p, 1));
  for (uint64_t p = 1; p <= workers && !two; p++) {
    struct timespec pause = {0, (long)below(1000000)};
    if (below(3) == 0 && nanosleep(&pause, NULL) == 0)
      kill(children[0][p], SIGKILL);
  }
  for (uint64_t p = 1; p <= workers; p++) {
    if (two)
      await(children[1][p]);
    has_ended |= see_out(p, children[0][p]);
  }
  audit(has_ended);
}

int main(int argc, char **argv) {
  const char *way = argc > 1 ? argv[1] : "";
  int two = !strcmp(way, "two"), random = two || !strcmp(way, "random");
  crew = mmap(NULL, sizeof *crew, PROT_READ | PROT_WRITE, MAP_SHARED | MAP_ANONYMOUS, -1, 0);
  if (crew == MAP_FAILED)
    fail("mmap");
  crew->performs_doubts = !strcmp(way, "doubted"), crew->forgets = !strcmp(way, "forgotten");
  int wrong = two || crew->performs_doubts || crew->forgets;
  if (argc != (random ? 4 : 2) || !(random || wrong || !strcmp(way, "each")))
    return fputs("usage: kills each, doubted or forgotten; or kills random or two RUNS SEED\n", stderr), 2;
  state = random ? strtoull(argv[3], NULL, 10) * 2 + 1 : 1;
  if (random)
    /* A wrong use is run until it shows: in each run that hangs on who is faster. */
    for (long left = strtol(argv[2], NULL, 10); left > 0 && !(wrong && twice); left--)
      run_random(two);
  else
    for (int asks = BY_NEXT; asks <= (wrong ? BY_NEXT : BY_BATCH); asks++)
      for (int together = 0; together < 2; together++)
        kill_each(asks, together);
  printf("%ld runs, %ld killed, %ld begun again; performed twice %ld, other faults %ld\n", runs, kills, begun, twice, faults);
  return wrong ? twice == 0 : twice != 0 || faults != 0 || kills == 0;
}
