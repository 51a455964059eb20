/* Each job at most once, by processes that may die at any point and begin again: the C interface of libamo_c.a.

   `workers` workers share amo_words(..) words of 64 bits. A process that works as worker p, one of 1..workers, keeps a list of
   what it has heard since it began: the number that each of its loads gave, and 0 for each of its stores. The list is empty at
   first. The process asks what comes next, performs the job that it is told to, makes the one load or store that it is told, adds
   to its list what it heard, and asks again:

     while ((code = amo_next(&givens, p, heard, len, &next)) == AMO_OK && next.access != AMO_NOTHING) {
       if (next.perform != 0)
         perform(next.perform);
       uint64_t value = 0;
       if (next.access == AMO_LOAD)
         value = atomic_load(&words[next.word]);
       else
         atomic_store(&words[next.word], next.value);
       heard[len++] = value;
     }

   Once a process is dead, another may begin as the same worker, with an empty list: it is told to load the worker's own words
   first, and goes on from these. Nothing else is kept between calls or handed on.

   What is proved, in crates/amo_process and crates/amo_c: where all processes keep the rules below, no job that one process is told
   to perform is ever told to another, nor again to that one once it has made its next access, whoever dies when; and each call
   answers what it says here. No proof sees whether the rules are kept:

   1. Before a process begins as worker p, the one that was worker p is dead: it was waited for, or it held a lock that the kernel
      gives up for it, as in crew.c. Two living processes of one number perform jobs twice, and no call can tell.
   2. The words are all 0 at first, and written by the told stores alone. They outlive the processes. All have the same givens.
   3. Each access is made once, whole, on the told word, and is over before the next begins; all processes see all of them in one
      order: they are sequentially consistent. The list is the process's own, from empty, with each access in its order.
   4. A job is performed before the access is made that files it, which is the one that is told beside it; and once, though whoever
      asks twice is told twice.
   5. `doubt` is never performed. Only what the job itself has made durable can tell whether it was.
   6. After the store that amo_leave tells, nothing more is asked or stored with that list.
   7. At AMO_BAD_HEARD all processes stop: the words or a list were spoiled, and what comes next might be a job performed twice.
   8. Pointers are valid and aligned, none is null (`heard` neither, where `len` is 0), they are apart from each other, and what
      they point to stays unchanged during the call but by it. amo_next, amo_batch and amo_leave take memory from malloc, and give
      it back before they return, so they aren't called in a signal handler or in the forked child of a process that has threads.

   Otherwise calls may come from any thread or process, in any order. Link libamo_c.a and the toolchain's liblibc_c.a. */
#ifndef AMO_H
#define AMO_H

#include <stddef.h>
#include <stdint.h>

#ifdef __cplusplus
extern "C" {
#endif

/* What every process is given alike. */
typedef struct amo_givens_t {
  uint64_t jobs;    /* 0..4096; they are numbered from 1 */
  uint64_t workers; /* 1..16; they are numbered from 1 */
  uint64_t beta;    /* workers..65535: a worker ends once it sees fewer jobs than this that it could take */
} amo_givens_t;

enum { AMO_NOTHING = 0, AMO_LOAD = 1, AMO_STORE = 2, AMO_LOAD_ROW = 3 };

enum {
  AMO_BEGINNING = 0, /* it loads its own words */
  AMO_ANNOUNCING = 1,
  AMO_TRYING = 2,  /* it loads what the others have announced */
  AMO_READING = 3, /* it loads what the others have filed */
  AMO_CLAIMING = 4,
  AMO_HOLDING = 5, /* it has claimed a job, which the store that is told files */
  AMO_OVER = 6,    /* it has ended: at least amo_bound(..) jobs are filed */
  AMO_LEFT = 7     /* the store that amo_leave tells leaves */
};

enum {
  AMO_OK = 0,
  AMO_TOO_MANY_JOBS = 1,    /* above 4096 */
  AMO_NO_WORKERS = 2,       /* 0 */
  AMO_TOO_MANY_WORKERS = 3, /* above 16 */
  AMO_BETA_LOW = 4,         /* below workers */
  AMO_BETA_HIGH = 5,        /* above 65535 */
  AMO_NO_SUCH_WORKER = 6,   /* not of 1..workers */
  AMO_BAD_HEARD = 7,        /* a number of the list can't come where it stands: stop everything */
  AMO_NO_MEMORY = 8,        /* malloc refused; nothing has changed, and the call may be made again */
  AMO_MAY_NOT_LEAVE = 9     /* of amo_leave alone: it is beginning, has a job in its hand, or has ended */
};

typedef struct amo_next_t {
  uint32_t access;  /* AMO_NOTHING, AMO_LOAD or AMO_STORE */
  uint32_t phase;   /* where the worker stands */
  uint64_t word;    /* the shared word to load or store, below amo_words(..); 0 where there is nothing */
  uint64_t value;   /* the value to store, else 0 */
  uint32_t perform; /* the job to perform now, before the store that files it, or 0 */
  uint32_t doubt;   /* the job that an earlier process had in its hand, or 0. It may have been performed or not, and is never to
                       be performed; the store files it */
  uint64_t claims;  /* how many jobs the worker has claimed, and 0 while it is beginning */
  uint64_t dones;   /* how many it has filed, likewise */
} amo_next_t;

/* An item of a batch. */
typedef struct amo_item_t {
  uint64_t access; /* AMO_LOAD; AMO_STORE; or AMO_LOAD_ROW: load `word` and the words above it, one after the other, up to the
                      first that is 0, at the latest up to the word `value` */
  uint64_t word;
  uint64_t value;  /* of AMO_STORE the value to store; of AMO_LOAD_ROW the last word of the row, where always 0 stands: whoever
                      finds another number there stops everything; of AMO_LOAD 0 */
} amo_item_t;

/* What worker `worker` does next whose process has heard the `len` numbers at `heard`. Answers AMO_OK and writes *next; or answers
   the first of the codes 1 to 7 that fits, or, where none of 1 to 6 does, AMO_NO_MEMORY, and writes nothing. It never answers
   AMO_MAY_NOT_LEAVE. It takes time in proportion to `len` and, for each choice of a job in the list, to jobs / 64; that is
   measured, not proved. */
uint32_t amo_next(const amo_givens_t *givens, uint64_t worker, const uint64_t *heard, size_t len, amo_next_t *next);

/* amo_next, and with it the worker's batch: all accesses that follow, as far as they are known before any more is heard. Answers as
   amo_next does and writes the same *next; and where it answers AMO_OK it writes how many items it tells to *count, and the items
   to the first places of `items`. These are the batch, or as many of its first items as `capacity` has room for: at least 1, and
   2 * workers + 1 is room for all. Places beyond stay as they are, and all where the code isn't AMO_OK.

   The job that is told is performed before the first item. The items are carried out in their order, each access over before the
   next begins, and each is noted in the list: a load by its number, the 0 that ends a row too, and a store by 0. No store comes
   after a load. Who dies or asks again in the middle of a batch, by whichever call, loses nothing: what is told then is the rest.

     while ((code = amo_batch(&givens, p, heard, len, items, 33, &count, &next)) == AMO_OK && next.access != AMO_NOTHING) {
       if (next.perform != 0)
         perform(next.perform);
       for (uint64_t i = 0; i < count; i++) {
         uint64_t word = items[i].word, last = items[i].access == AMO_LOAD_ROW ? items[i].value : word;
         if (items[i].access == AMO_STORE)
           atomic_store(&words[word], items[i].value), heard[len++] = 0;
         else
           while ((heard[len++] = atomic_load(&words[word])) != 0 && word < last)
             word++;
       }
     } */
uint32_t amo_batch(const amo_givens_t *givens, uint64_t worker, const uint64_t *heard, size_t len, amo_item_t *items,
                   size_t capacity, uint64_t *count, amo_next_t *next);

/* The store by which the worker leaves, so that others may take the job that it has announced. Answers as amo_next does, or
   AMO_MAY_NOT_LEAVE where it is beginning, has a job in its hand or has ended; writes *next at AMO_OK alone, with phase AMO_LEFT.
   The worker comes back as from its death: by a process with an empty list. */
uint32_t amo_leave(const amo_givens_t *givens, uint64_t worker, const uint64_t *heard, size_t len, amo_next_t *next);

/* How many shared words there are, workers * (jobs + 3) + 1, or 0 where the givens break a limit. Word 0 is never told. */
uint64_t amo_words(const amo_givens_t *givens);

/* How many jobs are filed at least wherever a worker is AMO_OVER: jobs - (beta + workers - 2), or 0 where that is below 0 or the
   givens break a limit. A job that was told to be in doubt is filed too, performed or not. */
uint64_t amo_bound(const amo_givens_t *givens);

/* Where a worker's words stand, for who reads them from outside: the job that it has announced, how many it has claimed, and of its
   row the k-th entry, k of 1..jobs + 1: the jobs that it has filed, in their order, and then 0. Where the count is one above the
   entries, the announced job is claimed and not filed. 0 where there is no such word. */
uint64_t amo_announcement_word(const amo_givens_t *givens, uint64_t worker);
uint64_t amo_claims_word(const amo_givens_t *givens, uint64_t worker);
uint64_t amo_entry_word(const amo_givens_t *givens, uint64_t worker, uint64_t k);

#ifdef __cplusplus
}
#endif
#endif
