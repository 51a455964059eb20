/* A process that works as one worker of a crew, over registers in a mapped file. It performs a job
   by writing a line.

     crew FILE JOBS WORKERS P

   works as worker P until that worker has ended. All processes of a crew are given the same FILE,
   JOBS and WORKERS. FILE is made if it is missing. Put it on a local disk, in a folder that nobody
   cleans, and keep the files beside it: FILE.boot, and a lock for each worker, such as FILE.1. If a
   process has died, start another one with its number: it waits until the kernel has dropped the
   lock of the earlier one.

   FILE.boot names the boot of the machine, and WORKERS and JOBS. It is on the disk before FILE has
   registers. FILE is refused if it belongs to an earlier boot, since stores may be lost. It is
   refused too if it is missing or empty and FILE.boot is there, since new registers would hand out
   every job again. Until FILE has registers, FILE.boot has a third line, and no worker has begun.
   If a process is killed meanwhile, the next one goes on. If FILE.boot is missing beside registers,
   they may be a copy, or a hard link, which has locks of its own: that is refused. A symbolic link
   to FILE will do in its place. Remove all these files once no process lives and no job is to come,
   and never before.

     cc -std=gnu11 -O2 crew.c libamo_c.a liblibc_c.a -o crew */
#define _GNU_SOURCE /* for fallocate */
#include "amo.h"
#include <errno.h>
#include <fcntl.h>
#include <libgen.h>
#include <limits.h>
#include <stdatomic.h>
#include <stdio.h>
#include <stdlib.h>
#include <string.h>
#include <sys/file.h>
#include <sys/mman.h>
#include <sys/stat.h>
#include <unistd.h>

_Static_assert(ATOMIC_LLONG_LOCK_FREE == 2,
               "an access of 64 bits must be one of the machine, since processes share the words");

enum { NOTE_ROOM = 96 }; /* more than a text that names a boot and two numbers, and MAKING */
#define MAKING "making\n"  /* the last line of FILE.boot until FILE has registers */

static void fail(const char *what) {
  perror(what);
  exit(1);
}

static void refuse(const char *path, const char *why) {
  fprintf(stderr, "crew: `%s`: %s\n", path, why);
  exit(1);
}

/* Writes the path of a file beside FILE: a dot and this ending follow the name. */
static void name_beside(char path[PATH_MAX], const char *file, const char *ending) {
  if (snprintf(path, PATH_MAX, "%s.%s", file, ending) >= PATH_MAX)
    refuse(file, "the path is too long; give a shorter one");
}

/* Waits until no other process works as worker p, and keeps them all away until this one ends. */
static void become_worker(const char *file, uint64_t p) {
  char path[PATH_MAX], number[24];
  snprintf(number, sizeof number, "%llu", (unsigned long long)p);
  name_beside(path, file, number);
  int lock = open(path, O_RDWR | O_CREAT | O_CLOEXEC, 0600);
  if (lock < 0 || flock(lock, LOCK_EX) != 0)
    fail(path);
}

/* Reads a text that names a boot. */
static void read_text(const char *path, char text[NOTE_ROOM]) {
  int file = open(path, O_RDONLY | O_CLOEXEC);
  ssize_t length = file < 0 ? -1 : read(file, text, NOTE_ROOM - 1);
  if (length < 0)
    fail(path);
  text[length] = 0;
  close(file);
}

/* Writes the text of FILE.boot: a line for this boot, and one for the numbers of the crew. */
static void describe(char note[NOTE_ROOM], const amo_givens_t *givens) {
  read_text("/proc/sys/kernel/random/boot_id", note);
  size_t length = strlen(note);
  snprintf(note + length, NOTE_ROOM - length, "%llu %llu\n", (unsigned long long)givens->workers,
           (unsigned long long)givens->jobs);
}

static void sync_and_close(int file, const char *path) {
  if (file < 0 || fsync(file) != 0 || close(file) != 0)
    fail(path);
}

/* Returns 1 if a file has this text. */
static int has_text(const char *path, const char *text) {
  char found[NOTE_ROOM];
  int file = open(path, O_RDONLY | O_CLOEXEC);
  ssize_t length = file < 0 ? -1 : read(file, found, NOTE_ROOM);
  if (file >= 0)
    close(file);
  return length == (ssize_t)strlen(text) && memcmp(found, text, strlen(text)) == 0;
}

/* Makes FILE.boot with the line MAKING, and has it on the disk when it returns. After a kill it has
   that line already, and no worker has begun. If it has another text, registers were made, and are
   gone. */
static void make_note(const char *path, const char *text) {
  char named[PATH_MAX];
  int note = open(path, O_WRONLY | O_CREAT | O_EXCL | O_CLOEXEC, 0600);
  if (note < 0 && errno == EEXIST) {
    if (!has_text(path, text))
      refuse(path, "it shows that registers were made, and they are gone; perform no job of them "
                   "again, and use another path for other jobs");
    note = open(path, O_WRONLY | O_CLOEXEC);
  }
  if (note < 0 || write(note, text, strlen(text)) != (ssize_t)strlen(text))
    fail(path);
  sync_and_close(note, path);
  const char *folder = dirname(strcpy(named, path)); /* a crash can lose a name that isn't synced */
  sync_and_close(open(folder, O_RDONLY | O_CLOEXEC), folder);
}

/* Refuses registers without FILE.boot, and those of another boot or of other numbers. */
static void check_note(const char *path, const char *text) {
  char found[NOTE_ROOM];
  if (access(path, F_OK) != 0 && errno == ENOENT)
    refuse(path, "it is missing, so the registers may be a copy, or have another name; give the "
                 "path by which they were made, or another path for other jobs");
  read_text(path, found);
  if (strncmp(found, text, strcspn(text, "\n") + 1) != 0)
    refuse(path, "the registers are of an earlier boot of the machine, so stores may be lost; "
                 "perform no job of them again, and use another path for other jobs");
  if (strcmp(found, text) != 0)
    refuse(path, "its second line isn't the WORKERS and JOBS that are given; give those of the "
                 "crew that made it, or another path");
}

/* Takes room on the disk for the registers, if the file system can: a store without room would end
   the process by SIGBUS. The file keeps its length. */
static void take_room(int words, const char *file, off_t size) {
  if (fallocate(words, FALLOC_FL_KEEP_SIZE, 0, size) != 0 && errno != EOPNOTSUPP && errno != ENOSYS)
    fail(file);
}

/* Makes the registers, which are all 0, and then takes the line MAKING from FILE.boot. If FILE was
   removed meanwhile, another process may have made it anew. */
static void finish(int words, const char *file, off_t size, const char *path, const char *note) {
  struct stat named, opened;
  if (ftruncate(words, size) != 0)
    fail(file);
  int whole = open(path, O_WRONLY | O_CLOEXEC);
  if (whole < 0 || ftruncate(whole, (off_t)strlen(note)) != 0 || close(whole) != 0)
    fail(path);
  if (stat(file, &named) != 0 || fstat(words, &opened) != 0 || named.st_ino != opened.st_ino)
    refuse(file, "it was removed while it was made; never do that, and use another path");
}

/* Makes the registers of an empty file, or checks those of another one. Goes on with those of a
   process that was killed while it made them. */
static void make_or_check(int words, const char *file, const amo_givens_t *givens, off_t size) {
  char path[PATH_MAX], note[NOTE_ROOM], making[NOTE_ROOM];
  struct stat found;
  name_beside(path, file, "boot");
  describe(note, givens);
  stpcpy(stpcpy(making, note), MAKING);
  if (fstat(words, &found) != 0)
    fail(file);
  if (found.st_size == 0) {
    take_room(words, file, size);
    make_note(path, making);
  }
  if ((found.st_size == 0 || found.st_size == size) && has_text(path, making))
    finish(words, file, size, path, note);
  check_note(path, note);
  if (found.st_size != 0 && found.st_size != size)
    refuse(file, "it doesn't have the length of its registers; perform no job of them again, and "
                 "use another path for other jobs");
}

/* Makes the file if it is missing, and opens it by the path to which PATH leads, which may be a
   link. Writes that path, since the files beside it have its name. */
static int open_words(const char *path, char file[PATH_MAX]) {
  int made = open(path, O_RDWR | O_CREAT | O_CLOEXEC, 0600);
  if (made < 0 || realpath(path, file) == NULL)
    fail(path);
  int words = open(file, O_RDWR | O_CLOEXEC); /* the link may lead elsewhere by now */
  if (words < 0 || close(made) != 0)
    fail(file);
  return words;
}

/* Returns the registers, which processes share. */
static _Atomic uint64_t *map_words(int words, const char *file, const amo_givens_t *givens) {
  size_t size = amo_words(givens) * sizeof(uint64_t);
  if (flock(words, LOCK_EX) != 0) /* another process may make the registers too */
    fail(file);
  make_or_check(words, file, givens, (off_t)size);
  void *at = mmap(NULL, size, PROT_READ | PROT_WRITE, MAP_SHARED, words, 0);
  if (at == MAP_FAILED || flock(words, LOCK_UN) != 0)
    fail(file);
  return at;
}

/* Refuses a closed standard stream. A file would get its number: then what is printed goes into the
   registers, and a new stream drops the lock. */
static void check_streams(void) {
  for (int stream = STDIN_FILENO; stream <= STDERR_FILENO; stream++)
    if (fcntl(stream, F_GETFD) < 0)
      fail("a standard stream");
}

static void perform(uint32_t job) {
  if (dprintf(STDOUT_FILENO, "job %u\n", job) < 0)
    fail("the output"); /* the job isn't recorded, so the next process finds it in doubt */
}

int main(int argc, char **argv) {
  uint64_t workers = argc == 5 ? strtoull(argv[3], NULL, 10) : 0;
  uint64_t p = argc == 5 ? strtoull(argv[4], NULL, 10) : 0;
  amo_givens_t givens = {argc == 5 ? strtoull(argv[2], NULL, 10) : 0, workers, workers};
  if (amo_announcement_word(&givens, p) == 0) {
    fputs("usage: crew FILE JOBS WORKERS P, at most 4096 jobs, and P of the 1 to 16 workers\n",
          stderr);
    return 2;
  }
  check_streams();
  char file[PATH_MAX];
  int opened = open_words(argv[1], file);
  _Atomic uint64_t *words = map_words(opened, file, &givens);
  become_worker(file, p);
  size_t len = 0, room = 0;
  uint64_t *heard = NULL;
  amo_next_t next;
  for (;;) {
    if (len == room && (heard = realloc(heard, (room = 2 * room + 1024) * sizeof *heard)) == NULL)
      fail("the list");
    uint32_t code = amo_next(&givens, p, heard, len, &next);
    if (code != AMO_OK || next.access == AMO_NOTHING)
      return code == AMO_OK ? 0 : fprintf(stderr, "code %u\n", code) != 0;
    if (next.perform != 0)
      perform(next.perform);
    if (next.doubt != 0 && fprintf(stderr, "job %u is in doubt\n", next.doubt) < 0)
      return 1; /* the job isn't recorded, so the next process reports it */
    heard[len++] = next.access == AMO_LOAD ? atomic_load(&words[next.word]) : 0;
    if (next.access == AMO_STORE)
      atomic_store(&words[next.word], next.value);
  }
}
