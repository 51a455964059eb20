/* Kills a program right after one of its calls on files, or has one fail, and notes those that it made: preloaded into a
   program, it stands before the C library's write, pwrite, ftruncate, fsync and fdatasync.

   KILLED_AFTER   the call of this number, from 1, is made, and then the process is killed by SIGKILL
   FAILED         the call of this number isn't made, and answers EIO
   REMOVED_AFTER  after the call of this number the file that REMOVED names is removed
   CALLS          a file to which each call that was made adds a line: its word, and the path of its file */
#define _GNU_SOURCE
#include <errno.h>
#include <fcntl.h>
#include <limits.h>
#include <signal.h>
#include <stdatomic.h>
#include <stdio.h>
#include <stdlib.h>
#include <string.h>
#include <sys/syscall.h>
#include <unistd.h>

static atomic_long begun, calls;
static long failed, last, removing;
static int told = -1;

static long number_of(const char *name) {
  const char *number = getenv(name);
  return number ? strtol(number, NULL, 10) : 0;
}

__attribute__((constructor)) static void begin(void) {
  const char *path = getenv("CALLS");
  failed = number_of("FAILED");
  last = number_of("KILLED_AFTER");
  removing = number_of("REMOVED_AFTER");
  if (path)
    told = open(path, O_WRONLY | O_CREAT | O_APPEND | O_CLOEXEC, 0600);
}

/* True if the call that begins now fails. */
static int fails(void) {
  if (atomic_fetch_add(&begun, 1) + 1 != failed)
    return 0;
  errno = EIO;
  return 1;
}

/* The result of a call, once it is counted. */
static long made(const char *word, int file, long answer) {
  char link[40], line[PATH_MAX + 40];
  int error = errno;
  if (told >= 0) {
    size_t size = strlen(strcpy(line, word));
    line[size++] = ' ';
    snprintf(link, sizeof link, "/proc/self/fd/%d", file);
    long path = readlink(link, line + size, PATH_MAX);
    size += path > 0 ? path : 0;
    line[size++] = '\n';
    syscall(SYS_write, told, line, size);
  }
  long count = atomic_fetch_add(&calls, 1) + 1;
  if (count == last)
    kill(getpid(), SIGKILL);
  if (count == removing)
    unlink(getenv("REMOVED"));
  errno = error;
  return answer;
}

ssize_t write(int file, const void *bytes, size_t count) {
  return made("write", file, fails() ? -1 : syscall(SYS_write, file, bytes, count));
}

ssize_t pwrite(int file, const void *bytes, size_t count, off_t at) {
  return made("write", file, fails() ? -1 : syscall(SYS_pwrite64, file, bytes, count, at));
}

ssize_t pwrite64(int file, const void *bytes, size_t count, off64_t at) {
  return made("write", file, fails() ? -1 : syscall(SYS_pwrite64, file, bytes, count, at));
}

int ftruncate(int file, off_t size) {
  return made("cut", file, fails() ? -1 : syscall(SYS_ftruncate, file, size));
}

int ftruncate64(int file, off64_t size) {
  return made("cut", file, fails() ? -1 : syscall(SYS_ftruncate, file, size));
}

int fsync(int file) {
  return made("sync", file, fails() ? -1 : syscall(SYS_fsync, file));
}

int fdatasync(int file) {
  return made("sync", file, fails() ? -1 : syscall(SYS_fdatasync, file));
}
