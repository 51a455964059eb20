/* Slows fsync and fdatasync: preloaded into a program, it has each of these calls end no sooner
   than so many microseconds after it began as SLOW_SYNC states. The calls themselves are made. */
#define _GNU_SOURCE
#include <errno.h>
#include <stdlib.h>
#include <sys/syscall.h>
#include <time.h>
#include <unistd.h>

enum { NANOSECONDS = 1000000000 };

static long microseconds;

__attribute__((constructor)) static void begin(void) {
  const char *text = getenv("SLOW_SYNC");
  microseconds = text ? strtol(text, NULL, 10) : 0;
}

/* Makes the call, and waits for the rest of the time. */
static int slowed(long call, int file) {
  struct timespec due;
  clock_gettime(CLOCK_MONOTONIC, &due);
  int result = syscall(call, file), error = errno;
  long nanoseconds = due.tv_nsec + microseconds % 1000000 * 1000;
  due.tv_sec += microseconds / 1000000 + nanoseconds / NANOSECONDS;
  due.tv_nsec = nanoseconds % NANOSECONDS;
  while (clock_nanosleep(CLOCK_MONOTONIC, TIMER_ABSTIME, &due, NULL) == EINTR)
    ;
  errno = error;
  return result;
}

int fsync(int file) { return slowed(SYS_fsync, file); }
int fdatasync(int file) { return slowed(SYS_fdatasync, file); }
