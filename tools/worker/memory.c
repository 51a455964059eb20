/* Refuses memory: preloaded into a worker, it has one of its allocations fail.

   AMO_MEMORY    which, from 1; with N+ each from there on
   AMO_REFUSED   a file that is made once memory was refused: else the process never asked so often

   It is glibc's memory that is refused, by the names under which that hands it out. */
#define _GNU_SOURCE
#include <errno.h>
#include <fcntl.h>
#include <stdlib.h>
#include <string.h>
#include <sys/syscall.h>
#include <unistd.h>

void *__libc_malloc(size_t size);
void *__libc_calloc(size_t count, size_t size);
void *__libc_realloc(void *old, size_t size);
void *__libc_memalign(size_t alignment, size_t size);

static long first, asked;
static int onwards;
static const char *told;

__attribute__((constructor)) static void begin(void) {
  const char *number = getenv("AMO_MEMORY");
  told = getenv("AMO_REFUSED");
  first = number ? atol(number) : 0;
  onwards = number && strchr(number, '+');
}

static int is_refused(void) {
  if (!first || ++asked < first || (asked > first && !onwards))
    return 0;
  if (told)
    syscall(SYS_close, syscall(SYS_openat, AT_FDCWD, told, O_WRONLY | O_CREAT | O_CLOEXEC, 0600));
  errno = ENOMEM;
  return 1;
}

void *malloc(size_t size) { return is_refused() ? NULL : __libc_malloc(size); }
void *calloc(size_t count, size_t size) { return is_refused() ? NULL : __libc_calloc(count, size); }
void *realloc(void *old, size_t size) { return is_refused() ? NULL : __libc_realloc(old, size); }
void *aligned_alloc(size_t alignment, size_t size) { return is_refused() ? NULL : __libc_memalign(alignment, size); }
void *memalign(size_t alignment, size_t size) { return is_refused() ? NULL : __libc_memalign(alignment, size); }

int posix_memalign(void **found, size_t alignment, size_t size) {
  void *memory = is_refused() ? NULL : __libc_memalign(alignment, size);
  *found = memory ? memory : *found;
  return memory ? 0 : ENOMEM;
}
