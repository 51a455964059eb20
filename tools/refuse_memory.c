/* Refuses requests for memory, or counts them: preloaded into a program, it lets malloc, calloc or realloc answer NULL at the
   request whose number stands in REFUSED_REQUEST, from 1, and tells of it by one byte on descriptor 3; where REFUSED_FROM has
   a number it refuses that request and all later ones, and where REFUSED_PAIR has one, that request and the next. It sets errno
   as malloc does, since the C library, where it starts a thread, ends the program if it finds another. Where COUNTED_REQUESTS
   is set instead, it grants each request and tells of each by one byte. Where HELD_BLOCKS names a file, it writes there, when
   the program ends, how many blocks were given and not taken back. */
#include <errno.h>
#include <fcntl.h>
#include <stdio.h>
#include <stdlib.h>
#include <sys/syscall.h>
#include <unistd.h>

extern void *__libc_malloc(size_t size);
extern void *__libc_calloc(size_t count, size_t size);
extern void *__libc_realloc(void *old, size_t size);
extern void __libc_free(void *old);

static int counts;
static long refused_request, refused_from, refused_pair;
static long requests, held;

static long number_of(const char *name) {
  const char *number = getenv(name);
  return number ? strtol(number, NULL, 10) : 0;
}

__attribute__((constructor)) static void begin(void) {
  refused_request = number_of("REFUSED_REQUEST");
  refused_from = number_of("REFUSED_FROM");
  refused_pair = number_of("REFUSED_PAIR");
  counts = getenv("COUNTED_REQUESTS") != NULL;
}

static int tell_held(void) {
  const char *name = getenv("HELD_BLOCKS");
  int file = name ? open(name, O_WRONLY | O_CREAT | O_TRUNC, 0666) : -1;
  return !name || (file >= 0 && dprintf(file, "%ld\n", held) > 0);
}

/* A program ends by exit, a test by _exit. */
__attribute__((destructor)) static void end(void) {
  if (!tell_held())
    abort();
}

void _exit(int status) {
  end();
  syscall(SYS_exit_group, status);
  __builtin_unreachable();
}

static int tell(void) { return write(3, "!", 1) == 1; }

static int is_refused(void) {
  if (counts && !tell())
    abort();
  if (!refused_request && !refused_from && !refused_pair)
    return 0;
  long number = __sync_add_and_fetch(&requests, 1);
  int in_pair = refused_pair && (number == refused_pair || number == refused_pair + 1);
  return (number == refused_request || (refused_from && refused_from <= number) || in_pair) && tell();
}

static void *refuse(void) {
  errno = ENOMEM;
  return NULL;
}

/* A block that was given, or none. */
static void *give(void *block) {
  if (block)
    __sync_add_and_fetch(&held, 1);
  return block;
}

void *malloc(size_t size) { return is_refused() ? refuse() : give(__libc_malloc(size)); }

void *calloc(size_t count, size_t size) { return is_refused() ? refuse() : give(__libc_calloc(count, size)); }

void *realloc(void *old, size_t size) {
  if (is_refused())
    return refuse();
  return old ? __libc_realloc(old, size) : give(__libc_realloc(old, size));
}

void free(void *old) {
  if (old)
    __sync_sub_and_fetch(&held, 1);
  __libc_free(old);
}
