/* Makes standard input and standard output fail, or give and take little: preloaded into a program, it stands before the C
   library's read of descriptor 0 and write of descriptor 1.

   READ_ROOM      so many bytes are given, and then read answers EIO
   WRITE_ROOM     so many bytes are taken, and then write answers ENOSPC, or 0 where WRITE_NOTHING is set
   PIECE          each read and write moves at most so many bytes
   READ_INTERRUPTED, WRITE_INTERRUPTED   the read or write of this number, from 1, answers EINTR

   A stream that has come to its end or has failed may not be called again: who does so is ended, with status 99. */
#define _GNU_SOURCE
#include <errno.h>
#include <limits.h>
#include <stdlib.h>
#include <sys/syscall.h>
#include <unistd.h>

/* The bytes left to give or to take, the most that move at once, how many calls were made, and whether it is over. */
struct stream {
  long room, piece, interrupted, calls;
  int over;
};

static struct stream input, output;
static int takes_nothing;

static long number_of(const char *name, long otherwise) {
  const char *number = getenv(name);
  return number ? strtol(number, NULL, 10) : otherwise;
}

__attribute__((constructor)) static void begin(void) {
  long piece = number_of("PIECE", LONG_MAX);
  input = (struct stream){number_of("READ_ROOM", LONG_MAX), piece, number_of("READ_INTERRUPTED", 0), 0, 0};
  output = (struct stream){number_of("WRITE_ROOM", LONG_MAX), piece, number_of("WRITE_INTERRUPTED", 0), 0, 0};
  takes_nothing = getenv("WRITE_NOTHING") != NULL;
}

/* Returns how many of so many bytes may move, or -1 with errno. */
static long allowed(struct stream *stream, size_t count, int fault) {
  if (stream->over)
    _exit(99);
  errno = ++stream->calls == stream->interrupted ? EINTR : stream->room == 0 && count > 0 ? fault : 0;
  if (errno)
    return -1;
  long most = stream->room < stream->piece ? stream->room : stream->piece;
  return count < (size_t)most ? (long)count : most;
}

/* Counts what has moved of so many bytes; where nothing has, the stream is over. */
static ssize_t moved(struct stream *stream, size_t count, long bytes) {
  stream->over = bytes <= 0 && (bytes < 0 || count > 0);
  stream->room -= bytes > 0 ? bytes : 0;
  return bytes;
}

ssize_t read(int file, void *bytes, size_t count) {
  if (file != 0)
    return syscall(SYS_read, file, bytes, count);
  long most = allowed(&input, count, EIO);
  return moved(&input, count, most < 0 ? -1 : syscall(SYS_read, file, bytes, most));
}

ssize_t write(int file, const void *bytes, size_t count) {
  if (file != 1)
    return syscall(SYS_write, file, bytes, count);
  long most = allowed(&output, count, ENOSPC);
  if (most < 0 && errno == ENOSPC && takes_nothing)
    return moved(&output, count, 0);
  return moved(&output, count, most < 0 ? -1 : syscall(SYS_write, file, bytes, most));
}
