/* Controls: stands before the C library's calls in a worker, and has some syncs do nothing. By
   AMO_SYNCS these are: `none`, all; `folders`, those of folders; `record`, that of a new `record`;
   `unacknowledged`, that after a write of one byte, so an append is acknowledged after the write of
   its commit byte alone. With `deaf` a sync that has failed counts as one that has not. */
#define _GNU_SOURCE
#include <dlfcn.h>
#include <limits.h>
#include <stdio.h>
#include <stdlib.h>
#include <string.h>
#include <sys/stat.h>
#include <sys/types.h>
#include <unistd.h>

static int short_write = -1; /* the descriptor of the last write, if it was of one byte */

static int is_record(int file) {
  char link[64], path[PATH_MAX] = "";
  snprintf(link, sizeof link, "/proc/self/fd/%d", file);
  return readlink(link, path, sizeof path - 1) > 0 && strstr(path, "/record.new");
}

static int is_left_out(int file) {
  const char *which = getenv("AMO_SYNCS");
  struct stat found;
  if (!which || !strcmp(which, "deaf"))
    return 0;
  if (!strcmp(which, "unacknowledged"))
    return file == short_write;
  if (!strcmp(which, "folders"))
    return fstat(file, &found) == 0 && S_ISDIR(found.st_mode);
  return strcmp(which, "record") || is_record(file);
}

static int sync_by(const char *name, int file) {
  int (*call)(int) = (int (*)(int))dlsym(RTLD_NEXT, name);
  int is_out = is_left_out(file), result = is_out ? 0 : call(file);
  const char *which = getenv("AMO_SYNCS");
  short_write = -1;
  return which && !strcmp(which, "deaf") ? 0 : result;
}

int fsync(int file) { return sync_by("fsync", file); }
int fdatasync(int file) { return sync_by("fdatasync", file); }

/* The worker writes each byte of its journals by this call. */
ssize_t pwrite(int file, const void *data, size_t size, off_t place) {
  ssize_t (*call)(int, const void *, size_t, off_t) =
      (ssize_t(*)(int, const void *, size_t, off_t))dlsym(RTLD_NEXT, "pwrite");
  short_write = size == 1 ? file : -1;
  return call(file, data, size, place);
}
