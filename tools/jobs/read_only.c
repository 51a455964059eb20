/* Has a folder look as if it lay on a file system that is mounted read-only: preloaded into a
   program and those that it starts, it has each call fail with EROFS that would make, rename or
   remove a name at or below AMO_READ_ONLY, an absolute path, or open a file there to write. */
#define _GNU_SOURCE
#include <errno.h>
#include <fcntl.h>
#include <limits.h>
#include <stdarg.h>
#include <stdio.h>
#include <stdlib.h>
#include <string.h>
#include <sys/stat.h>
#include <sys/syscall.h>
#include <unistd.h>

/* Returns whether a path, which may be relative to an open folder, is at or below the one named. */
static int is_read_only(int folder, const char *path) {
  const char *above = getenv("AMO_READ_ONLY");
  char base[PATH_MAX] = "", whole[2 * PATH_MAX], link[64];
  if (!above)
    return 0;
  if (path[0] != '/' && folder != AT_FDCWD) {
    snprintf(link, sizeof link, "/proc/self/fd/%d", folder);
    ssize_t size = readlink(link, base, sizeof base - 1);
    base[size < 0 ? 0 : size] = '\0';
  } else if (path[0] != '/' && !getcwd(base, sizeof base))
    base[0] = '\0';
  snprintf(whole, sizeof whole, "%s%s%s", base, base[0] ? "/" : "", path);
  size_t size = strlen(above);
  return strncmp(whole, above, size) == 0 && (whole[size] == '/' || whole[size] == '\0');
}

static int refused(void) {
  errno = EROFS;
  return -1;
}

static int opened(int folder, const char *path, int flags, mode_t mode) {
  if ((flags & (O_CREAT | O_WRONLY | O_RDWR | O_TRUNC)) && is_read_only(folder, path))
    return refused();
  return syscall(SYS_openat, folder, path, flags, mode);
}

#define OPEN(FOLDER)                                                                               \
  va_list more;                                                                                    \
  va_start(more, flags);                                                                           \
  mode_t mode = flags & (O_CREAT | O_TMPFILE) ? va_arg(more, mode_t) : 0;                          \
  va_end(more);                                                                                    \
  return opened(FOLDER, path, flags, mode)

int open(const char *path, int flags, ...) { OPEN(AT_FDCWD); }
int open64(const char *path, int flags, ...) { OPEN(AT_FDCWD); }
int openat(int folder, const char *path, int flags, ...) { OPEN(folder); }
int openat64(int folder, const char *path, int flags, ...) { OPEN(folder); }

int mkdirat(int folder, const char *path, mode_t mode) {
  return is_read_only(folder, path) ? refused() : syscall(SYS_mkdirat, folder, path, mode);
}

int mkdir(const char *path, mode_t mode) { return mkdirat(AT_FDCWD, path, mode); }

int unlinkat(int folder, const char *path, int flags) {
  return is_read_only(folder, path) ? refused() : syscall(SYS_unlinkat, folder, path, flags);
}

int unlink(const char *path) { return unlinkat(AT_FDCWD, path, 0); }
int rmdir(const char *path) { return unlinkat(AT_FDCWD, path, AT_REMOVEDIR); }

int linkat(int from, const char *old, int to, const char *new, int flags) {
  return is_read_only(to, new) ? refused() : syscall(SYS_linkat, from, old, to, new, flags);
}

int link(const char *old, const char *new) { return linkat(AT_FDCWD, old, AT_FDCWD, new, 0); }

int renameat(int from, const char *old, int to, const char *new) {
  int is_refused = is_read_only(from, old) || is_read_only(to, new);
  return is_refused ? refused() : syscall(SYS_renameat2, from, old, to, new, 0);
}

int rename(const char *old, const char *new) { return renameat(AT_FDCWD, old, AT_FDCWD, new); }
