/* Has a symbolic link lead elsewhere while a program resolves it. Preloaded into the program, it
   stands before the C library's realpath.

   RELINKED   the path of a link, which leads to TARGET as realpath is called
   TARGET     the name to which it leads then */
#define _GNU_SOURCE
#include <dlfcn.h>
#include <stdlib.h>
#include <unistd.h>

char *realpath(const char *path, char *found) {
  const char *link = getenv("RELINKED"), *target = getenv("TARGET");
  if (link && target && (unlink(link) != 0 || symlink(target, link) != 0))
    abort();
  char *(*real)(const char *, char *) = dlsym(RTLD_NEXT, "realpath");
  return real(path, found);
}
