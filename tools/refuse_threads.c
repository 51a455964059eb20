/* Refuses the start of one thread: preloaded into a program, it lets pthread_create answer EAGAIN at the start whose number
   stands in REFUSED_THREAD, from 1, and tells of it by one byte on descriptor 3, if that is open. */
#define _GNU_SOURCE
#include <dlfcn.h>
#include <errno.h>
#include <pthread.h>
#include <stdlib.h>
#include <unistd.h>

typedef int creates(pthread_t *, const pthread_attr_t *, void *(*)(void *), void *);

static long refused_thread;
static long starts;

__attribute__((constructor)) static void begin(void) {
  const char *number = getenv("REFUSED_THREAD");
  refused_thread = number ? strtol(number, NULL, 10) : 0;
}

static int refuse(void) {
  ssize_t told = write(3, "!", 1);
  (void)told;
  return EAGAIN;
}

int pthread_create(pthread_t *thread, const pthread_attr_t *attributes, void *(*run)(void *), void *argument) {
  if (refused_thread && __sync_add_and_fetch(&starts, 1) == refused_thread)
    return refuse();
  creates *create = (creates *)dlsym(RTLD_NEXT, "pthread_create");
  return create ? create(thread, attributes, run, argument) : EAGAIN;
}
