/* The calls of the system that each line of a list costs and that Python has not, or that take long
   in Python: a command's start with its lock and its outputs, and the look at what is left. Begin
   with `amo_start`. `library.py` has this file built. If a call fails, a function returns -errno.

   A file of a lock serves one command after the other, like outputs that stay empty. Between two it
   has the number SPARE, and the handle that has just shown that the lock is free. */
#define _GNU_SOURCE
#include <errno.h>
#include <fcntl.h>
#include <limits.h>
#include <sched.h>
#include <signal.h>
#include <stdio.h>
#include <sys/file.h>
#include <sys/stat.h>
#include <sys/time.h>
#include <sys/wait.h>
#include <time.h>
#include <unistd.h>

enum { NOT_GOT = -4096, FURTHER = 50, STACK = 1 << 16 }; /* no error has the number 4096 */
enum { LOCK, FILES = 3, SPARE = 0 };                     /* no attempt has the number SPARE */
enum { OUTPUT = O_WRONLY | O_CREAT | O_EXCL | O_APPEND | O_CLOEXEC };

/* Returns this file if a path still leads to it. */
static int same(const char *path, int file) {
  struct stat named, opened;
  if (stat(path, &named) < 0)
    return errno == ENOENT ? NOT_GOT : -errno;
  if (fstat(file, &opened) < 0)
    return -errno;
  return named.st_dev == opened.st_dev && named.st_ino == opened.st_ino ? file : NOT_GOT;
}

/* Opens a file, takes its exclusive lock, and returns the descriptor; NOT_GOT if another process
   has the lock, or if the name has gone to another file. If `makes`, a missing file is made. */
int amo_lock(const char *path, int makes) {
  int found, file = open(path, O_RDONLY | O_CLOEXEC | (makes ? O_CREAT : 0), 0600);
  if (file < 0)
    return -errno;
  while ((found = flock(file, LOCK_EX | LOCK_NB)) < 0 && errno == EINTR)
    ;
  found = found == 0 ? same(path, file) : errno == EWOULDBLOCK ? NOT_GOT : -errno;
  if (found < 0)
    close(file);
  return found;
}

/* Reads the numbers of this process's children from such a list, without one that is known, and
   returns how many they are. */
int amo_others(int list, int known, int *numbers, int room) {
  char text[4096];
  int count = 0, number = 0;
  ssize_t size;
  for (off_t place = 0; (size = pread(list, text, sizeof text, place)) > 0; place += size)
    for (ssize_t k = 0; k < size; k++)
      if (text[k] != ' ')
        number = 10 * number + text[k] - '0';
      else if (number == known)
        number = 0;
      else if (count == room)
        return -EOVERFLOW;
      else
        numbers[count++] = number, number = 0;
  return size < 0 ? -errno : count;
}

/* The commands of a runner, and the one that is started. */
struct start {
  char *const *programs;     /* the paths of the program, which are tried in their order */
  char *const *words;        /* its arguments */
  char *const *surroundings; /* its environment; NULL ends each of these lists */
  const int *defaults;       /* the signals that it handles as by default; 0 ends the list */
  struct itimerval timer;    /* the kernel's timer, which ends it by SIGALRM; 0: none */
  const char *starts[FILES]; /* how the names of its files begin: of its lock, output and errors */
  long serial;               /* how they end */
  long former[FILES];        /* and how those below end that an earlier command left */
  int files[FILES];          /* below 0: none */
  int failed;                /* the file that could not be made; FILES: none */
  int error;                 /* why the child could not become the command; 0: it did */
  int status;                /* that of the command, if it has ended; below 0: it runs */
  sigset_t mask;             /* the signals that are blocked in it */
};

static void put_name(const struct start *it, int kind, long serial, char *name) {
  snprintf(name, PATH_MAX, "%s%ld", it->starts[kind], serial);
}

static void give_up(int *file) { close(*file), *file = -1; }

static int is_fresh(int file) { /* it is empty, and has one name alone */
  struct stat found;
  return fstat(file, &found) == 0 && found.st_size == 0 && found.st_nlink == 1;
}

/* Has a file ready. One that an earlier command left serves this one, if nothing has its name. An
   output that is there already is another run's, or a person's, and is refused. */
static int prepare(struct start *it, int kind, const char *name) {
  char former[PATH_MAX];
  int *file = &it->files[kind];
  put_name(it, kind, it->former[kind], former);
  if (*file >= 0 && (renameat2(AT_FDCWD, former, AT_FDCWD, name, RENAME_NOREPLACE) < 0 ||
                     (kind == LOCK && same(name, *file) < 0))) {
    unlink(former);
    give_up(file);
  }
  if (*file < 0 && kind == LOCK)
    *file = amo_lock(name, 1);
  else if (*file < 0 && (*file = open(name, OUTPUT, 0600)) < 0)
    *file = -errno;
  it->former[kind] = it->serial;
  return *file;
}

/* Makes and locks the lock's file, and has the outputs ready. */
static int make_files(struct start *it) {
  char name[PATH_MAX];
  int found = 0;
  for (it->failed = -1; found >= 0 && ++it->failed < FILES;) {
    put_name(it, it->failed, it->serial, name);
    found = prepare(it, it->failed, name);
  }
  return found;
}

/* Keeps the outputs that are fresh for the next command, if theirs `is_over`; closes the others. */
void amo_keep(struct start *it, int is_over) {
  for (int kind = LOCK + 1; kind < FILES; kind++)
    if (!is_over || !is_fresh(it->files[kind]))
      give_up(&it->files[kind]);
}

/* Returns 1 if nobody has the lock of the attempt `serial`: a handle that is opened anew gets it,
   or its file is missing (the caller has the runner's lock). The name is free then: a fresh file
   serves the next command, with that handle, and one in which a command has written is removed. */
int amo_free(struct start *it) {
  char name[PATH_MAX], spare[PATH_MAX];
  put_name(it, LOCK, it->serial, name), put_name(it, LOCK, SPARE, spare);
  int lock = amo_lock(name, 0);
  if (lock < 0)
    return lock == -ENOENT;
  if (is_fresh(lock) && it->files[LOCK] < 0 && rename(name, spare) == 0)
    it->files[LOCK] = lock, it->former[LOCK] = SPARE;
  else
    unlink(name), close(lock);
  return 1;
}

/* Returns 1 if nothing is left of the command of `serial`, which has the outputs: this process has
   no child but the known one, and nobody has the lock. */
int amo_over(struct start *it, int list, int known) {
  if (amo_others(list, known, NULL, 0) != 0 || !amo_free(it))
    return 0;
  amo_keep(it, 1);
  return 1;
}

/* In the child: hands the files on. The lock is standard input, since sudo closes all other
   descriptors, and a further descriptor, since a shell that begins something with `&` drops the
   first. No script uses a number from FURTHER on. */
static int hand_on(const int *files) {
  int further = FURTHER;
  while (further == files[0] || further == files[1] || further == files[2])
    further++;
  for (int kind = 0; kind < 3; kind++)
    if (dup2(files[kind], kind) < 0)
      return -1;
  return dup2(files[0], further);
}

/* Executes the program. Of several failures, the first one that is not a missing file counts. */
static int execute(const struct start *it) {
  int error = ENOENT;
  for (char *const *path = it->programs; *path; path++) {
    execve(*path, it->words, it->surroundings);
    if (error == ENOENT || error == ENOTDIR)
      error = errno;
  }
  return error;
}

/* In the child: becomes the command, or returns why it can't. */
static int become(struct start *it) {
  if (setsid() < 0 || hand_on(it->files) < 0)
    return errno;
  for (const int *number = it->defaults; *number; number++)
    signal(*number, SIG_DFL);
  if (timerisset(&it->timer.it_value)) {
    if (setitimer(ITIMER_REAL, &it->timer, NULL) < 0)
      return errno;
    sigdelset(&it->mask, SIGALRM);
  }
  sigprocmask(SIG_SETMASK, &it->mask, NULL);
  return execute(it);
}

/* The child. It shares the memory of its parent, which stands still until the child has become the
   command or is gone. Its end must not be taken for an end of the command: it kills itself. */
static int child(void *given) {
  struct start *it = given;
  for (it->error = become(it);;)
    kill(getpid(), SIGKILL);
  return 0;
}

/* Makes the child, while all signals are blocked. */
static int begin(struct start *it) {
  static _Alignas(16) char stack[STACK];
  int found, process = clone(child, stack + STACK, CLONE_VM | CLONE_VFORK | SIGCHLD, it);
  if (process < 0)
    return -errno;
  while ((found = it->error ? waitpid(process, NULL, 0) : 0) < 0 && errno == EINTR)
    ;
  return found > 0 ? 0 : process;
}

/* Waits a moment for the end of the command, while its signal is blocked. So a short command needs
   no handler. The signal of another child is sent once more, for the handler. */
static void wait_for_end(struct start *it, int process) {
  const struct timespec moment = {0, 10 * 1000 * 1000};
  siginfo_t other = {0};
  sigset_t end;
  sigemptyset(&end), sigaddset(&end, SIGCHLD);
  if (sigtimedwait(&end, NULL, &moment) < 0)
    return;
  int status = -1, is_own = waitpid(process, &status, WNOHANG) == process;
  it->status = is_own ? status : -1;
  waitid(P_ALL, 0, &other, WEXITED | WNOHANG | WNOWAIT);
  if (!is_own || other.si_pid)
    raise(SIGCHLD);
}

/* Starts a command in a session of its own, and returns its process. Returns 0 if its child could
   not become the command, and was reaped: `error` is the reason. A negative number means that no
   process was made. In each other case the command counts as begun. The end of a short command is
   waited for: it was reaped then, and `status` has how it ended. */
int amo_start(struct start *it) {
  sigset_t every, mask;
  int found = make_files(it);
  if (found < 0)
    return found;
  sigfillset(&every);
  sigprocmask(SIG_SETMASK, &every, &mask);
  it->mask = mask, it->error = 0, it->status = -1;
  found = begin(it);
  if (found > 0)
    wait_for_end(it, found);
  sigprocmask(SIG_SETMASK, &mask, NULL);
  return found;
}
