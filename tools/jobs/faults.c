/* Stands before the C library's calls in one process of amo_jobs, and has one of them fail. It
   takes itself out of the environment of that process, so no worker and no command has it.

   AMO_FAULT_ROOM  the folder of the test, an absolute path. A call counts if it is on a file in
                   there, on a pipe, on a standard stream that is read or written, or on a process.
   AMO_FAULT_AS    if it is set, the process is the one that has a word which begins so. All others
                   hand the library on, and nothing of them counts. Else it is the first process.
   AMO_FAULT_LOG   a file to which each call that counts is appended, a line each: CALL KIND COUNT
                   RESULT. RESULT below 0 is an error number, with ` !` after it if it was put
                   there.
   AMO_FAULT       CALL KIND COUNT ERROR: the COUNT-th call of this name on this kind fails with
                   this error number. A close closes its file all the same, as the kernel's does.
                   With SHORT in place of a number a write takes half of its bytes.

   KIND of a file is its name within the room, with N for a number and X for 16 hexadecimal digits
   or more, as run/command.N.N; that of the list of a process's children and of its state is its
   path, as /proc/N/stat. KIND of a process is `door` or `status` for the first ones that amo_jobs
   begins by vfork; `runner` for one with a word that begins with --as=; `worker` for the first one
   with the word `work` that a runner begins by posix_spawn; `command` for each that it begins by
   clone; `again` for all others, and `children` for any child. A pipe has the kind of the process for
   which it was made, and its number among the pipes of that process, as worker.2. The one that
   doesn't block is `bell`; those of a runner to and from its supervisor are `reports` and `orders` in
   the runner. A pipe is later.N as long as it isn't known for which process it was made.
   What a child does before it becomes another program counts if it is the first child of its kind.
   Its KIND begins with `child:` then, as child:command. */
#define _GNU_SOURCE
#include <dlfcn.h>
#include <errno.h>
#include <fcntl.h>
#include <limits.h>
#include <poll.h>
#include <signal.h>
#include <spawn.h>
#include <stdarg.h>
#include <stdio.h>
#include <stdlib.h>
#include <string.h>
#include <sys/file.h>
#include <sys/resource.h>
#include <sys/stat.h>
#include <sys/syscall.h>
#include <sys/time.h>
#include <sys/wait.h>
#include <unistd.h>

enum { MOST_FILES = 1024, MOST_NAME = 96, MOST_SITES = 512, MOST_PROCESSES = 256, SHORT = -1 };

struct site {
  char name[2 * MOST_NAME];
  long count;
};

/* One call: its name, the kind of what it is on, and whether it is to fail. */
struct call {
  const char *name;
  char kind[MOST_NAME];
  long count;
  int fails;
};

static const char *stages[] = {"door", "status", "worker"};
static char room[PATH_MAX], log_path[PATH_MAX], wanted_name[MOST_NAME], wanted_kind[MOST_NAME];
static int wanted_error, is_on, stage, pipes, children;
static const char *in_child; /* what a child is to become, before it does; else NULL */
static long wanted_count;
static pid_t (*real_fork)(void);
static int (*real_clone)(int (*)(void *), void *, int, void *, ...);
static int (*real_poll)(struct pollfd *, nfds_t, int);
static int (*real_spawn)(pid_t *, const char *, const posix_spawn_file_actions_t *,
                         const posix_spawnattr_t *, char *const[], char *const[]);
static struct site sites[MOST_SITES];
static char kinds[MOST_FILES][MOST_NAME]; /* of each descriptor that counts; empty: it doesn't */
static struct {
  pid_t process;
  const char *kind;
} begun[MOST_PROCESSES];

/* Returns whether a word of this process begins so. */
static int has_word(const char *start) {
  char words[16384];
  int file = syscall(SYS_openat, AT_FDCWD, "/proc/self/cmdline", O_RDONLY | O_CLOEXEC);
  long size = syscall(SYS_read, file, words, sizeof words - 1), found = 0;
  syscall(SYS_close, file);
  words[size < 0 ? 0 : size] = 0;
  for (long place = 0; place < size && !found; place += strlen(words + place) + 1)
    found = strncmp(words + place, start, strlen(start)) == 0;
  return found;
}

__attribute__((constructor)) static void begin(void) {
  const char *given = getenv("AMO_FAULT_ROOM"), *path = getenv("AMO_FAULT_LOG"),
             *fault = getenv("AMO_FAULT"), *as = getenv("AMO_FAULT_AS");
  is_on = given && path && (!as || has_word(as));
  *(void **)&real_fork = dlsym(RTLD_NEXT, "fork");
  *(void **)&real_clone = dlsym(RTLD_NEXT, "clone");
  *(void **)&real_poll = dlsym(RTLD_NEXT, "poll");
  *(void **)&real_spawn = dlsym(RTLD_NEXT, "posix_spawnp");
  if (!is_on)
    return;
  snprintf(room, sizeof room, "%s/", given);
  snprintf(log_path, sizeof log_path, "%s", path);
  char error[MOST_NAME];
  if (fault &&
      sscanf(fault, "%95s %95s %ld %95s", wanted_name, wanted_kind, &wanted_count, error) != 4)
    abort();
  if (fault)
    wanted_error = strcmp(error, "SHORT") == 0 ? SHORT : atoi(error);
  unsetenv("LD_PRELOAD"), unsetenv("AMO_FAULT_ROOM"), unsetenv("AMO_FAULT_LOG"),
      unsetenv("AMO_FAULT"), unsetenv("AMO_FAULT_AS");
  strcpy(kinds[0], "input"), strcpy(kinds[1], "output"), strcpy(kinds[2], "screen");
  if (has_word("--as=")) /* a runner, which has its number's lock and two pipes of its supervisor */
    stage = 2, strcpy(kinds[3], "run/runner.N"), strcpy(kinds[4], "reports"),
    strcpy(kinds[5], "orders");
  else if (has_word("crew"))
    stages[2] = "runner";
}

static int is_of(const char *part, long length, const char *digits, long least) {
  return length >= least && (long)strspn(part, digits) >= length;
}

/* The kind of a file that shows a process; 0 if it doesn't count. */
static int kind_of_process_file(const char *path, char *kind) {
  const char *last = strrchr(path, '/');
  int is_own = strncmp(path, "/proc/self/", 11) == 0;
  if (strcmp(last, "/stat") == 0 && !is_own)
    return strcpy(kind, "/proc/N/stat"), 1;
  if (strcmp(last, "/children") == 0)
    return strcpy(kind, is_own ? "/proc/self/children" : "/proc/N/children"), 1;
  return 0;
}

/* The kind of a path; 0 if it doesn't count. */
static int kind_of(int folder, const char *path, char *kind) {
  char whole[PATH_MAX], link[64];
  long length = 0, made = 0;
  if (!is_on)
    return 0;
  if (path[0] != '/') {
    snprintf(link, sizeof link, folder == AT_FDCWD ? "/proc/self/cwd" : "/proc/self/fd/%d", folder);
    length = syscall(SYS_readlinkat, AT_FDCWD, link, whole, sizeof whole - 2);
    if (length < 0)
      return 0;
    whole[length++] = '/';
  }
  snprintf(whole + length, sizeof whole - length, "%s", path);
  if (strncmp(whole, "/proc/", 6) == 0)
    return kind_of_process_file(whole, kind);
  if (strncmp(whole, room, strlen(room) - 1) != 0)
    return 0;
  if (strcmp(whole + strlen(room) - 1, "") == 0 || strcmp(whole, room) == 0)
    return strcpy(kind, "."), 1;
  if (whole[strlen(room) - 1] != '/')
    return 0;
  for (const char *part = whole + strlen(room); *part && made < MOST_NAME - 40;) {
    long size = strcspn(part, "./");
    if (is_of(part, size, "0123456789", 1) && size < 10)
      kind[made++] = 'N';
    else if (is_of(part, size, "0123456789abcdef", 16))
      kind[made++] = 'X';
    else
      made += snprintf(kind + made, MOST_NAME - made, "%.*s", (int)(size > 30 ? 30 : size), part);
    if (part[size])
      kind[made++] = part[size++];
    part += size;
  }
  kind[made] = 0;
  return 1;
}

/* The kind of a process, by its number. */
static const char *process_kind(pid_t process) {
  if (process == -1)
    return "children";
  for (int k = 0; k < children; k++)
    if (begun[k].process == process)
      return begun[k].kind;
  return in_child ? in_child : "other";
}

/* Counts the call, and says whether it is to fail. */
static struct call enter(const char *name, const char *kind) {
  struct call call = {.name = name};
  char whole[2 * MOST_NAME];
  int k = 0;
  snprintf(call.kind, sizeof call.kind, "%s%s", in_child ? "child:" : "", kind);
  snprintf(whole, sizeof whole, "%s %s", name, call.kind);
  while (k < MOST_SITES - 1 && sites[k].name[0] && strcmp(sites[k].name, whole) != 0)
    k++;
  strcpy(sites[k].name, whole);
  call.count = ++sites[k].count;
  call.fails = wanted_error && call.count == wanted_count && strcmp(name, wanted_name) == 0 &&
               strcmp(call.kind, wanted_kind) == 0;
  errno = call.fails ? wanted_error : errno;
  return call;
}

/* Writes it down, and gives its result back. (The log is opened each time, since a child closes all
 * files that it doesn't know.) */
static long leave(const struct call *call, long result) {
  char line[3 * MOST_NAME];
  int error = errno;
  int length = snprintf(line, sizeof line, "%s %s %ld %ld%s\n", call->name, call->kind, call->count,
                        result < 0 ? -(long)error : result, call->fails ? " !" : "");
  int file =
      syscall(SYS_openat, AT_FDCWD, log_path, O_WRONLY | O_CREAT | O_APPEND | O_CLOEXEC, 0600);
  if (syscall(SYS_write, file, line, length) != length)
    abort();
  syscall(SYS_close, file);
  errno = error;
  return result;
}

#define TRY(NAME, KIND, DO)                      \
  do {                                           \
    struct call call = enter(NAME, KIND);        \
    return leave(&call, call.fails ? -1 : (DO)); \
  } while (0)

/* The kind of an open file; NULL if it doesn't count. Of children it is what they are to become:
 * they have their parent's files. */
static const char *counted(int file) {
  if (!is_on || file < 0 || file >= MOST_FILES || !kinds[file][0])
    return NULL;
  return in_child ? in_child : kinds[file];
}
/* Of a standard stream only what is read and written counts. */
static const char *counted_file(int file) { return file > 2 ? counted(file) : NULL; }

static void name_file(int file, const char *kind) {
  if (file >= 0 && file < MOST_FILES)
    memmove(kinds[file], kind, strlen(kind) + 1);
}

static int open_named(int folder, const char *path, int flags, mode_t mode) {
  char kind[MOST_NAME];
  if (!kind_of(folder, path, kind))
    return syscall(SYS_openat, folder, path, flags, mode);
  struct call call = enter("open", kind);
  int file = call.fails ? -1 : (int)syscall(SYS_openat, folder, path, flags, mode);
  name_file(file, kind);
  return leave(&call, file);
}

#define MODE(FLAGS)                                                       \
  va_list more;                                                           \
  va_start(more, FLAGS);                                                  \
  mode_t mode = FLAGS & (O_CREAT | O_TMPFILE) ? va_arg(more, mode_t) : 0; \
  va_end(more)

int open(const char *path, int flags, ...) {
  MODE(flags);
  return open_named(AT_FDCWD, path, flags, mode);
}
int open64(const char *path, int flags, ...) {
  MODE(flags);
  return open_named(AT_FDCWD, path, flags, mode);
}
int openat(int folder, const char *path, int flags, ...) {
  MODE(flags);
  return open_named(folder, path, flags, mode);
}
int openat64(int folder, const char *path, int flags, ...) {
  MODE(flags);
  return open_named(folder, path, flags, mode);
}

int close(int file) {
  const char *kind = counted(file);
  if (!kind)
    return syscall(SYS_close, file);
  struct call call = enter("close", kind);
  kinds[file][0] = 0;
  int error = errno, result = syscall(SYS_close, file);
  errno = call.fails ? error : errno;
  return leave(&call, call.fails ? -1 : result);
}

ssize_t read(int file, void *bytes, size_t count) {
  const char *kind = counted(file);
  if (!kind)
    return syscall(SYS_read, file, bytes, count);
  TRY("read", kind, syscall(SYS_read, file, bytes, count));
}

ssize_t pread64(int file, void *bytes, size_t count, off64_t place) {
  const char *kind = counted(file);
  if (!kind)
    return syscall(SYS_pread64, file, bytes, count, place);
  TRY("pread", kind, syscall(SYS_pread64, file, bytes, count, place));
}
ssize_t pread(int file, void *bytes, size_t count, off_t place) {
  return pread64(file, bytes, count, place);
}

ssize_t write(int file, const void *bytes, size_t count) {
  const char *kind = counted(file);
  if (!kind)
    return syscall(SYS_write, file, bytes, count);
  struct call call = enter("write", kind);
  if (call.fails && wanted_error == SHORT)
    return leave(&call, syscall(SYS_write, file, bytes, count / 2));
  return leave(&call, call.fails ? -1 : syscall(SYS_write, file, bytes, count));
}

off_t lseek(int file, off_t place, int from) {
  const char *kind = counted_file(file);
  if (!kind)
    return syscall(SYS_lseek, file, place, from);
  TRY("lseek", kind, syscall(SYS_lseek, file, place, from));
}
off_t lseek64(int file, off_t place, int from) { return lseek(file, place, from); }

static int stat_handle(int file, struct stat *found) {
  const char *kind = counted_file(file);
  if (!kind)
    return syscall(SYS_fstat, file, found);
  TRY("fstat", kind, syscall(SYS_fstat, file, found));
}

int fstat(int file, struct stat *found) { return stat_handle(file, found); }
int fstat64(int file, struct stat64 *found) { return stat_handle(file, (struct stat *)found); }

static int stat_path(const char *name, int folder, const char *path, void *found, int flags) {
  char kind[MOST_NAME];
  if (!path[0] || !kind_of(folder, path, kind))
    return syscall(SYS_newfstatat, folder, path, found, flags);
  TRY(name, kind, syscall(SYS_newfstatat, folder, path, found, flags));
}

int stat(const char *restrict path, struct stat *restrict found) {
  return stat_path("stat", AT_FDCWD, path, found, 0);
}
int stat64(const char *restrict path, struct stat64 *restrict found) {
  return stat_path("stat", AT_FDCWD, path, found, 0);
}
int lstat(const char *restrict path, struct stat *restrict found) {
  return stat_path("lstat", AT_FDCWD, path, found, AT_SYMLINK_NOFOLLOW);
}
int lstat64(const char *restrict path, struct stat64 *restrict found) {
  return stat_path("lstat", AT_FDCWD, path, found, AT_SYMLINK_NOFOLLOW);
}
int fstatat(int folder, const char *restrict path, struct stat *restrict found, int flags) {
  return stat_path(flags & AT_SYMLINK_NOFOLLOW ? "lstat" : "stat", folder, path, found, flags);
}
int fstatat64(int folder, const char *restrict path, struct stat64 *restrict found, int flags) {
  return stat_path(flags & AT_SYMLINK_NOFOLLOW ? "lstat" : "stat", folder, path, found, flags);
}

static int control(const char *name, int file, long number, int command, void *given) {
  const char *kind = counted_file(file);
  if (!kind)
    return syscall(number, file, command, given);
  struct call call = enter(name, kind);
  int result = call.fails ? -1 : (int)syscall(number, file, command, given);
  if (number == SYS_fcntl && (command == F_DUPFD || command == F_DUPFD_CLOEXEC))
    name_file(result, kinds[file]);
  return leave(&call, result);
}

#define CONTROL(NAME, NUMBER)         \
  va_list more;                       \
  va_start(more, command);            \
  void *given = va_arg(more, void *); \
  va_end(more);                       \
  return control(NAME, file, NUMBER, (int)command, given)

int fcntl(int file, int command, ...) { CONTROL("fcntl", SYS_fcntl); }
int fcntl64(int file, int command, ...) { CONTROL("fcntl", SYS_fcntl); }
int ioctl(int file, unsigned long command, ...) { CONTROL("ioctl", SYS_ioctl); }

int dup2(int file, int other) {
  const char *kind = counted(file);
  if (!kind)
    return syscall(SYS_dup3, file, other, 0);
  struct call call = enter("dup2", kind);
  int result = call.fails ? -1 : (int)syscall(SYS_dup3, file, other, 0);
  if (!in_child) /* which may share its parent's memory */
    name_file(result, kinds[file]);
  return leave(&call, result);
}

int flock(int file, int how) {
  const char *kind = counted(file);
  if (!kind)
    return syscall(SYS_flock, file, how);
  TRY("flock", kind, syscall(SYS_flock, file, how));
}

int fsync(int file) {
  const char *kind = counted(file);
  if (!kind)
    return syscall(SYS_fsync, file);
  TRY("fsync", kind, 0); /* nothing here outlives a power cut, so nothing goes to the disk */
}

/* A call on a path, and on a second one if it has one. */
#define ON_PATH(NAME, PATH, DO)         \
  do {                                  \
    char kind[MOST_NAME];               \
    if (!kind_of(AT_FDCWD, PATH, kind)) \
      return DO;                        \
    TRY(NAME, kind, DO);                \
  } while (0)

int renameat2(int old_folder, const char *old, int new_folder, const char *new, unsigned flags) {
  ON_PATH("rename", old, syscall(SYS_renameat2, old_folder, old, new_folder, new, flags));
}

int rename(const char *old, const char *new) {
  ON_PATH("rename", old, syscall(SYS_renameat2, AT_FDCWD, old, AT_FDCWD, new, 0));
}
int link(const char *old, const char *new) {
  ON_PATH("link", old, syscall(SYS_linkat, AT_FDCWD, old, AT_FDCWD, new, 0));
}
int unlink(const char *path) { ON_PATH("unlink", path, syscall(SYS_unlinkat, AT_FDCWD, path, 0)); }
int rmdir(const char *path) {
  ON_PATH("rmdir", path, syscall(SYS_unlinkat, AT_FDCWD, path, AT_REMOVEDIR));
}
int mkdir(const char *path, mode_t mode) {
  ON_PATH("mkdir", path, syscall(SYS_mkdirat, AT_FDCWD, path, mode));
}
ssize_t readlink(const char *restrict path, char *restrict found, size_t size) {
  ON_PATH("readlink", path, syscall(SYS_readlinkat, AT_FDCWD, path, found, size));
}

int pipe2(int files[2], int flags) {
  char kind[MOST_NAME];
  if (!is_on || in_child)
    return syscall(SYS_pipe2, files, flags);
  if (flags & O_NONBLOCK)
    strcpy(kind, "bell");
  else
    snprintf(kind, sizeof kind, "%s.%d", stage < 3 ? stages[stage] : "later", ++pipes);
  struct call call = enter("pipe2", kind);
  int result = call.fails ? -1 : (int)syscall(SYS_pipe2, files, flags);
  if (result == 0)
    name_file(files[0], kind), name_file(files[1], kind);
  return leave(&call, result);
}
int pipe(int files[2]) { return pipe2(files, 0); }

/* Gives the pipes of `later` the name of the process for which they were made. */
static void name_pipes(const char *kind) {
  for (int file = 0; file < MOST_FILES; file++)
    if (strncmp(kinds[file], "later.", 6) == 0) {
      int number = atoi(kinds[file] + 6);
      snprintf(kinds[file], MOST_NAME, "%s.%d", kind, number);
    }
}

static void note_process(pid_t process, const char *kind) {
  name_pipes(kind);
  pipes = 0, stage += strcmp(kind, "command") != 0;
  if (children < MOST_PROCESSES)
    begun[children].process = process, begun[children++].kind = kind;
}

/* Python begins door and status by vfork; here that is a fork, since no function gives back twice
   from a vfork. If a vfork fails Python tries a fork: that fails then too, as it would if there were
   no room for a process. */
static pid_t begun_by(const char *name, const char *kind) {
  static int has_failed;
  if (!is_on || in_child)
    return real_fork();
  if (has_failed) {
    has_failed = 0, errno = wanted_error;
    return -1;
  }
  struct call call = enter(name, kind);
  pid_t process = call.fails ? -1 : real_fork();
  has_failed = call.fails && strcmp(name, "vfork") == 0;
  if (process != 0)
    leave(&call, process > 0 ? 1 : process);
  if (process < 0)
    return process;
  if (process == 0)
    in_child = kind, is_on = call.count == 1;
  else
    note_process(process, kind);
  return process;
}

int posix_spawnp(pid_t *process, const char *file, const posix_spawn_file_actions_t *actions,
                 const posix_spawnattr_t *how, char *const words[], char *const surroundings[]) {
  if (!is_on || in_child)
    return real_spawn(process, file, actions, how, words, surroundings);
  int is_worker = words[0] && words[1] && strcmp(words[1], "work") == 0, is_runner = 0;
  for (int k = 0; words[k]; k++)
    is_runner |= strncmp(words[k], "--as=", 5) == 0;
  const char *kind = is_runner                ? "runner"
                     : is_worker && stage < 3 ? stages[stage]
                                              : "again";
  struct call call = enter("spawn", kind);
  int error = call.fails ? wanted_error
                         : real_spawn(process, file, actions, how, words, surroundings);
  errno = error;
  leave(&call, error ? -1 : 1);
  if (!error)
    note_process(*process, kind);
  return error;
}

/* A runner begins each command by clone. The child shares this memory, and this process stands still
   until the child is another program, or is gone. */
int clone(int (*function)(void *), void *stack, int flags, void *given, ...) {
  if (!is_on || in_child)
    return real_clone(function, stack, flags, given);
  struct call call = enter("clone", "command");
  in_child = "command", is_on = call.count == 1;
  int process = call.fails ? -1 : real_clone(function, stack, flags, given), error = errno;
  in_child = NULL, is_on = 1, errno = call.fails ? wanted_error : error;
  leave(&call, process > 0 ? 1 : process);
  if (process > 0)
    note_process(process, "command");
  return process;
}

pid_t fork(void) { return begun_by("fork", stage < 3 ? stages[stage] : "again"); }
pid_t vfork(void) { return begun_by("vfork", stage < 3 ? stages[stage] : "again"); }

static pid_t waited(const char *name, pid_t process, int *status, int options,
                    struct rusage *used) {
  if (!is_on || in_child)
    return syscall(SYS_wait4, process, status, options, used);
  struct call call = enter(name, process_kind(process));
  pid_t found = call.fails ? -1 : (pid_t)syscall(SYS_wait4, process, status, options, used);
  leave(&call, found > 0 ? 1 : found);
  return found;
}

pid_t waitpid(pid_t process, int *status, int options) {
  return waited("waitpid", process, status, options, NULL);
}
pid_t wait4(pid_t process, int *status, int options, struct rusage *used) {
  return waited("waitpid", process, status, options, used);
}

int waitid(idtype_t type, id_t process, siginfo_t *found, int options) {
  if (!is_on || in_child)
    return syscall(SYS_waitid, type, process, found, options, NULL);
  TRY("waitid", process_kind(process), syscall(SYS_waitid, type, process, found, options, NULL));
}

int kill(pid_t process, int number) {
  if (!is_on)
    return syscall(SYS_kill, process, number);
  TRY("kill", process_kind(process < 0 ? -process : process), syscall(SYS_kill, process, number));
}
int killpg(pid_t group, int number) { return kill(-group, number); }

int poll(struct pollfd *files, nfds_t count, int time) {
  if (!is_on || in_child)
    return real_poll(files, count, time);
  TRY("poll", "crew", real_poll(files, count, time));
}
int __poll_chk(struct pollfd *files, nfds_t count, int time, size_t room) {
  (void)room;
  return poll(files, count, time);
}

#define IN_CHILD(NAME, DO)   \
  do {                       \
    if (!is_on || !in_child) \
      return DO;             \
    TRY(NAME, in_child, DO); \
  } while (0)

pid_t setsid(void) { IN_CHILD("setsid", syscall(SYS_setsid)); }
int setitimer(__itimer_which_t which, const struct itimerval *restrict time,
              struct itimerval *restrict old) {
  IN_CHILD("setitimer", syscall(SYS_setitimer, which, time, old));
}
/* (What it gives back is written down before it, since it doesn't come back if it went well.) */
int execve(const char *path, char *const words[], char *const surroundings[]) {
  if (!is_on || !in_child)
    return syscall(SYS_execve, path, words, surroundings);
  struct call call = enter("execve", in_child);
  leave(&call, call.fails ? -1 : 0);
  return call.fails ? -1 : syscall(SYS_execve, path, words, surroundings);
}
int execv(const char *path, char *const words[]) { return execve(path, words, environ); }
