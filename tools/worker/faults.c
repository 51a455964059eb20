/* Stands before the C library's calls that touch files: preloaded into a worker, it numbers those that touch the run's folder,
   the jobs' file, or the partner (standard input and output), writes them down, and has some fail or end the process.

   AMO_RUN     the run's folder, an absolute path; calls on other files pass
   AMO_JOBS    the jobs' file, an absolute path, named JOBS in the log
   AMO_LOG     a file to which each call is appended, a line each:
               PROCESS NUMBER CALL FILE DESCRIPTOR PLACE LENGTH RESULT MORE
               FILE is the name within the run's folder, `.` the folder, `..` the one above; a folder RUN.new-X beside the
               run's is `new-X`, and its files are `new-X/NAME`; LENGTH of an open is 1 where it may
               make the file, PLACE of a lock how it is asked for; RESULT below 0 is an error number;
               MORE is what was written, in hexadecimal, how a file was opened, the other name, or `-`. The log is locked from
               before a call until it is written down: the order of lines is that of the calls, over all processes.
   AMO_BYTES   set where MORE is to have what was written to files, and not to the partner alone
   AMO_FAULTS  NUMBER:WHAT, with commas between: WHAT befalls the call of this number, from 1, or with NUMBER+ each from there on
               that needs room on the disk; with sNUMBER it is counted from the first line that is said to the partner. WHAT is
               kill_before, kill_after, stop_before, stop_after, slow (it begins 30 milliseconds later), short (half of the bytes
               are moved), or an error number.
   AMO_HARNESS the process that tries: its own children are killed when it dies. What these have begun isn't: it is to see its
               own parent die, as a worker its runner, and ends by that.

   AMO_SYSTEM  a folder: a file that it has of /proc or /sys, by its whole path, is opened in place of the system's own

   No sync goes to the disk: what it would keep is what the log says. So tests are quick, and a power cut is made from the log. */
#define _GNU_SOURCE
#include <errno.h>
#include <fcntl.h>
#include <limits.h>
#include <signal.h>
#include <stdarg.h>
#include <stdio.h>
#include <stdlib.h>
#include <string.h>
#include <sys/file.h>
#include <sys/prctl.h>
#include <sys/stat.h>
#include <sys/syscall.h>
#include <sys/uio.h>
#include <time.h>
#include <unistd.h>

enum { MOST_FILES = 1024, MOST_FAULTS = 16, MOST_NAME = 96 };
enum { KILL_BEFORE = -1, KILL_AFTER = -2, STOP_BEFORE = -3, STOP_AFTER = -4, SHORT = -5, SLOW = -6, NONE = 0 };
/* else an error number */

struct fault {
  long number;
  int onwards, since_said, what;
};

/* One call: what it is, on what, and what befalls it. */
struct call {
  const char *name, *file;
  int descriptor, fault;
  long place, length, number;
};

static const char *run, *jobs, *system_room;
static int is_on, log_file = -1, keeps_bytes, fault_count;
static long calls, calls_since_said;
static struct fault faults[MOST_FAULTS];
static char names[MOST_FILES][MOST_NAME]; /* of each open descriptor that counts; empty: it doesn't */

static int fault_named(const char *word) {
  static const char *const words[] = {"kill_before", "kill_after", "stop_before", "stop_after", "short", "slow"};
  for (int k = 0; k < 6; k++)
    if (strncmp(word, words[k], strlen(words[k])) == 0)
      return -1 - k;
  return atoi(word);
}

static void read_faults(const char *text) {
  while (text && *text && fault_count < MOST_FAULTS) {
    char *end;
    struct fault *it = &faults[fault_count++];
    it->since_said = *text == 's';
    it->number = strtol(text + it->since_said, &end, 10);
    it->onwards = *end == '+';
    it->what = fault_named(end + it->onwards + 1);
    text = strchr(end, ',');
    text += text != NULL;
  }
}

/* Has a child of the harness killed when that dies. */
static void die_with_harness(void) {
  const char *harness = getenv("AMO_HARNESS");
  if (harness && getppid() == atoi(harness))
    prctl(PR_SET_PDEATHSIG, SIGKILL);
}

__attribute__((constructor)) static void begin(void) {
  const char *path = getenv("AMO_LOG");
  die_with_harness();
  run = getenv("AMO_RUN"), jobs = getenv("AMO_JOBS"), keeps_bytes = getenv("AMO_BYTES") != NULL;
  system_room = getenv("AMO_SYSTEM");
  is_on = run != NULL;
  read_faults(getenv("AMO_FAULTS"));
  if (is_on && path) {
    int file = syscall(SYS_openat, AT_FDCWD, path, O_WRONLY | O_CREAT | O_APPEND | O_CLOEXEC, 0600);
    log_file = syscall(SYS_fcntl, file, F_DUPFD_CLOEXEC, 1000); /* out of the way of the program's own */
    syscall(SYS_close, file);
  }
  strcpy(names[0], "IN"), strcpy(names[1], "OUT");
}

/* The name by which a path is told in the log, if it counts. */
static int name_of(int folder, const char *path, char *name) {
  char whole[PATH_MAX], link[64];
  long length = 0;
  if (!is_on)
    return 0;
  if (path[0] != '/') {
    snprintf(link, sizeof link, folder == AT_FDCWD ? "/proc/self/cwd" : "/proc/self/fd/%d", folder);
    length = syscall(SYS_readlink, link, whole, sizeof whole - 2);
    if (length < 0)
      return 0;
    whole[length++] = '/';
  }
  snprintf(whole + length, sizeof whole - length, "%s", path);
  length = strlen(whole);
  while (length > 1 && (whole[length - 1] == '/' || (whole[length - 1] == '.' && whole[length - 2] == '/')))
    whole[--length] = 0;
  long front = strlen(run);
  const char *above = strrchr(run, '/');
  if (jobs && strcmp(whole, jobs) == 0)
    strcpy(name, "JOBS");
  else if (strcmp(whole, run) == 0)
    strcpy(name, ".");
  else if (length == above - run && strncmp(whole, run, length) == 0)
    strcpy(name, "..");
  else if (strncmp(whole, run, front) == 0 && (whole[front] == '/' || strncmp(whole + front, ".new-", 5) == 0))
    snprintf(name, MOST_NAME, "%s", whole + front + 1);
  else
    return 0;
  return 1;
}

static int counts(int descriptor) { return is_on && descriptor >= 0 && descriptor < MOST_FILES && names[descriptor][0]; }

static void end_by(int signal) {
  syscall(SYS_kill, syscall(SYS_getpid), signal);
}

/* Returns whether it needs room on the disk. */
static int takes_room(const struct call *call) {
  static const char *const those[] = {"write", "cut", "sync", "rename", "folder", "link"};
  for (int k = 0; k < 6; k++)
    if (strcmp(call->name, those[k]) == 0)
      return 1;
  return strcmp(call->name, "open") == 0 && call->length == 1;
}

/* Gives the call its number, and what befalls it. */
static void number_call(struct call *call) {
  call->number = ++calls;
  calls_since_said += calls_since_said > 0 || strcmp(call->name, "say") == 0;
  for (int k = 0; k < fault_count; k++) {
    const struct fault *it = &faults[k];
    long number = it->since_said ? calls_since_said : calls;
    if (it->onwards ? number >= it->number && takes_room(call) : number == it->number)
      call->fault = it->what;
  }
  if (call->fault == SLOW)
    nanosleep(&(struct timespec){0, 30000000}, NULL);
  if (call->fault == STOP_BEFORE)
    end_by(SIGSTOP);
}

/* Locks the log until the call is written down; -1 with errno where the call is refused. */
static int hold_log(const struct call *call) {
  if (log_file >= 0)
    syscall(SYS_flock, log_file, LOCK_EX);
  if (call->fault == KILL_BEFORE)
    end_by(SIGKILL);
  errno = call->fault > 0 ? call->fault : errno;
  return call->fault > 0 ? -1 : 0;
}

static int enter(struct call *call) {
  number_call(call);
  return hold_log(call);
}

static void write_all(const char *text, long length) {
  for (long wrote = 0; length > 0; text += wrote, length -= wrote)
    if ((wrote = syscall(SYS_write, log_file, text, length)) < 0)
      abort();
}

static void write_bytes(const unsigned char *bytes, long length) {
  char text[2 * 4096];
  for (long at = 0; at < length; at += 4096) {
    long count = length - at < 4096 ? length - at : 4096;
    for (long k = 0; k < count; k++) {
      text[2 * k] = "0123456789abcdef"[bytes[at + k] >> 4];
      text[2 * k + 1] = "0123456789abcdef"[bytes[at + k] & 15];
    }
    write_all(text, 2 * count);
  }
}

/* After it: writes it down, with the text or the bytes that belong to it. */
static long leave(struct call *call, long result, const char *text, const void *bytes) {
  int error = errno;
  if (log_file >= 0) {
    char line[256];
    const char *more = text ? text : bytes && result > 0 ? "" : "-";
    int length = snprintf(line, sizeof line, "%ld %ld %s %s %d %ld %ld %ld %s", syscall(SYS_getpid), call->number, call->name,
                          call->file, call->descriptor, call->place, call->length, result < 0 ? -(long)error : result, more);
    write_all(line, length);
    if (bytes && result > 0)
      write_bytes(bytes, result);
    write_all("\n", 1);
  }
  if (call->fault == KILL_AFTER)
    end_by(SIGKILL);
  if (log_file >= 0)
    syscall(SYS_flock, log_file, LOCK_UN);
  if (call->fault == STOP_AFTER)
    end_by(SIGSTOP);
  errno = error;
  return result;
}

static long moved(const struct call *call) { return call->fault == SHORT && call->length > 1 ? call->length / 2 : call->length; }

/* The path of what is opened in place of a file of the system's, in `other`; else the path itself. */
static const char *instead_of(const char *path, char *other) {
  struct statx found;
  if (!system_room || (strncmp(path, "/proc/", 6) != 0 && strncmp(path, "/sys/", 5) != 0))
    return path;
  snprintf(other, PATH_MAX, "%s%s", system_room, path);
  int is_there = syscall(SYS_statx, AT_FDCWD, other, AT_SYMLINK_NOFOLLOW, STATX_TYPE, &found) == 0;
  return is_there ? other : path;
}

static int open_named(int folder, const char *path, int flags, mode_t mode) {
  char name[MOST_NAME], how[32], other[PATH_MAX];
  path = instead_of(path, other);
  if (!name_of(folder, path, name))
    return syscall(SYS_openat, folder, path, flags, mode);
  struct call call = {.name = "open", .file = name, .length = flags & O_CREAT ? 1 : 0};
  snprintf(how, sizeof how, "%s%s%s", flags & O_ACCMODE ? "w" : "r", flags & O_CREAT ? "c" : "", flags & O_TRUNC ? "t" : "");
  int file = enter(&call) < 0 ? -1 : (int)syscall(SYS_openat, folder, path, flags, mode);
  if (file >= 0 && file < MOST_FILES)
    strcpy(names[file], name);
  call.descriptor = file;
  return leave(&call, file, how, NULL);
}

static mode_t mode_in(int flags, va_list more) { return flags & (O_CREAT | O_TMPFILE) ? va_arg(more, mode_t) : 0; }

#define MODE(FLAGS)                                                                                                              \
  va_list more;                                                                                                                  \
  va_start(more, FLAGS);                                                                                                         \
  mode_t mode = mode_in(FLAGS, more);                                                                                            \
  va_end(more)

int open(const char *path, int flags, ...) {
  MODE(flags);
  return open_named(AT_FDCWD, path, flags, mode);
}
int open64(const char *path, int flags, ...) {
  MODE(flags);
  return open_named(AT_FDCWD, path, flags, mode);
}
int openat(int folder, const char *path, int flags, ...) {
  MODE(flags);
  return open_named(folder, path, flags, mode);
}
int openat64(int folder, const char *path, int flags, ...) {
  MODE(flags);
  return open_named(folder, path, flags, mode);
}

/* The path with no link in it: of a link in AMO_SYSTEM its text, as it is. */
char *realpath(const char *restrict path, char *restrict resolved) {
  char other[PATH_MAX], link[64], *found = resolved ? resolved : malloc(PATH_MAX);
  const char *from = instead_of(path, other);
  int file = -1, error;
  if (from == path) {
    file = syscall(SYS_openat, AT_FDCWD, path, O_PATH | O_CLOEXEC);
    snprintf(link, sizeof link, "/proc/self/fd/%d", file);
    from = link;
  }
  long length = file < 0 && from == link ? -1 : syscall(SYS_readlink, from, found, PATH_MAX - 1);
  error = errno;
  if (file >= 0)
    syscall(SYS_close, file);
  errno = error;
  if (length >= 0)
    found[length] = 0;
  else if (!resolved)
    free(found);
  return length >= 0 ? found : NULL;
}

/* Another descriptor of the same open file. */
static int copied(int file, int command, long lowest) {
  struct call call = {"copy", names[file], -1, 0, file, 0, 0};
  long other = enter(&call) < 0 ? -1 : syscall(SYS_fcntl, file, command, lowest);
  if (other >= 0 && other < MOST_FILES)
    memcpy(names[other], names[file], MOST_NAME);
  call.descriptor = (int)other;
  return (int)leave(&call, other, NULL, NULL);
}

int fcntl(int file, int command, ...) {
  va_list more;
  va_start(more, command);
  void *given = va_arg(more, void *);
  va_end(more);
  int copies = command == F_DUPFD || command == F_DUPFD_CLOEXEC;
  return copies && file > 2 && counts(file) ? copied(file, command, (long)given) : (int)syscall(SYS_fcntl, file, command, given);
}

int dup(int file) { return file > 2 && counts(file) ? copied(file, F_DUPFD, 0) : (int)syscall(SYS_dup, file); }

int close(int file) {
  if (is_on && file > 2 && file < MOST_FILES)
    names[file][0] = 0;
  return syscall(SYS_close, file);
}

static long place_of(int file) { return syscall(SYS_lseek, file, 0, SEEK_CUR); }

ssize_t pread(int file, void *bytes, size_t count, off_t place) {
  if (!counts(file))
    return syscall(SYS_pread64, file, bytes, count, place);
  struct call call = {"read", names[file], file, 0, place, count, 0};
  return leave(&call, enter(&call) < 0 ? -1 : syscall(SYS_pread64, file, bytes, moved(&call), place), NULL, NULL);
}

ssize_t pwrite(int file, const void *bytes, size_t count, off_t place) {
  if (!counts(file))
    return syscall(SYS_pwrite64, file, bytes, count, place);
  struct call call = {"write", names[file], file, 0, place, count, 0};
  long result = enter(&call) < 0 ? -1 : syscall(SYS_pwrite64, file, bytes, moved(&call), place);
  return leave(&call, result, NULL, keeps_bytes ? bytes : NULL);
}

ssize_t pread64(int file, void *bytes, size_t count, off_t place) { return pread(file, bytes, count, place); }
ssize_t pwrite64(int file, const void *bytes, size_t count, off_t place) { return pwrite(file, bytes, count, place); }

ssize_t read(int file, void *bytes, size_t count) {
  if (!counts(file))
    return syscall(SYS_read, file, bytes, count);
  if (file == 0) { /* it may wait long, so nobody is kept from the log meanwhile */
    struct call call = {"hear", names[0], 0, 0, 0, count, 0};
    number_call(&call);
    long result = call.fault > 0 || call.fault == KILL_BEFORE ? 0 : syscall(SYS_read, file, bytes, count);
    return leave(&call, hold_log(&call) < 0 ? -1 : result, NULL, bytes);
  }
  struct call call = {"read", names[file], file, 0, place_of(file), count, 0};
  return leave(&call, enter(&call) < 0 ? -1 : syscall(SYS_read, file, bytes, moved(&call)), NULL, NULL);
}

ssize_t write(int file, const void *bytes, size_t count) {
  if (!counts(file))
    return syscall(SYS_write, file, bytes, count);
  struct call call = {file == 1 ? "say" : "write", names[file], file, 0, file == 1 ? 0 : place_of(file), count, 0};
  long result = enter(&call) < 0 ? -1 : syscall(SYS_write, file, bytes, moved(&call));
  return leave(&call, result, NULL, file == 1 || keeps_bytes ? bytes : NULL);
}

ssize_t writev(int file, const struct iovec *parts, int count) {
  return counts(file) && count > 0 ? write(file, parts[0].iov_base, parts[0].iov_len) : syscall(SYS_writev, file, parts, count);
}

static int cut(int file, off_t length) {
  if (!counts(file))
    return syscall(SYS_ftruncate, file, length);
  struct call call = {"cut", names[file], file, 0, length, 0, 0};
  return leave(&call, enter(&call) < 0 ? -1 : syscall(SYS_ftruncate, file, length), NULL, NULL);
}

int ftruncate(int file, off_t length) { return cut(file, length); }
int ftruncate64(int file, off_t length) { return cut(file, length); }

static int synced(int file) {
  if (!counts(file))
    return syscall(SYS_fsync, file);
  struct call call = {"sync", names[file], file, 0, 0, 0, 0};
  return leave(&call, enter(&call), NULL, NULL);
}

int fsync(int file) { return synced(file); }
int fdatasync(int file) { return synced(file); }

int flock(int file, int how) {
  if (!counts(file))
    return syscall(SYS_flock, file, how);
  struct call call = {"lock", names[file], file, 0, how, 0, 0};
  if (!(how & LOCK_NB) && !(how & LOCK_UN)) { /* it may wait long */
    number_call(&call);
    long result = call.fault > 0 || call.fault == KILL_BEFORE ? 0 : syscall(SYS_flock, file, how);
    return leave(&call, hold_log(&call) < 0 ? -1 : result, "waited", NULL);
  }
  return leave(&call, enter(&call) < 0 ? -1 : syscall(SYS_flock, file, how), NULL, NULL);
}

static int rename_named(int from, const char *old, int to, const char *new) {
  char name[MOST_NAME], other[MOST_NAME];
  if (!name_of(from, old, name) || !name_of(to, new, other))
    return syscall(SYS_renameat2, from, old, to, new, 0);
  struct call call = {.name = "rename", .file = name};
  return leave(&call, enter(&call) < 0 ? -1 : syscall(SYS_renameat2, from, old, to, new, 0), other, NULL);
}

int rename(const char *old, const char *new) { return rename_named(AT_FDCWD, old, AT_FDCWD, new); }
int renameat(int from, const char *old, int to, const char *new) { return rename_named(from, old, to, new); }

static int linked(int from, const char *old, int to, const char *new, int flags) {
  char name[MOST_NAME], other[MOST_NAME];
  if (!name_of(from, old, name) || !name_of(to, new, other))
    return syscall(SYS_linkat, from, old, to, new, flags);
  struct call call = {.name = "link", .file = name};
  return leave(&call, enter(&call) < 0 ? -1 : syscall(SYS_linkat, from, old, to, new, flags), other, NULL);
}

int link(const char *old, const char *new) { return linked(AT_FDCWD, old, AT_FDCWD, new, 0); }
int linkat(int from, const char *old, int to, const char *new, int flags) { return linked(from, old, to, new, flags); }

static int make_folder(int folder, const char *path, mode_t mode) {
  char name[MOST_NAME];
  if (!name_of(folder, path, name))
    return syscall(SYS_mkdirat, folder, path, mode);
  struct call call = {.name = "folder", .file = name};
  return leave(&call, enter(&call) < 0 ? -1 : syscall(SYS_mkdirat, folder, path, mode), NULL, NULL);
}

int mkdir(const char *path, mode_t mode) { return make_folder(AT_FDCWD, path, mode); }
int mkdirat(int folder, const char *path, mode_t mode) { return make_folder(folder, path, mode); }

static int removed(int folder, const char *path, int flags) {
  char name[MOST_NAME];
  if (!name_of(folder, path, name))
    return syscall(SYS_unlinkat, folder, path, flags);
  struct call call = {.name = "remove", .file = name};
  return leave(&call, enter(&call) < 0 ? -1 : syscall(SYS_unlinkat, folder, path, flags), NULL, NULL);
}

int unlink(const char *path) { return removed(AT_FDCWD, path, 0); }
int unlinkat(int folder, const char *path, int flags) { return removed(folder, path, flags); }
int rmdir(const char *path) { return removed(AT_FDCWD, path, AT_REMOVEDIR); }

int statx(int folder, const char *restrict path, int flags, unsigned mask, struct statx *restrict found) {
  char name[MOST_NAME];
  if (!path[0] || !name_of(folder, path, name)) /* of a handle, or of another file */
    return syscall(SYS_statx, folder, path, flags, mask, found);
  struct call call = {.name = "look", .file = name};
  return leave(&call, enter(&call) < 0 ? -1 : syscall(SYS_statx, folder, path, flags, mask, found), NULL, NULL);
}
