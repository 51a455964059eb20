/* Two programs of the guest, each of which writes lines to the host by the port /dev/hvc0:
   say WORDS..   writes a line with these words
   pay WORDS..   the command of the crew. Its effect is a line outside of the guest, in the bank's
                 book. Standard input is the lock of the attempt, whose name has the attempt's.
   AMO_LINE      the number of the line; else it stands after `job-` in the last of the words
   AMO_PAUSE     the longest pause before and after the effect, in milliseconds
   Each ninth line is performed by a child that outlives the command. The child takes another name,
   so that nobody kills it: the command has ended with 0, and that has to stay true. */
#include <fcntl.h>
#include <stdio.h>
#include <stdlib.h>
#include <string.h>
#include <sys/random.h>
#include <unistd.h>

enum { LEFT_BEHIND = 9, FAILED = 75, LONGEST = 1 << 16 };

/* Writes a line by one call, so that no other line comes between its parts. The call returns once
   the host has the bytes. */
static void tell(const char *text) {
  static char line[LONGEST];
  int port = open("/dev/hvc0", O_WRONLY | O_NOCTTY);
  int size = snprintf(line, sizeof line, "\n%s .", text);
  if (port < 0 || size >= LONGEST || write(port, line, size) != size)
    _exit(FAILED);
  close(port);
}

static int say(int count, char **words) {
  static char text[LONGEST];
  size_t size = 0;
  for (int k = 1; k < count && size < sizeof text; k++)
    size += snprintf(text + size, sizeof text - size, "%s%s", k > 1 ? " " : "", words[k]);
  tell(text);
  return 0;
}

static void tell_of(const char *what, const char *attempt, int line) {
  char text[200];
  snprintf(text, sizeof text, "%s %s %d", what, attempt, line);
  tell(text);
}

static void wait_up_to(unsigned milliseconds) {
  unsigned drawn = 0;
  if (getrandom(&drawn, sizeof drawn, 0) != sizeof drawn)
    _exit(FAILED);
  usleep(drawn % (1000 * milliseconds + 1));
}

int main(int count, char **words) {
  char path[512] = "";
  const char *line = getenv("AMO_LINE"), *most = getenv("AMO_PAUSE"), *attempt = "none";
  if (strstr(words[0], "say"))
    return say(count, words);
  if (readlink("/proc/self/fd/0", path, sizeof path - 1) > 0 && strstr(path, "command."))
    attempt = strstr(path, "command.") + strlen("command.");
  int number = line ? atoi(line) : atoi(words[count - 1] + strlen("job-"));
  unsigned pause = most ? atoi(most) : 0;
  tell_of("begun", attempt, number);
  wait_up_to(pause);
  if (number % LEFT_BEHIND == 0) {
    if (fork())
      return 0;
    memset(words[0], '-', strlen(words[0]));
  }
  tell_of("performed", attempt, number);
  wait_up_to(pause);
  return 0;
}
