"""Each call of amo_jobs fails in turn, once with each error that it can give, over a list of three
lines: the calls of `amo_jobs work`, of a supervisor, and of a runner that has a supervisor. No line
may be performed twice, and none may count as done without its effect.

A table states for each call what follows. A call has a name and a kind, which tools/jobs/faults.c
gives it. The test fails if a run meets a call that isn't in the table, so the table stays complete.
"""

from __future__ import annotations

import errno
import os
import re
import subprocess
from concurrent.futures import ThreadPoolExecutor
from time import monotonic
from typing import Callable, NamedTuple

from harness.bench import until
from jobs.scene import DONE, DOUBTFUL, FAILED, LATER, LEFT, Scene, Wrong, changed, want
from worker import folder

HERE = os.path.dirname(os.path.realpath(__file__))
LANES, BUILD = 2, 125
SHORT_PART = 6  # the short form takes one of so many rows

# The columns of the table:
#   CALL KIND COUNT..   each count is tried. A `*` stands before a call that not every Python makes.
#   ERRORS              each is tried. SHORT is no error: the write takes half of the bytes. `-` is
#                       for a call that can give no error here; the rest of the row is the reason.
#   STATUS              that of the crew in which the call fails.
#   SAYS                a part of this crew's output, in either case. % is the error's text, * is
#                       any text, and NOT begins the message that line 1 can't be started.
#   DOUBTS              how many lines the operator is asked about, who answers truthfully.
#   NEXT                how many lines the crews after it perform, in which no call fails; `*` is
#                       any number, since a runner whose supervisor fails may be at any line.
# If two ends are right, a `/` stands between them; the first of one column goes with the first of
# each other column. (A command may end before or after its runner waits for it.)

# In the first tables a crew is `amo_jobs work`, one process that is runner and supervisor. The
# crews after it have several processes. Before a worker is begun, a crew looks at the list, the
# mark and the folder, writes the mark and the command, and asks the door and the status. A failure
# there ends it before any line is performed, so the next crew performs all three; or it doesn't
# matter.
BEFORE = """
lstat . 1 2                | EIO               | 0     | 3 done | 0 | 0
lstat jobs 1               | EIO               | 0     | 3 done | 0 | 0
lstat run 1                | EIO               | 0     | 3 done | 0 | 0
lstat run/forgotten 1      | EIO               | 0     | 3 done | 0 | 0
stat jobs 1 2              | EIO               | 73    | % | 0 | 3
stat jobs 1 2              | ENOENT            | 74    | it is missing | 0 | 3
open jobs.run-is 1         | EIO EMFILE        | 73    | % | 0 | 3
open jobs.run-is.X.new 1   | EIO EACCES ENOSPC | 65    | can't be made: % | 0 | 3
close jobs.run-is.X.new 1  | EIO               | 65    | can't be made: % | 0 | 3
unlink jobs.run-is.X.new 1 | EIO               | 65    | can't be made: % | 0 | 3
open jobs 1 2              | EIO EMFILE        | 73    | % | 0 | 3
open jobs 1 2              | ENOENT            | 74    | % | 0 | 3
*fstat jobs 1 2            | EIO               | 0/73  |  | 0 | 0/3
*lseek jobs 1              | EIO               | 0/73  |  | 0 | 0/3
flock jobs 1               | ENOLCK EINTR      | 0     | 3 done | 0 | 0
read jobs 1 2              | EIO               | 73    | % | 0 | 3
close jobs 1 2             | EIO               | 73    | % | 0 | 3
open run/command 1 2       | EIO EMFILE        | 73    | % | 0 | 3
open run/id 1              | EIO EMFILE        | 73    | % | 0 | 3
open run/id 1              | ENOENT            | 65    | it has no id | 0 | 3
*fstat run/id 1 2          | EIO               | 0/73  |  | 0 | 0/3
*lseek run/id 1 2          | EIO               | 0/73  |  | 0 | 0/3
read run/id 1              | EIO               | 73    | % | 0 | 3
close run/id 1             | EIO               | 73    | % | 0 | 3
open jobs.run-is.X.new 2   | EIO EACCES ENOSPC | 73    | % | 0 | 3
*fstat jobs.run-is.X.new 1 | EIO               | 0/73  |  | 0 | 0/3
*lseek jobs.run-is.X.new 1 | EIO               | 0/73  |  | 0 | 0/3
write jobs.run-is.X.new 1  | EIO ENOSPC        | 73    | % | 0 | 3
write jobs.run-is.X.new 1  | SHORT             | 0     | 3 done | 0 | 0
fsync jobs.run-is.X.new 1  | EIO ENOSPC        | 73    | % | 0 | 3
close jobs.run-is.X.new 2  | EIO               | 73    | % | 0 | 3
link jobs.run-is.X.new 1   | EIO EPERM ENOSPC  | 65    | by a hard link: % | 0 | 3
link jobs.run-is.X.new 1   | EEXIST            | 0     | 3 done | 0 | 0
unlink jobs.run-is.X.new 2 | EIO               | 73    | % | 0 | 3
open . 1                   | EIO EMFILE        | 73    | % | 0 | 3
fsync . 1                  | EIO               | 73    | % | 0 | 3
close . 1                  | EIO               | 73    | % | 0 | 3
open run/command.new 1     | EIO EACCES ENOSPC | 73    | % | 0 | 3
*fstat run/command.new 1   | EIO               | 0/73  |  | 0 | 0/3
*lseek run/command.new 1 2 | EIO               | 0/73  |  | 0 | 0/3
write run/command.new 1    | EIO ENOSPC        | 73    | % | 0 | 3
write run/command.new 1    | SHORT             | 0     | 3 done | 0 | 0
fsync run/command.new 1    | EIO ENOSPC        | 73    | % | 0 | 3
close run/command.new 1    | EIO               | 73    | % | 0 | 3
rename run/command.new 1   | EIO EACCES        | 73    | % | 0 | 3
open run 1                 | EIO EMFILE        | 73    | % | 0 | 3
fsync run 1                | EIO               | 73    | % | 0 | 3
close run 1                | EIO               | 73    | % | 0 | 3
"""

# The door and the status are processes that amo_jobs begins and reads. (amo_jobs alone waits for
# them and doesn't ignore SIGCHLD, so waitpid can give no other error.)
ASKED = """
pipe2 NAME.1 1             | EMFILE            | 73    | % | 0 | 3
pipe2 NAME.2 1             | EMFILE            | 73    | % | 0 | 3
*fstat NAME.1 1 2          | EIO               | 0/73  |  | 0 | 0/3
*lseek NAME.1 1 2          | EIO               | 0/73  |  | 0 | 0/3
vfork NAME 1               | EAGAIN ENOMEM     | 73    | % | 0 | 3
close NAME.2 1 2           | EIO               | 73    | % | 0 | 3
close NAME.1 1 2           | EIO               | 73    | % | 0 | 3
close child:NAME 1 2       | EIO               | 73    | % | 0 | 3
dup2 child:NAME 1          | EMFILE            | 73    | % | 0 | 3
setsid child:NAME 1        | EPERM             | 0/73  |  | 0 | 0/3
execve child:NAME 1        | EACCES ENOMEM     | 73    | % | 0 | 3
execve child:NAME 1        | ENOENT            | 74    | % | 0 | 3
read NAME.2 1              | EIO               | 73    | % | 0 | 3
read NAME.2 1              | EINTR             | 0     | 3 done | 0 | 0
read NAME.1 1              | EIO               | 73    | % | 0 | 3
waitpid NAME 1             | EINTR             | 0     | 3 done | 0 | 0
"""

# The pipe that wakes a supervisor or a runner, and the lock of a number, which both take.
BELL = """
pipe2 bell 1               | EMFILE            | 73    | % | 0 | 3
fstat bell 1               | EIO               | 73    | % | 0 | 3
fcntl bell 1               | EIO               | 73    | % | 0 | 3
write bell 1               | -                 | a full pipe wakes as well, and there's no other
"""
LOCK = """
open run/runner.N 1        | EIO EMFILE ENOSPC | 73    | % | 0 | 3
flock run/runner.N 1       | ENOLCK            | 73    | % | 0 | 3
flock run/runner.N 1       | EAGAIN EINTR      | 0     | 3 done | 0 | 0
stat run/runner.N 1        | EIO               | 73    | % | 0 | 3
stat run/runner.N 1        | ENOENT            | 0     | 3 done | 0 | 0
fstat run/runner.N 1       | EIO               | 73    | % | 0 | 3
close run/runner.N 1       | EIO               | 0     | 3 done | 0 | 0
"""

# The runner and its worker. If a worker was begun and loses its runner, it may have put an intent:
# then the line is in doubt, and was not performed.
RUNNER = BELL + """
*read bell 1               | EIO               | 73    | % | 0/1/1/1 | 0/0/1/2
poll crew 1                | ENOMEM            | 73    | % | 0/1 | 3/3
poll crew 2 3              | ENOMEM            | 73    | % | 1/1 | 2/1
poll crew 1 2 3            | EINTR             | 0     | 3 done | 0 | 0
open /proc/self/children 1 | EMFILE ENOMEM     | 73    | % | 0 | 3
pread /proc/self/children 1 2 | ENOMEM         | 69    | NOT *: % | 0 | 3
pread /proc/self/children 3 4 | ENOMEM         | 0     | 3 done | 0 | 0
*lseek run/runner.N 1      | EIO               | 0     | 3 done | 0 | 0
write run/runner.N 1       | EIO ENOSPC        | 0     | 3 done | 0 | 0
pipe2 worker.1 1           | EMFILE            | 74    | worker 1: *% | 0 | 3
pipe2 worker.2 1           | EMFILE            | 74    | worker 1: *% | 0 | 3
pipe2 worker.3 1           | EMFILE            | 74    | worker 1: *% | 0 | 3
spawn worker 1             | EAGAIN ENOMEM     | 0     | 3 done | 0 | 0
spawn worker 1             | EACCES ENOENT     | 74    | worker 1: *% | 0 | 3
close worker.1 1 2         | EIO               | 0     | 3 done | 0 | 0
close worker.2 1 2         | EIO               | 0     | 3 done | 0 | 0
close worker.3 1 2         | EIO               | 0     | 3 done | 0 | 0
ioctl worker.1 1           | EIO               | 74    | worker 1: *% | 0 | 3
ioctl worker.2 1           | EIO               | 74    | worker 1: *% | 0 | 3
ioctl worker.3 1           | EIO               | 74    | worker 1: *% | 0 | 3
read worker.2 1            | EIO               | 73    | % | 1 | 3
read worker.2 1 2          | EINTR EAGAIN      | 0     | 3 done | 0 | 0
read worker.2 2            | EIO               | 73    | % | 1 | 2
read worker.3 1            | EIO               | 73    | % | 0 | 0
write worker.1 1           | EPIPE ENOMEM      | 0     | 3 done | 0 | 0
*waitpid children 1 2 3    | EINTR ECHILD      | 0     | 3 done | 0 | 0
*waitpid command 1 2 3     | EINTR ECHILD      | 0     | 3 done | 0 | 0
waitpid worker 1 2         | EINTR ECHILD      | 0     | 3 done | 0 | 0
"""
CREW = RUNNER + LOCK + """
open run/runner.N 2        | EIO EMFILE ENOSPC | 0     | 3 done | 0 | 0
close run/runner.N 2       | EIO               | 0     | 3 done | 0 | 0
write screen 1 2           | EIO EPIPE         | 0     |  | 0 | 0
"""

# Before a command is begun. Only these failures, and an exec that fails, lead to `unbegun`. The
# lines are open, and no line is lost.
UNBEGUN = """
open run/command.N.N 1     | EIO EMFILE ENOSPC | 69    | NOT * (no line was lost) | 0 | 3
flock run/command.N.N 1    | ENOLCK EAGAIN     | 69    | NOT * (no line was lost) | 0 | 3
stat run/command.N.N 1     | EIO ENOENT        | 69    | NOT * (no line was lost) | 0 | 3
fstat run/command.N.N 1    | EIO               | 69    | NOT * (no line was lost) | 0 | 3
open run/out.N.N 1         | EIO EACCES EMFILE ENOSPC | 69    | NOT *: % | 0 | 3
open run/err.N.N 1         | EIO EACCES EMFILE ENOSPC | 69    | NOT *: % | 0 | 3
clone command 1            | EAGAIN ENOMEM     | 69    | NOT *: % | 0 | 3
setsid child:command 1     | EPERM             | 69    | NOT % (no line was lost); correct the command | 0 | 3
dup2 child:command 1 2 3 4 | EMFILE            | 69    | NOT % (no line was lost); correct the command | 0 | 3
setitimer child:command 1  | EINVAL            | 69    | NOT % (no line was lost); correct the command | 0 | 3
execve child:command 1     | ENOENT EACCES     | 69    | NOT % (no line was lost); correct the command | 0 | 3
execve child:command 1     | ENOEXEC ETXTBSY   | 69    | NOT % (no line was lost); correct the command | 0 | 3
execve child:command 1     | ENOMEM E2BIG      | 69    | NOT % (no line was lost); correct the command | 0 | 3
"""

# A command without a timeout, whose child sets no timer, isn't started either if a call fails.
UNTIMED = """
clone command 1            | EAGAIN ENOMEM     | 69    | NOT *: % | 0 | 3
setsid child:command 1     | EPERM             | 69    | NOT % (no line was lost); correct the command | 0 | 3
dup2 child:command 1 2 3 4 | EMFILE            | 69    | NOT % (no line was lost); correct the command | 0 | 3
execve child:command 1     | ENOENT EACCES     | 69    | NOT % (no line was lost); correct the command | 0 | 3
execve child:command 1     | ENOEXEC ETXTBSY E2BIG EMFILE EPERM | 69 | NOT % (no line was lost); correct the command | 0 | 3
"""

# After a command is begun. None of these failures opens its line again, and none matters.
BEGUN = """
close run/out.N.N 1        | EIO EINTR ENOSPC EDQUOT | 0     | 3 done | 0 | 0
close run/err.N.N 1        | EIO EINTR ENOSPC EDQUOT | 0     | 3 done | 0 | 0
close run/command.N.N 1 2 3 4 | EIO             | 0     | 3 done | 0 | 0
open run/command.N.N 2 3   | EIO EMFILE        | 0     | 3 done | 0 | 0
flock run/command.N.N 2 3  | ENOLCK EAGAIN     | 0     | 3 done | 0 | 0
stat run/command.N.N 2 3 4 | EIO ENOENT        | 0     | 3 done | 0 | 0
fstat run/command.N.N 2 3 4 | EIO               | 0     | 3 done | 0 | 0
rename run/command.N.N 1 2 3 4 5 | EIO EACCES     | 0     | 3 done | 0 | 0
unlink run/command.N.N 1 2 | EIO EACCES        | 0     | 3 done | 0 | 0
fstat run/out.N.N 1        | EIO               | 0     | 3 done | 0 | 0
fstat run/err.N.N 1        | EIO               | 0     | 3 done | 0 | 0
rename run/out.N.N 1       | EIO EACCES        | 0     | 3 done | 0 | 0
rename run/err.N.N 1       | EIO EACCES        | 0     | 3 done | 0 | 0
unlink run/out.N.N 1       | EIO               | 0     | 3 done | 0 | 0
unlink run/err.N.N 1       | EIO               | 0     | 3 done | 0 | 0
"""

# The process that has the lock of a number notes a start, and the runner notes its pace. No line
# depends on these notes.
PACE = """
open run/pace.N 1          | EIO EMFILE ENOSPC | 0     | 3 done | 0 | 0
*fstat run/pace.N 1        | EIO               | 0     | 3 done | 0 | 0
*lseek run/pace.N 1 2 3    | EIO               | 0     | 3 done | 0 | 0
write run/pace.N 1         | EIO ENOSPC SHORT  | 0     | 3 done | 0 | 0
close run/pace.N 1         | EIO ENOSPC        | 0     | 3 done | 0 | 0
"""
STARTED = PACE + """
open boot 1                | EIO EMFILE ENOENT | 0     | 3 done | 0 | 0
*fstat boot 1 2            | EIO               | 0     | 3 done | 0 | 0
*lseek boot 1 2            | EIO               | 0     | 3 done | 0 | 0
read boot 1                | EIO               | 0     | 3 done | 0 | 0
close boot 1               | EIO               | 0     | 3 done | 0 | 0
"""
PACED = """
open run/pace.N 2          | EIO EMFILE ENOSPC | 0     | 3 done | 0 | 0
write run/pace.N 2         | EIO ENOSPC SHORT  | 0     | 3 done | 0 | 0
close run/pace.N 2         | EIO ENOSPC        | 0     | 3 done | 0 | 0
"""

# After the last line the status is asked. All lines are done by then.
AT_LAST = """
pipe2 later.1 1            | EMFILE            | 73    | % | 0 | 0
pipe2 later.2 1            | EMFILE            | 73    | % | 0 | 0
*fstat later.1 1           | EIO               | 0/73  |  | 0 | 0
*lseek later.1 1           | EIO               | 0/73  |  | 0 | 0
vfork again 1              | EAGAIN            | 73    | % | 0 | 0
close again.1 1 2          | EIO               | 73    | % | 0 | 0
close again.2 1 2          | EIO               | 73    | % | 0 | 0
close child:again 1        | EIO               | 73    | % | 0 | 0
dup2 child:again 1         | EMFILE            | 73    | % | 0 | 0
setsid child:again 1       | EPERM             | 0/73  |  | 0 | 0
execve child:again 1       | EACCES            | 73    | % | 0 | 0
read again.1 1             | EIO               | 73    | % | 0 | 0
read again.2 1             | EIO               | 73    | % | 0 | 0
*fstat again.1 1           | EIO               | 0/73  |  | 0 | 0
*lseek again.1 1           | EIO               | 0/73  |  | 0 | 0
waitpid again 1            | -                 | amo_jobs began it, and nobody else waits for it
"""

# The supervisor of a crew, which does BEFORE and ASKED as well. If it fails while its runner works,
# that runner ends in order: no line is in doubt. The kernel can't give ECHILD to a process that has
# a child, and a pipe of which both ends are open gives no error but ENOMEM.
SUPERVISOR = BELL + LOCK + STARTED + """
open run/crew 1            | EIO EMFILE ENOSPC | 73    | % | 0 | 3
open run/crew 2            | EIO EMFILE ENOSPC | 0     | 3 done | 0 | 0
flock run/crew 1           | ENOLCK            | 73    | % | 0 | 3
flock run/crew 1           | EAGAIN            | 75    | another crew | 0 | 3
flock run/crew 1           | EINTR             | 0     | 3 done | 0 | 0
stat run/crew 1            | EIO               | 73    | % | 0 | 3
stat run/crew 1            | ENOENT            | 75    | another crew | 0 | 3
fstat run/crew 1           | EIO               | 73    | % | 0 | 3
*lseek run/crew 1          | EIO               | 0     | 3 done | 0 | 0
write run/crew 1           | EIO ENOSPC        | 0     | 3 done | 0 | 0
close run/crew 1           | EIO               | 0     | 3 done | 0 | 0
open /proc/self/children 1 | EMFILE ENOMEM     | 73    | % | 0 | 3
pread /proc/self/children 1 2 | ENOMEM         | 0     | 3 done | 0 | 0
read bell 1                | EIO               | 73    | % | 0 | *
poll crew 1 2 3            | ENOMEM            | 73    | % | 0 | *
poll crew 1 2 3            | EINTR             | 0     | 3 done | 0 | 0
pipe2 runner.1 1           | EMFILE            | 74    | worker 1: *% | 0 | 3
pipe2 runner.2 1           | EMFILE            | 74    | worker 1: *% | 0 | 3
spawn runner 1             | EAGAIN ENOMEM EACCES ENOENT | 74 | worker 1: *% | 0 | 3
close runner.1 1 2         | EIO               | 0     | 3 done | 0 | 0
close runner.2 1 2         | EIO               | 0     | 3 done | 0 | 0
ioctl runner.1 1           | EIO               | 74    | worker 1: *% | 0 | 3
ioctl runner.2 1           | EIO               | 74    | worker 1: *% | 0 | 3
read runner.2 1 2 3        | EIO               | 73    | % | 0 | *
read runner.2 1 2 3        | EINTR EAGAIN      | 0     | 3 done | 0 | 0
waitpid children 1 2       | EINTR             | 0     | 3 done | 0 | 0
write screen 1 2           | EIO EPIPE         | 0     |  | 0 | 0
"""

# A supervisor that acknowledges a failure. It keeps what the pipe doesn't take.
ACKNOWLEDGES = """
write runner.1 1           | ENOMEM EAGAIN     | 1     | 2 done, 1 failed | 0 | 0
"""

# A runner that has a supervisor. It does UNBEGUN and BEGUN too. If it fails, its crew starts no
# other one, and the line that it was at is in doubt.
SUPERVISED = RUNNER + """
lstat . 1 2                | EIO               | 0     | 3 done | 0 | 0
lstat jobs 1               | EIO               | 0     | 3 done | 0 | 0
lstat run 1                | EIO               | 0     | 3 done | 0 | 0
ioctl run/runner.N 1       | EIO               | 0     | 3 done | 0 | 0
ioctl run/runner.N 2       | EIO               | 73    | its runner has failed (status 73) | 0 | 3
ioctl reports 1 4          | EIO               | 0     | 3 done | 0 | 0
ioctl reports 2 3          | EIO               | 73    | its runner has failed (status 73) | 0 | 3
ioctl orders 1             | EIO               | 0     | 3 done | 0 | 0
ioctl orders 2 3           | EIO               | 73    | its runner has failed (status 73) | 0 | 3
open run/runner.N 1        | EIO EMFILE ENOSPC | 0     | 3 done | 0 | 0
*fstat run/runner.N 1      | EIO               | 0     | 3 done | 0 | 0
close run/runner.N 1       | EIO               | 0     | 3 done | 0 | 0
write reports 1            | EINTR EAGAIN ENOMEM | 0   | 3 done | 0 | 0
write reports 1            | SHORT             | 0     | 3 done | 0 | 0
write reports 1            | EPIPE             | 69    | its runner has failed (status 69) | 0 | 2
"""

# A runner that waits for an acknowledgement.
ACKNOWLEDGED = """
read orders 1              | EIO               | 73    | % | 1 | 2
read orders 1              | EINTR EAGAIN      | 1     | 2 done, 1 failed | 0 | 0
"""

# The command doesn't exist. Its child kills itself, and the runner reaps it. If the child's end
# isn't known, the command counts as begun. Its line is in doubt then, and is neither open nor done.
MISSING = """
waitpid command 1          | ECHILD            | 2     | 1 in doubt | 1 | 3
waitpid command 1          | EINTR             | 69    | NOT No such file or directory (no line was lost) | 0 | 3
kill child:command 1       | EPERM             | 69    | NOT No such file or directory (no line was lost) | 0 | 3
close run/out.N.N 1        | EIO               | 69    | --command-changed | 0 | 3
close run/err.N.N 1        | EIO               | 69    | --command-changed | 0 | 3
close run/command.N.N 1    | EIO               | 69    | --command-changed | 0 | 3
unlink run/command.N.N 1 2 | EIO               | 69    | --command-changed | 0 | 3
"""

# The crew finds a mark, and the folder that the mark names.
GOES_ON = """
open jobs.run-is 1         | EIO EMFILE        | 73    | % | 0 | 3
*fstat jobs.run-is 1 2     | EIO               | 0/73  |  | 0 | 0/3
*lseek jobs.run-is 1 2     | EIO               | 0/73  |  | 0 | 0/3
read jobs.run-is 1         | EIO               | 73    | % | 0 | 3
close jobs.run-is 1        | EIO               | 73    | % | 0 | 3
open run/id 1              | EIO EMFILE        | 73    | % | 0 | 3
open run/id 1              | ENOENT            | 65    | has no id | 0 | 3
stat run 1 2               | EIO               | 65    | may be a copy | 0 | 3
open run/command 1 2       | EIO EMFILE        | 73    | % | 0 | 3
*fstat run/command 1 2     | EIO               | 0/73  |  | 0 | 0/3
*lseek run/command 1 2     | EIO               | 0/73  |  | 0 | 0/3
read run/command 1 3       | EIO               | 73    | % | 0 | 3
close run/command 1 2      | EIO               | 73    | % | 0 | 3
open . 1                   | EIO EMFILE        | 73    | % | 0 | 3
fsync . 1                  | EIO               | 73    | % | 0 | 3
close . 1                  | EIO               | 73    | % | 0 | 3
"""

# The crew finds a mark, and the folder under a new name. It writes the mark anew, under the
# list's lock. If it can't look at the old name, it refuses, since the folder may be a copy. If it
# sees another row under the lock than before, it begins anew.
MOVED = """
open jobs.run-is 1 2       | EIO EMFILE        | 73    | % | 0 | 3
open run/id 1 2            | EIO EMFILE        | 73    | % | 0 | 3
open run/id 1              | ENOENT            | 65    | has no id | 0 | 3
*fstat run/id 1            | EIO               | 0/73  |  | 0 | 0/3
*lseek run/id 1            | EIO               | 0/73  |  | 0 | 0/3
read run/id 1 3            | EIO               | 73    | % | 0 | 3
close run/id 1 2           | EIO               | 73    | % | 0 | 3
stat run 1 2               | EIO               | 0     | 3 done | 0 | 0
stat old 1 2               | EIO               | 0     | 3 done | 0 | 0
lstat old 1                | EIO EACCES        | 65    | may be a copy | 0 | 3
lstat old 2                | EIO               | 0     | 3 done | 0 | 0
lstat run 1                | EIO               | 0     | 3 done | 0 | 0
stat . 1                   | EIO               | 65    | may be a copy | 0 | 3
stat . 2                   | EIO               | 0     | 3 done | 0 | 0
open jobs.run-is.X.new 1   | EIO EACCES ENOSPC | 65    | can't be made: % | 0 | 3
open jobs 1                | EIO EMFILE        | 65    | can't be locked: % | 0 | 3
flock jobs 1               | ENOLCK            | 65    | can't be locked: % | 0 | 3
flock jobs 1               | EAGAIN EINTR      | 0     | 3 done | 0 | 0
stat jobs 3                | EIO               | 65    | can't be locked: % | 0 | 3
fstat jobs 1               | EIO               | 65    | can't be locked: % | 0 | 3
open jobs.run-is.X.new 2   | EIO EACCES ENOSPC | 73    | % | 0 | 3
write jobs.run-is.X.new 1  | EIO ENOSPC        | 73    | % | 0 | 3
write jobs.run-is.X.new 1  | SHORT             | 0     | 3 done | 0 | 0
fsync jobs.run-is.X.new 1  | EIO ENOSPC        | 73    | % | 0 | 3
close jobs.run-is.X.new 2  | EIO               | 73    | % | 0 | 3
rename jobs.run-is.X.new 1 | EIO EACCES        | 73    | % | 0 | 3
open . 1                   | EIO EMFILE        | 73    | % | 0 | 3
fsync . 1                  | EIO               | 73    | % | 0 | 3
close jobs 1               | EIO               | 73    | % | 0 | 3
open run/command 1 2       | EIO EMFILE        | 73    | % | 0 | 3
*fstat run/command 1       | EIO               | 0/73  |  | 0 | 0/3
*lseek run/command 1       | EIO               | 0/73  |  | 0 | 0/3
read run/command 1         | EIO               | 73    | % | 0 | 3
close run/command 1        | EIO               | 73    | % | 0 | 3
"""

# After a failure of these the file of a command's lock may stay. Nobody asks for it any more. (One
# that serves the next command stays if the runner fails after its last line.)
LEAVES_A_LOCK = ["read worker.3", "read bell", *(f"{call} run/command.N.N" for call in (
    "open", "flock", "stat", "fstat", "unlink"))]
NOT = "line 1: cannot start `COMMAND`:"


class Row(NamedTuple):
    """A row of the table: the consequences if one call fails with one error."""
    call: str
    count: int
    error: str
    ends: list  # of each right end: status, doubts, and how many lines the next crews perform
    says: str
    is_first: bool = True  # whether the error is the first one of its row in the table

    def name(self) -> str:
        return f"{self.call} {self.count} {self.error}"


class Table:
    """The rows of a table, and its calls."""

    def __init__(self, text: str):
        self.rows: list[Row] = []
        self.calls: set[str] = set()
        self.rare: set[str] = set()  # those that some Python doesn't make
        for line in filter(None, text.splitlines()):
            place, errors, *rest = (it.strip() for it in line.split("|"))
            name, kind, *counts = place.split(" ")
            call = f"{name.lstrip('*')} {kind}"
            self.calls.add(call)
            if name.startswith("*"):
                self.rare.add(call)
            for count in counts if errors != "-" else []:
                self.rows += rows_of(call, int(count), errors.split(" "), *rest)


def rows_of(call: str, count: int, errors: list, status: str, says: str, *numbers: str) -> list:
    """Returns a row for each of these errors."""
    columns = [[ANY if it.strip() == "*" else int(it) for it in column.split("/")]
               for column in (status, *numbers)]
    most = max(map(len, columns))
    ends = list(zip(*(column * (most if len(column) == 1 else 1) for column in columns)))
    texts = {it: says.replace("%", os.strerror(getattr(errno, it, 0))) for it in errors}
    return [Row(call, count, it, ends, texts[it], it == errors[0]) for it in errors]


class Way(NamedTuple):
    """A run in which calls fail."""
    table: str
    status: int = DONE  # of a crew in which no call fails
    kinds: tuple = ("quick", "quick", "quick")  # what the commands of its lines do
    options: tuple = ("--linger", "20", "--timeout", "500", "--grace", "1")
    command: str | None = None  # if it isn't that of all tests
    before: Callable | None = None  # what is done before the crew
    is_early: bool = False  # whether no command is begun; then a crew follows in any case
    process: str = "work"  # whose calls fail: those of `work`, of a `crew`, or of its `runner`


def enter(scene, name: str = "run") -> None:
    """Leaves what a crew leaves that used another command: a folder that the door made, and the
    mark. The folder has this name in the mark."""
    path = f"{scene.room}/{name}"
    words = [scene.bench.worker, "door", path, "--workers", "1", "--boot-id", scene.boot]
    ended = subprocess.run([*words, scene.jobs], stdin=subprocess.DEVNULL, capture_output=True)
    want(ended.returncode == DONE, f"the door: {ended.stderr}")
    with open(f"{path}/id") as id_file, open(f"{scene.jobs}.run-is", "w") as mark:
        mark.write(f"{id_file.read()}{path}\n")
    with open(f"{path}/command", "w") as file:
        file.write('{"command": ["./another"], "results": "."}\n')
    if path != scene.run:
        os.rename(path, scene.run)


def move(scene) -> None:
    """Does the same, and gives the folder a new name."""
    enter(scene, "old")


WAYS = {
    "before": Way(BEFORE + "".join(ASKED.replace("NAME", it) for it in ("door", "status")),
                  is_early=True),
    "goes on": Way(GOES_ON, before=enter, is_early=True),
    "moved": Way(MOVED, before=move, is_early=True),
    "plain": Way(CREW + UNBEGUN + BEGUN + STARTED + PACED + AT_LAST),
    "missing": Way(MISSING, LEFT, command="./there-is-none"),
    "untimed": Way(UNTIMED, options=("--linger", "20")),
    "supervisor": Way(SUPERVISOR + AT_LAST, process="crew"),
    "acknowledges": Way(ACKNOWLEDGES, FAILED, ("fail", "quick", "quick"), process="crew"),
    "supervised": Way(SUPERVISED + UNBEGUN + BEGUN + PACE, process="runner"),
    "acknowledged": Way(ACKNOWLEDGED, FAILED, ("fail", "quick", "quick"), process="runner"),
    "missing, supervised": Way(MISSING, LEFT, command="./there-is-none", process="runner"),
    "untimed, supervised": Way(UNTIMED, options=("--linger", "20"), process="runner"),
}
ANY = -1  # in a row's ends


class Failing(Scene):
    """A run in whose first crew one call fails."""

    def __init__(self, bench, way: Way, fault: str = ""):
        super().__init__(bench, way.kinds, 1, way.options)
        bench.scenes.append(self)
        self.way, self.fault, self.log = way, fault, f"{self.room}.log"
        self.is_first = True
        if way.before:
            way.before(self)

    def environment(self, plan=None, **more):
        library = {"LD_PRELOAD": f"{os.path.dirname(self.bench.room)}/faults.so",
                   "AMO_FAULT_ROOM": self.room, "AMO_FAULT_LOG": self.log, "AMO_FAULT": self.fault,
                   "AMO_FAULT_AS": "--as=" if self.way.process == "runner" else None}
        return super().environment(plan, **(library if self.is_first else {}), **more)

    def words(self, command, *more, plan=None):
        if command == "crew" and self.is_first and self.way.process == "work":
            command, more = "work", ("--worker", "1", *more)  # which is runner and supervisor
        return super().words(command, *more, plan=plan)

    def first(self) -> int:
        """Runs the crew in which the call fails, and returns its status."""
        command = [self.way.command, self.room] if self.way.command else None
        crew = self.start("--command-changed", command=command)
        try:
            status = crew.wait(240)
        except subprocess.TimeoutExpired:
            raise Wrong(f"it doesn't end: {self.tale()[-500:]}") from None
        self.is_first = False
        until(lambda: not list(self.runners()), "the runners of a supervisor that failed end")
        return status

    def met(self) -> list[list[str]]:
        """Returns the calls of the first crew, each a name, a kind, a count, a result, and a `!` if
        it was made to fail."""
        return [it.split(" ") for it in folder.read(self.log).decode().splitlines()]

    def finish(self) -> None:
        """Runs crews in which no call fails, with a truthful operator, until all lines are done."""
        end, is_due = monotonic() + 240, self.way.is_early
        self.options = ["--linger", "20"]
        while is_due or not self.is_done():
            is_due = False
            self.person()
            status = self.start("--command-changed").wait(240)
            is_right = status in (DONE, FAILED, DOUBTFUL, LEFT, LATER)
            want(is_right, f"status {status} then: {self.tale()[-500:]}")
            want(monotonic() < end, f"it isn't over: {self.tale()[-500:]}")

    def counts(self, status=None):
        """Returns the counts by the journals. (To ask the status takes as long as a crew.)"""
        found = self.look()
        return found.counts(found.final())

    def is_done(self) -> bool:
        found = self.look()
        return len(found.lines) == 3 and set(found.kinds().values()) <= {"done", "failed"}

    def person(self, by_hand=0):
        """Asks for doubts only if there may be one."""
        if self.may_doubt():
            super().person(by_hand)

    def performed(self) -> set[str]:
        """Returns the attempts whose commands did their work."""
        tales = [it for line in (1, 2, 3) for it in self.tales(line)]
        return {name for word, name, *_ in tales if word == "did"}


def build(room: str) -> bool:
    """Builds the library of faults in this folder, and returns whether that succeeded."""
    words = [os.environ.get("CC", "cc"), *"-std=gnu11 -O2 -Wall -Wextra -Werror".split(),
             *"-shared -fPIC -Wl,-z,defs".split(), "-o", f"{room}/faults.so", f"{HERE}/faults.c"]
    try:
        return subprocess.run(words).returncode == 0
    except OSError as error:
        print(f"kill_jobs: {error}")
        return False


def try_row(bench, way: Way, row: Row) -> str | None:
    """Has one call fail, and returns what is wrong, if anything is."""
    error = getattr(errno, row.error, row.error)
    scene = Failing(bench, way, f"{row.call} {row.count} {error}")
    try:
        status = scene.first()
        met = [it for it in scene.met() if it[:2] == row.call.split(" ")]
        if not any(it[-1] == "!" for it in met):
            return None if row.call in Table(way.table).rare else f"{row.name()}: it wasn't met"
        judge(scene, row, status)
        return None
    except Wrong as wrong:
        return f"{row.name()}: {wrong}"
    finally:
        scene.close()


def judge(scene: Failing, row: Row, status: int) -> None:
    """Finishes a run, and audits it as all runs are; then compares it with its row."""
    before, tale = {it.name() for it in scene.look().intents.values()}, scene.tale()
    scene.finish()
    if row.call in LEAVES_A_LOCK:
        for name in os.listdir(scene.run):
            if name.startswith("command."):
                os.unlink(f"{scene.run}/{name}")
    scene.audit()
    found = status, len(scene.listed), len(scene.performed() - before)
    is_right = any(found == it or it == (*found[:2], ANY) for it in row.ends)
    want(is_right, f"status, doubts and next are {found}, not {row.ends}: {tale[-500:]}")
    says = row.says.replace("NOT", NOT.replace("COMMAND", scene.way.command or scene.command[0]))
    pattern = ".*".join(map(re.escape, says.split("*")))
    want(re.search(pattern, tale, re.IGNORECASE), f"it doesn't print `{says}`: {tale[-500:]}")


def calls_met(bench, way: Way) -> set[str]:
    """Returns the calls of a crew in which none fails."""
    scene = Failing(bench, way)
    status = scene.first()
    want(status == way.status, f"status {status} though no call fails: {scene.tale()[-500:]}")
    return {f"{it[0]} {it[1]}" for it in scene.met()}


def try_ways(bench, names: list[str], others: str = "", part: int = 1) -> str:
    """Has the calls of these ways fail, each in turn; in the short form one of so many, drawn by
    the seed. `others` are tables of other ways that a crew does as well."""
    tables = {name: Table(WAYS[name].table) for name in names}
    known = Table(others).calls.union(*(it.calls for it in tables.values()))
    rows = [(bench, WAYS[name], row) for name, table in tables.items() for row in table.rows]
    tried = rows if bench.is_long else bench.draws.sample(rows, len(rows) // part)
    with ThreadPoolExecutor(LANES) as lanes:
        met = set().union(*lanes.map(lambda it: calls_met(bench, WAYS[it]), names))
        want(met <= known, f"the table doesn't have: {', '.join(sorted(met - known))}")
        wrongs = list(filter(None, lanes.map(lambda it: try_row(*it), tried)))
    want(not wrongs, f"{len(wrongs)} of {len(tried)}: " + "; ".join(wrongs[:30]))
    return f"{len(tried)} of {len(rows)} failures, {len(met)} kinds of calls"


def try_before(bench) -> str:
    """no call that fails before a command is begun loses a line, or has it performed twice; see the
    tables"""
    return try_ways(bench, ["before", "goes on", "moved"],
                    CREW + UNBEGUN + BEGUN + STARTED + AT_LAST)


def try_calls(bench) -> str:
    """the same for a runner that has no supervisor: no line counts without its effect"""
    return try_ways(bench, ["plain", "missing", "untimed"], WAYS["before"].table)


def try_supervisor_calls(bench) -> str:
    """the same for a supervisor: its runner ends in order if it fails, and leaves no doubt"""
    return try_ways(bench, ["supervisor", "acknowledges"], WAYS["before"].table, SHORT_PART)


def try_runner_calls(bench) -> str:
    """the same for a runner that has a supervisor: if it fails, its crew stops"""
    ways = ["supervised", "acknowledged", "missing, supervised", "untimed, supervised"]
    return try_ways(bench, ways, part=SHORT_PART)


def try_raised(bench):
    """whatever is raised after the fork, the line isn't open again"""
    place = '        note("started", self.name, self.process)\n'
    program = bench.program
    bench.program = changed(program, f"{bench.room}/raises", [place, "        raise MemoryError\n"])
    scene = Failing(bench, WAYS["plain"])
    status = scene.first()
    bench.program = program
    judge(scene, Row("", 0, "", [(BUILD, 1, 2)], "MemoryError"), status)


PARTS = {"faults": [
    try_before, try_calls, try_supervisor_calls, try_runner_calls, try_raised,
]}
