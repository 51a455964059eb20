#!/bin/sh
# act.sh ROOM TEXT: the command of the tests. TEXT is a number and what to do. It appends
# lines to ROOM/effects/LINE: `begun P.S PROCESS` first, and then `did P.S`. A line of the log that
# AMO_CALLS names follows. The intent is the name of the lock that stands as standard input. The
# first attempt at a line that waits does its work once a test has made the file ROOM/go. A line
# that stays goes on after that until the test has made ROOM/over. Each attempt at a line that is
# gated waits for ROOM/go.LINE. So no test has to be faster than a command.
room=$1 what=${2#* } file=$1/effects/$AMO_LINE
name=$(readlink "/proc/$$/fd/0") name=${name##*/command.}
[ -n "$name" ] || kill -9 $$ # a kill of readlink is one of this command
echo "begun $name $$" >> "$file"
did='echo "did $name" >> "$file"
if [ -n "$AMO_CALLS" ]; then printf "\nperformed %s %s ." "$name" "$AMO_LINE" >> "$AMO_CALLS"; fi'
did() { sleep "$1"; eval "$did"; }
till() { while [ -d "$room" ] && ! [ -e "$room/$1" ]; do sleep 0.02; done; }
await='while [ -d "$room" ] && ! [ -e "$room/go" ]; do sleep 0.02; done; '$did
helps='echo $$ > "$room/helper.new"; mv "$room/helper.new" "$room/helper"; '$await
first() { mkdir "$room/tried.$AMO_LINE" 2> /dev/null; }
case $what in
quick) did 0; sleep 0.02 ;;
late) did 2; sleep 0.5 ;;
waits) ! first || till go; did 0 ;;
gated) till "go.$AMO_LINE"; did 0 ;;
waits_stays) ! first || till go; did 0; till over ;;
stays) did 0; till over ;;
waits_amp) ! first || { (till go; did 0) & exit 0; }; did 0 ;;
waits_nohup) export file name room; nohup sh -c "$await" > "$room/nohup.$AMO_LINE" 2>&1 & ;;
waits_setsid) export file name room; setsid sh -c "$await" & ;;
fed) ! first || { export file name room; exec python3 -c "
import subprocess, sys
subprocess.run(['/bin/sh', '-c', sys.argv[1]], input=b'pay')" "$helps"; }; did 0 ;;
sudo) ! first || exec sudo -n sh -c 'while [ -d "$1" ] && ! [ -e "$1/go" ]; do sleep 0.02; done
echo "did $3" >> "$2"' sh "$room" "$file" "$name"; did 0 ;;
java) ! first || { export file name room; exec java "$room/Pay.java" "$helps"; }; did 0 ;;
agent) did 0; python3 -c "
import os, subprocess, sys
it = subprocess.Popen([sys.argv[1] + '/agent', '1000'], stdin=subprocess.DEVNULL, stdout=subprocess.DEVNULL)
with open(sys.argv[1] + '/helper.new', 'w') as file:
    file.write(str(it.pid))
os.rename(file.name, sys.argv[1] + '/helper')" "$room" ;;
forked) export file name room; python3 -c "
import os, sys
if os.fork() == 0:
    os.setsid()
    if os.fork() == 0:
        os.closerange(0, 1000)
        for _ in range(3):
            os.open('/dev/null', os.O_RDWR)
        os.execvp('sh', ['sh', '-c', sys.argv[1]])" "$helps" ;;
slow) did 0.15; sleep 0.1 ;;
fail) did 0.02; exit 3 ;;
nothing) ! first || exit 75; did 0 ;;
deaf) trap '' TERM INT HUP; did 0.1; sleep 0.2 ;;
amp) (did 0.4) & ;;
closes) first && what=go || what=closed; exec python3 -c "
import os, sys, time
file, name, room, awaited = sys.argv[1:]
os.closerange(3, 1000)
open(room + '/closed', 'w').close()
while os.path.exists(room) and not os.path.exists(room + '/' + awaited):
    time.sleep(0.02)
open(file, 'a').write('did ' + name + chr(10))" "$file" "$name" "$room" "$what" ;;
nohup) export file name; nohup sh -c "sleep 0.4; $did" > "$room/nohup.$AMO_LINE" 2>&1 & ;;
setsid) export file name; setsid sh -c "sleep 0.4; $did" & ;;
hundred) did 0; exit 100 ;;
dies) did 0.02; kill -9 $$ ;;
*) did 0 ;;
esac
exit 0
