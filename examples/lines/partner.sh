#!/bin/sh
# partner.sh WORKER ROOM P M BETA JOBS COMMAND..: worker P of M by lines, over files of ROOM that the partners of one machine share. It
# performs line J of JOBS, which stays as it is, as COMMAND.. LINE: each line at most once. ROOM/journal.P says what became of it.
worker=$1 room=$2 p=$3 m=$4 beta=$5 jobs=$6 pipes=$(mktemp -d); shift 6
# one process a number: a command has the lock too, so while it runs nobody goes on in the place of who began it
exec 9>>"$room/lock.$p" && flock -n 9 && mkfifo "$pipes/to" "$pipes/from" || exit 75
say() { printf '%s\n' "$1" >&7; }
keep() { printf '%s\n' "$2" >"$1.$p" && sync "$1.$p" && mv "$1.$p" "$1" && sync "$room"; }
note() { printf '%s\n' "$1" >>"$room/journal.$p" && sync "$room/journal.$p" "$room"; }
# prints how many attempts at job $1 stand, by the journals of all numbers; an attempt doesn't stand if it is recorded as not begun. If
# it is 1, that is the attempt whose intent was kept just now.
standing() { awk -v job="$1" '$0 == "intent " job { n++ } $0 == "unbegun " job " " { n-- } END { print n + 0 }' "$room"/journal.*; }
# (nothing is appended to a line that a crash has cut off; if that is `unbegun`, it lacks the blank at its end, and isn't counted)
echo >>"$room/journal.$p" || exit 74
# (the worker, which waits here for both pipes, gives up the lock first: else it keeps it for ever where its partner is killed just now)
(exec 9>&-; exec "$worker" lines --protocol 2 "$p" "$m" "$beta" "$(grep -c '' "$jobs")" <"$pipes/to" >"$pipes/from") &
exec 7>"$pipes/to" 8<"$pipes/from"; rm -r "$pipes"
while read -r word a b c <&8; do
  case $word in
    load) if [ -e "$room/word.$a" ]; then say "$(cat "$room/word.$a")"; else say 0; fi ;;
    store) keep "$room/word.$a" "$b" || exit 74; say ok ;;
    found) note "found $a" || exit 74; say ok ;;
    intend) job=$b; note "intent $b" || exit 74; say ok ;;
    clear) found=$(standing "$b") || exit 74
      if [ "$found" = 1 ]; then say clear; else echo "job $b: another attempt at it stands; not started" >&2; say taken; fi ;;
    perform) "$@" "$(sed -n "${b}p" "$jobs")" </dev/null 7>&- 8<&-; code=$?
      if [ $code -gt 128 ]; then say "doubt $a go"; else say "done $a $code go"; fi ;;
    note) note "$a $job $c" || exit 74; say ok ;;
  esac
done
exec 7>&- 8<&-; wait $!
