#!/bin/sh
# partner.sh WORKER RUN P M JOBS COMMAND..: the runner of worker P of M. It performs a line as COMMAND.. LINE, and goes on until
# all is done; RUN is there. Left out: to stop in order, `untouched`, codes above 128 (doubts), what it knew before its own death.
worker=$1 run=$2 p=$3 m=$4 jobs=$5 room=$(mktemp -d) status=75 seen=; shift 5; trap '' PIPE
exec 9<>"$run/runner.$p" && flock -w 5 9 && mkfifo "$room/to" "$room/from" || exit 1
while [ $status = 75 ] || [ $status -gt 128 ]; do
  # (the worker, which waits here for both pipes, gives up the lock first; otherwise it would keep
  # it if this is killed meanwhile)
  (exec 9>&-; exec "$worker" work "$run" "$p" --workers "$m" "$jobs" <"$room/to" >"$room/from") & exec 7>"$room/to" 8<"$room/from"
  while IFS= read -r said <&8; do
    if [ "$said" = over ]; then sleep "0.$(($$ % 5 + 1))"; echo go >&7; continue; fi
    rest=${said#* }; serial=${rest%% *}; rest=${rest#* }; text=${rest#* }; lock=$run/command.$p.$serial
    case $said in perform*) # with the lock as its standard input and as a further descriptor
      (trap - PIPE; exec 3<>"$lock" 7>&- 8<&- 9>&-; flock -n 3 || exit 255; exec "$@" "$text" <&3); code=$?
      [ $code -gt 128 ] || seen="$seen $serial:$code " ;; esac
    answer="doubt $serial"; exec 6<>"$lock"
    if flock -n 6; then rm "$lock"; else answer="running $serial"; fi; exec 6>&-
    case "$answer$seen" in doubt*" $serial:"*) code=${seen##* $serial:}; answer="done $serial ${code%% *}" ;; esac
    echo "$answer go" >&7
  done
  exec 7>&- 8<&-; wait $!; status=$?; sleep "0.$(($$ % 5 + 1))"
done; rm -r "$room"; exit $status
