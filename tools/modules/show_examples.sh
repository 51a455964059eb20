# What `amo_show` writes of plans and histories, for tools/examples, which reads this file: its
# calls are used here.

# counted REPORT: what is judged of the history of this report, which is a run.
counted() {
  awk '$1 !~ /^[0-9]+$/ { next }
    { of[$2]++; all++ }
    END { print "lawful"
      print "events", all + 0, "claimed", of["claimed"] + 0, "done", of["done"] + 0, "ended", of["ended"] + 0, "halted", of["halted"] + 0, "left", of["left"] + 0 }' "$1"
}

# make_history JOBS WORKERS [names]: writes a history of so many jobs, each claimed and done by the
# next of the workers, to the file history, and its verdict to lawful. Writes the history with job 1
# claimed once more at its end to unlawful.history, and its verdict to unlawful.
make_history() {
  awk -v jobs="$1" -v workers="$2" -v names="${3:+ names}" -v room="$room" 'BEGIN {
    first = "jobs " jobs " workers " workers " beta " workers names
    history = room "/history"; again = room "/unlawful.history"
    print first >history; print first >again
    for (j = 1; j <= jobs; j++) {
      worker = (j - 1) % workers + 1
      of = names ? " consumer@" worker " orders-" j % 4 "-" j : " " worker " " j
      print 2 * j - 1 " claimed" of >history; print 2 * j - 1 " claimed" of >again
      print 2 * j " done" of >history; print 2 * j " done" of >again
    }
    print "lawful\nevents " 2 * jobs " claimed " jobs " done " jobs " ended 0 halted 0 left 0" >(room "/lawful")
    of = names ? " consumer@1 orders-1-1" : " 1 1"
    print 2 * jobs + 1 " claimed" of >again
    print "unlawful " 2 * jobs + 1 "\nline " 2 * jobs + 2 ": " 2 * jobs + 1 " claimed" of >(room "/unlawful")
    split(of, words, " ")
    print "job " words[2] " was claimed by worker " words[1] " in event 1" >(room "/unlawful")
  }'
}

# judge_sizes [names]: histories of each number of jobs up to 70, and of some more up to the most.
judge_sizes() {
  local jobs
  for jobs in {1..70} 100 333 1000 2049 4096; do
    make_history "$jobs" $((jobs % 16 + 1)) "$@"
    "$show" judge <"$room/history" >"$room/out" 2>"$room/err" && is_left "$room/lawful" /dev/null &&
      "$show" judge <"$room/unlawful.history" >"$room/out" 2>"$room/err" && is_left "$room/unlawful" /dev/null || break
  done
  expect "amo_show judge of up to $jobs jobs${1:+ with $1}" 0 "$room/lawful" /dev/null "$show" judge <"$room/history"
  expect "amo_show judge of a claim more after up to $jobs jobs${1:+ with $1}" 0 "$room/unlawful" /dev/null "$show" judge <"$room/unlawful.history"
}

# amo_show judge: each report's history is a run, that of the longest too. Further come histories of
# all sizes, a log that was brought into that form, texts that aren't histories, and the longest
# text.
judge_runs() {
  local text log=examples/histories/celery
  for text in examples/plans/*.report "$room/limits.report"; do
    counted "$text" >"$room/counted"
    expect "amo_show judge of $text" 0 "$room/counted" /dev/null "$show" judge <"$text"
  done
  judge_sizes
  judge_sizes names
  expect "$log.awk" 0 "$log.history" /dev/null awk -f "$log.awk" "$log.log"
  expect "amo_show judge of $log.history" 0 "$log.answer" /dev/null "$show" judge <"$log.history"
  expect 'amo_show judge of nothing' 0 "$(lines refused 'line 1: this is no first line of a history')" /dev/null "$show" judge </dev/null
  yes 'jobs' | head -c 1048576 >"$room/longest"
  expect 'amo_show judge of the longest text' 0 "$(lines refused 'line 1: this is no first line of a history')" /dev/null "$show" judge <"$room/longest"
  for log in power_cut no_clearance; do
    expect "amo_show judge --run of examples/runs/$log.log" 0 "examples/runs/$log.answer" /dev/null "$show" judge --run <"examples/runs/$log.log"
  done
  expect 'amo_show judge --run of a history' 0 "$(lines refused 'line 1: this is no event')" /dev/null "$show" judge --run <examples/histories/celery.history
  expect 'amo_show judge --run of the longest text' 0 "$(lines refused 'line 1: this is no event')" /dev/null "$show" judge --run <"$room/longest"
  echo >>"$room/longest"
  expect 'amo_show judge --run of a byte more' 1 /dev/null "$(line 'fault 11 TooLong')" "$show" judge --run <"$room/longest"
  expect 'amo_show judge of a byte more' 1 /dev/null "$(line 'fault 11 TooLong')" "$show" judge <"$room/longest"
  expect 'amo_show explain of a byte more' 1 /dev/null "$(line 'fault 11 TooLong')" "$show" explain <"$room/longest"
}

# asked_for PLAN: what is explained of a plan that is taken, by the numbers that `amo check` writes
# of it.
asked_for() {
  "$program" check <"$1" | awk '
    function some(count, one) { return count " " one (count == 1 ? "" : "s") }
    { for (i = 2; i < NF; i += 2) of[$i] = $(i + 1)
      blocks = "block" in of
      print "taken"
      print "A plan of version " 1 + blocks ": " some(of["jobs"], "job") (blocks ? " in " some(of["blocks"], "block") " of up to " of["block"] : "") \
        " for " some(of["workers"], "worker") ", with threshold " of["beta"] ". The schedule has " some(of["moves"], "move") \
        ", followed by " some(of["rounds"], "round") "." }'
}

# explained_first PLAN: prints the first line of an explanation, after which one to three lines of
# text must follow.
explained_first() {
  "$show" explain <"$1" | awk 'NR == 1 { print; next } /^.+$/ { more++ } END { exit !(more == NR - 1 && 1 <= more && more <= 3) }'
}

# expect_explained LINE PLAN: what is explained begins with this line.
expect_explained() { expect "amo_show explain, $1" 0 "$(line "$1")" /dev/null explained_first "$2"; }

# amo_show explain: of each plan that is taken what it asks for, of each other its fault; plans of
# all sizes.
explain_runs() {
  local plan jobs workers
  for plan in examples/plans/*.toml "$room"/{limits,crowd,crowd_blocks,wide_blocks,rows,few_moves,stops}.toml; do
    if "$program" check <"$plan" >/dev/null 2>"$room/fault"; then
      asked_for "$plan" >"$room/asked"
      expect "amo_show explain of $plan" 0 "$room/asked" /dev/null "$show" explain <"$plan"
    else
      expect "amo_show explain of $plan" 0 "$room/fault" /dev/null explained_first "$plan"
    fi
  done
  for jobs in {0..70} 100 333 1000 2049 4096; do
    workers=$((jobs % 16 + 1))
    {
      printf 'version = 1\nworkers = %d\nbeta = %d\nrounds = %d\nschedule = "%d*%d"\n' $workers $((workers + jobs)) "$jobs" $workers $((jobs + 1))
      jobs_of "$jobs"
    } >"$room/given.toml"
    asked_for "$room/given.toml" >"$room/asked"
    "$show" explain <"$room/given.toml" >"$room/out" 2>"$room/err" && is_left "$room/asked" /dev/null || break
  done
  expect "amo_show explain of up to $jobs jobs" 0 "$room/asked" /dev/null "$show" explain <"$room/given.toml"
}

# jobs_of COUNT: so many jobs.
jobs_of() { [ "$1" -eq 0 ] || printf '[[job]]\nname = "job-%d"\nsay = ""\n' $(seq "$1"); }

# ended_with COUNT: whether the report in this function's standard input has so many jobs performed
# and no worker that goes on.
ended_with() { awk -v count="$1" '/^worker .* running / { running++ } /^performed / { done = $2 } END { exit running || done != count }'; }

# expect_worst JOBS WORKERS BETA COUNT: the worst plan of these is one, and its replay performs just
# so many jobs.
expect_worst() {
  local name="amo_show worst of $1 jobs, $2 workers and threshold $3"
  { printf 'version = 1\nworkers = %d\nbeta = %d\n' "$2" "$3"; jobs_of "$1"; } >"$room/given.toml"
  if "$show" worst <"$room/given.toml" >"$room/worst.toml" 2>"$room/err" && "$program" replay <"$room/worst.toml" 2>>"$room/err" | ended_with "$4" &&
    [ ! -s "$room/err" ] && cmp -s <(grep '^\(name\|say\|workers\|beta\) ' "$room/given.toml" | sort) <(grep '^\(name\|say\|workers\|beta\) ' "$room/worst.toml" | sort); then
    pass "$name"
  else
    fail "$name" 'another end' "a replay that performs $4"
    head -n 5 "$room/worst.toml" "$room/err"
  fi
}

# amo_show worst: the fewest jobs that may be performed, for numbers of all sizes. Further come the
# longest schedule, one that is too long, a text that is too long, and the result of each key and
# each text.
worst_runs() {
  local jobs workers beta count
  for workers in 1 2 3 7 16; do
    for beta in "$workers" $((workers + 1)) $((workers * workers)); do
      for jobs in 0 1 $((beta - 1)) "$beta" $((beta + workers - 2)) $((beta + workers - 1)) $((beta + workers)) 40 333; do
        [ "$jobs" -ge 0 ] || continue
        count=$((jobs - beta - workers + 2))
        [ $count -ge 1 ] || count=1
        [ "$jobs" -ge "$beta" ] || count=0
        expect_worst "$jobs" "$workers" "$beta" $count
      done
    done
  done
  expect_worst 3059 16 16 3029
  { printf 'version = 1\nworkers = 16\nbeta = 16\n'; jobs_of 3060; } >"$room/given.toml"
  expect 'amo_show worst of a job more' 0 "$(lines refused 'the schedule would have 100020 moves, and a plan has at most 100000')" \
    /dev/null "$show" worst <"$room/given.toml"
  awk 'BEGIN { print "version = 2\nblock = 4096\nworkers = 1\nbeta = 1\njob = ["
    for (j = 10001; j <= 50000; j++) printf "{name=\"%d\",say=\"\"},", j
    print "]" }' >"$room/given.toml"
  # 64 bytes of the lines above the jobs, 33 of each job
  expect 'amo_show worst of a text that grows too long' 0 \
    "$(lines refused 'the text would have 1320064 bytes, with 30 moves, and a plan has at most 1048576')" /dev/null "$show" worst <"$room/given.toml"
  expect 'amo_show worst of two names' 1 /dev/null examples/plans/two_names.fault "$show" worst <examples/plans/two_names.toml
  printf 'version = 2\nworkers = 1\nbeta = 1\nblock = 3\nrounds = 7\nbudgets = [3]\nschedule = "1 l1"\n[[job]]\nname = "a"\nsay = "a\\"b\\\\\\u0000\\n\\u00e9"\n[[job]]\nname = "b"\nadd = []\n' >"$room/given.toml"
  "$show" worst <"$room/given.toml" >"$room/worst.toml"
  "$program" replay <"$room/worst.toml" | grep '^result' >"$room/results"
  expect 'amo_show worst of texts that are escaped' 0 "$(lines 'result 1 a a"b\x5c\x00\x0a\xc3\xa9' 'result 2 b 0')" /dev/null cat "$room/results"
  expect 'amo_show worst of a plan of version 2' 0 "$(lines 'ok jobs 2 block 3 blocks 1 workers 1 beta 1 moves 3 rounds 0')" /dev/null "$program" check <"$room/worst.toml"
}

# amo_show all: a word apart, two names, blocks; tools/all_worlds tries all givens.
all_runs() {
  expect 'amo_show all of two names' 1 /dev/null examples/plans/two_names.fault "$show" all <examples/plans/two_names.toml
  { printf 'version = 2\nblock = 2\nworkers = 3\nbeta = 3\n'; jobs_of 9; } >"$room/given.toml"
  expect 'amo_show all of too many blocks' 0 "$(lines refused 'with 3 workers at most 4 blocks are looked through, and the plan has 5')" \
    /dev/null "$show" all <"$room/given.toml"
  expect 'amo_show all, its input not given' 4 /dev/null "$(line 'fault read')" "$show" all <examples
  program=$show expect 'amo_show all, its output not taken' 4 /dev/null "$(line 'fault write')" with_full_output all <examples/plans/one_worker.toml
}

# amo_show: its words, its plans and its streams.
show_runs() {
  local words
  for words in '' traces --help -- 'trace x' 'trace trace' replay 'picture 0 2 5 6' 'picture x x x x x x x x x' explains 'judge judge' 'judge run' '--run judge' 'judge --run --run' 'trace --run' worse 'worst 1' al alls 'all all'; do
    # shellcheck disable=SC2086
    expect "amo_show${words:+ }$words" 2 /dev/null "$(line 'fault words')" "$show" $words <examples/plans/each_stop.toml
  done
  expect "amo_show ''" 2 /dev/null "$(line 'fault words')" "$show" '' <examples/plans/each_stop.toml
  expect "amo_show trace ''" 2 /dev/null "$(line 'fault words')" "$show" trace '' <examples/plans/each_stop.toml
  expect 'amo_show and a word that is no text' 3 /dev/null "$(line 'fault memory')" "$show" $'\xff' <examples/plans/each_stop.toml
  program=$show refuse_more_words trace
  program=$show refuse_more_words explain
  expect_picture docs/two_collide.svg examples/plans/two_collide.toml
  expect 'amo_show picture of two names' 1 /dev/null examples/plans/two_names.fault "$show" picture <examples/plans/two_names.toml
  program=$show expect 'amo_show picture, its output not taken' 4 /dev/null "$(line 'fault write')" with_full_output picture <examples/plans/each_stop.toml
  expect 'amo_show trace of two names' 1 /dev/null examples/plans/two_names.fault "$show" trace <examples/plans/two_names.toml
  expect 'amo_show trace, its input not given' 4 /dev/null "$(line 'fault read')" "$show" trace <examples
  expect 'amo_show trace, its input closed' 4 /dev/null "$(line 'fault read')" "$show" trace <&-
  program=$show expect 'amo_show trace, its output not taken' 4 /dev/null "$(line 'fault write')" with_full_output trace <examples/plans/each_stop.toml
  program=$show expect 'amo_show trace, its output closed' 4 /dev/null "$(line 'fault write')" with_closed_output trace <examples/plans/each_stop.toml
}
