# Tries ./amo, ./amo_show and ./look with the toolchain, without it, and with a script in its place.
# tools/examples reads this file, which uses the functions of that tool.

# ./amo and ./amo_show hand on words, streams and status.
run_amo() {
  expect './amo explore 0 2 5' 0 examples/plans/rounds.explore_0_2_5 /dev/null ./amo explore 0 2 5 <examples/plans/rounds.toml
  expect './amo_show trace' 0 examples/plans/two_collide.trace /dev/null ./amo_show trace <examples/plans/two_collide.toml
  expect './amo stops 3' 1 /dev/null examples/plans/each_stop.stops_3.fault ./amo stops 3 <examples/plans/each_stop.toml
}

# on_terminal COMMAND..: runs it where its streams are a terminal, and gives what it wrote there, with its status.
on_terminal() (
  set -o pipefail
  python3 -c 'import os, pty, sys; sys.exit(os.waitstatus_to_exitcode(pty.spawn(sys.argv[1:])))' "$@" </dev/null | tr -d '\r'
)

# Tries the version of each program, and the pages that stand for the help of two of them. Tries the
# answers of these two if the same arguments come with others, and the first line of ./amo check on
# a terminal.
show_help() {
  local name word version
  read -r version <VERSION
  for name in amo amo_show amo_worker amo_jobs amo_share; do
    expect "./$name --version" 0 "$(lines "$name $version")" /dev/null "./$name" --version </dev/null
  done
  for name in amo amo_show; do
    for word in --help -h; do
      expect "./$name $word" 0 "docs/help/$name.txt" /dev/null "./$name" $word </dev/null
    done
    expect "./$name on a terminal" 0 "docs/help/$name.txt" /dev/null on_terminal "./$name"
    expect "./$name, its input no terminal" 2 /dev/null "$(line 'fault words')" "./$name" </dev/null
    for word in '--help trace' '--version trace' 'trace --version' -V; do
      # shellcheck disable=SC2086 # each word is an argument
      expect "./$name $word" 2 /dev/null "$(line 'fault words')" "./$name" $word </dev/null
    done
  done
  expect './amo check on a terminal' 0 \
    "$(lines 'amo: to see what is wrong with a plan: ./amo_show explain < PLAN' "$(cat examples/plans/three_jobs.check)")" /dev/null \
    on_terminal sh -c './amo check <examples/plans/three_jobs.toml'
  expect './amo replay on a terminal' 0 examples/plans/three_jobs.report /dev/null on_terminal sh -c './amo replay <examples/plans/three_jobs.toml'
}

# look_aside NAME WORDS..: ./look, whose texts and status become files of this name; and the same texts and status again.
look_aside() {
  local ended=0
  ./look "${@:2}" >"$room/$1.out" 2>"$room/$1.err" || ended=$?
  echo $ended >"$room/$1.ended"
}
looked() {
  cat "$room/$1.out"
  cat "$room/$1.err" >&2
  return "$(cat "$room/$1.ended")"
}

# The steps that docs/guide/rattle.md gives a reader from nothing on, without the last command, which
# proves.
embed() {
  sed -n '/^AMO=/,/^rt try$/p' docs/guide/rattle.md | sed "s|/tmp/letters|$room/letters|g" >"$room/embed"
  sh -e "$room/embed" </dev/null 2>"$room/embed.err" | grep '^job '
}

# Two looks with the toolchain itself, and that page. Each takes a minute or two, so they run at the
# same time as all else, and are compared last. RT_SECONDS gives a program more than the minute that
# `rt try` gives it, for a loaded machine.
looks='look: the program runs with nothing proved, in a minute or two; to prove it first, use ./amo'
begin_looks() {
  local -x RT_SECONDS=900
  look_aside ended replay <examples/plans/three_jobs.toml &
  look_aside faulted stops 3 <examples/plans/each_stop.toml &
  embed >"$room/embedded" &
}
compare_looks() {
  wait
  expect './look replay' 0 examples/plans/three_jobs.report "$(lines "$looks")" looked ended
  expect './look stops 3' 1 /dev/null "$(lines "$looks" "$(cat examples/plans/each_stop.stops_3.fault)")" looked faulted
  sed -n '/^job 1: a letter/,/^```$/p' docs/guide/rattle.md | grep '^job ' >"$room/letters.page"
  expect 'the first program of rattle.md' 0 "$room/letters.page" /dev/null cat "$room/embedded"
}

# Makes a copy in which nothing is built, a path without the toolchain, and one with scripts in its
# place. Of the scripts, `rt try` keeps its arguments and its input and writes the files out and
# err. `rt lib` and the prover make an empty library, and the prover and the linker a program that
# writes its arguments. The file made lists each library of the prover's. The crate $UNPROVED is not
# proved.
set_apart() {
  local command
  mkdir -p "$room/copy" "$room/bare" "$room/kit/bin"
  script=$room/kit/bin
  cp -R --parents amo amo_show HANDLES crates.txt tools crates/*/src crates/*/specs crates/amo/stdin crates/amo_show/stdin "$room/copy"
  for command in bash dirname env find readlink; do ln -s "$(command -v $command)" "$room/bare/"; done
  cat >"$script/rt" <<'END'
#!/bin/sh
here=${0%/*} crate=${PWD##*/}
case $1 in
  try)
    printf '%s\n' "$@" >"$here/words"
    cat >"$here/given"
    cat "$here/err" >&2
    exec cat "$here/out"
    ;;
  lib)
    [ "$crate" != "${UNPROVED-}" ] || { echo 'not proved' >&2 && exit 1; }
    mkdir -p "out/rlib/$crate.rlib" out/incremental
    echo >"out/rlib/$crate.rlib/format" && echo >out/rlib/stamp
    ;;
esac
END
  cat >"$script/rattle" <<'END'
#!/bin/sh
while [ $# -gt 0 ]; do
  case $1 in --crate-name) crate=$2 ;; -o) made=$2 ;; esac
  shift
done
[ "$crate" != "${UNPROVED-}" ] || { echo 'not proved' >&2 && exit 1; }
case $made in
  *.rlib) mkdir -p "$made" && echo >"$made/format" && echo "$crate" >>"${0%/*}/made" ;;
  *) printf '#!/bin/sh\nprintf "<%%s>" "$@"\necho\n' >"$made" ;;
esac
END
  cat >"$script/rattle-link" <<'END'
#!/bin/sh
while [ "$1" != -o ]; do shift; done
cp "$3" "$2" && chmod +x "$2"
END
  chmod +x "$script/rt" "$script/rattle" "$script/rattle-link"
}
without_rt() { PATH=$room/bare "$@"; }
with_script() { PATH=$script:$PATH "$@"; }

# Without the toolchain, each script that must build or prove prints that in one line, and a built
# program runs.
do_without() {
  local name missing="\`rt\`: it is not on the path; install the toolchain, see 'Build and run' in README.md"
  expect './look without the toolchain' 125 /dev/null "$(lines "look: $missing")" \
    without_rt ./look replay <examples/plans/three_jobs.toml
  expect './test without the toolchain' 125 /dev/null "$(lines "test: $missing")" without_rt ./test
  for name in amo amo_show; do
    expect "./$name, to be built, without the toolchain" 125 /dev/null "$(lines "$name: $missing")" without_rt "$room/copy/$name"
  done
  expect './amo, built, without the toolchain' 0 examples/plans/three_jobs.report /dev/null \
    without_rt ./amo replay <examples/plans/three_jobs.toml
  expect './amo_show, built, without the toolchain' 0 examples/plans/two_collide.trace /dev/null \
    without_rt ./amo_show trace <examples/plans/two_collide.toml
}

# build_copy NAME WORDS..: ./NAME of the copy. Of its lines that tell of a proved library there is one for all but the last, since
# they come in no order.
build_copy() {
  local ended=0
  with_script "$room/copy/$1" "${@:2}" 2>"$room/said" || ended=$?
  sed 's/: amo_[a-z_]* is proved, 0 left/: all are proved/; s/: amo_[a-z_]* is proved, .* left/: some are proved/' "$room/said" |
    uniq >&2
  return $ended
}

# ./amo and ./amo_show prove the libraries below them and then their own crate; where either fails
# the status is 125.
build_copies() {
  local begun='the program is proved and built first; that takes some minutes'
  local unbuilt='the program could not be built; correct what the lines above report'
  UNPROVED=amo_commands expect './amo, a library not proved' 125 /dev/null "$(lines "amo: $begun" 'amo: some are proved' \
    'not proved' 'amo: crate amo_commands: it could not be proved; correct what the lines above report' "amo: $unbuilt")" build_copy amo check <examples
  UNPROVED=amo expect './amo, its own crate not proved' 125 /dev/null "$(lines "amo: $begun" 'amo: all are proved' \
    'not proved' "amo: $unbuilt")" build_copy amo check <&-
  expect './amo, built now' 0 "$(lines '<check><><a b>')" "$(lines "amo: $begun")" build_copy amo check '' 'a b' <examples
  expect './amo, built before' 0 "$(lines '<check>')" /dev/null build_copy amo check
  expect 'what ./amo made again' 0 /dev/null /dev/null made_again
  rm -r "$room/copy/crates/amo_plan/out"
  expect './amo_show, built now' 0 "$(lines '<trace>')" "$(lines "amo_show: $begun" 'amo_show: some are proved' \
    'amo_show: all are proved')" build_copy amo_show trace
  expect 'proofs kept before a change' 1 /dev/null /dev/null find_kept
  echo >>"$room/copy/crates/amo_kk/src/lib.rt"
  expect './amo, a source changed' 0 "$(lines '<check>')" "$(lines "amo: $begun" 'amo: some are proved' 'amo: all are proved')" \
    build_copy amo check
  expect 'proofs kept after it' 0 /dev/null /dev/null find_kept
}
# The libraries that the prover has made more than once.
made_again() { sort "$script/made" | uniq -d; }
# Whether `rt` keeps the proofs of each library below amo, of which amo_words is one.
find_kept() { [ -e "$room/copy/crates/amo_words/out/rlib/stamp" ] && [ -d "$room/copy/crates/amo_words/out/incremental" ]; }

# tried OUT LINE..: the script's `rt try` writes this file, and these lines on standard error.
tried() {
  cat "$1" >"$script/out"
  printf '%s\n' "${@:2}" >"$script/err"
}
look_unread() { with_script ./look "$@" >/dev/full; }
look_unheard() { with_script ./look "$@" 2>&-; }
look_endlessly() { yes | with_script ./look "$@"; }
look_by_link() (
  ln -s "$PWD/look" "$room/link" && cd / && with_script "$room/link" "$@"
)

# What ./look makes of each end that `rt try` can come to.
translate_ends() {
  local status report=examples/plans/three_jobs.report plan=examples/plans/three_jobs.toml why
  for status in 0 1 2 3 4; do
    tried $report "fault of $status" "checked: ended status=$status" 'races: not looked for' \
      "run=ended status=$status runners=1 races=unchecked proved=no"
    expect "./look, status $status" $status $report "$(lines "$looks" "fault of $status")" with_script ./look replay <$plan
  done
  expect './look, its output not taken' 125 /dev/null "$(lines "$looks" "look: standard output: the text can't be written; check where it goes")" \
    look_unread replay <$plan
  expect './look, its error stream closed' 4 $report /dev/null look_unheard replay <$plan
  for why in 'the program did not end within the time limit' 'the program wrote more than 1048576 bytes'; do
    tried /dev/null "the end of the program's standard output:" '| unclaimed' 'interpreter: no-answer: it lacks a call' \
      "checked: no-answer: $why" 'run=no-answer proved=no'
    expect "./look, $why" 125 /dev/null "$(lines "$looks" "look: \`rt try\`: it reached a limit, since $why; use ./amo, which has none")" \
      with_script ./look replay <$plan
  done
  tried /dev/null 'checked: fault kind=overflow in=amo::work' 'run=fault proved=no'
  expect './look, a fault' 125 /dev/null "$(lines "$looks" "$(cat "$script/err")" \
    'look: the program: it did what its proof must rule out; report the lines above')" with_script ./look replay <$plan
  tried /dev/null 'src/main.rt:12:45: error[mismatched-types]: expected `&str`, found an integer' 'run=none proved=no'
  expect './look, not compiled' 125 /dev/null "$(lines "$looks" "$(cat "$script/err")" \
    "look: \`rt try\`: it could not build and run the program; correct what the lines above report")" with_script ./look replay <$plan
  : >"$script/err"
  expect './look, nothing said' 125 /dev/null "$(lines "$looks" "look: \`rt try\`: it could not build and run the program; correct what the lines above report")" \
    with_script ./look replay <$plan
}

# ./look hands on its words and its plan, as much of it as the program would read.
hand_on() {
  local none='look: standard input: no plan can be read from it; give one, as in: ./look replay < PLAN'
  expect './look, its input not given' 125 /dev/null "$(lines "$none")" with_script ./look replay <examples
  expect './look, its input closed' 125 /dev/null "$(lines "$none")" with_script ./look replay <&-
  tried examples/plans/three_jobs.check 'checked: ended status=0' 'run=ended status=0 runners=1 proved=no'
  expect './look, a plan of all bytes' 0 examples/plans/three_jobs.check "$(lines "$looks")" \
    with_script ./look '' 'a b' -- --help <"$room/limits.toml"
  expect './look, the words' 0 "$(lines try -- '' 'a b' -- --help)" /dev/null cat "$script/words"
  expect './look, the plan' 0 "$room/limits.toml" /dev/null cat "$script/given"
  expect './look, an input without an end' 0 examples/plans/three_jobs.check "$(lines "$looks")" look_endlessly replay
  yes | head -c 1048577 >"$room/beginning"
  expect './look, its beginning' 0 "$room/beginning" /dev/null cat "$script/given"
  expect './look, by a link and from another folder' 0 examples/plans/three_jobs.check "$(lines "$looks")" \
    look_by_link check <examples/plans/three_jobs.toml
  expect './look, the same plan' 0 examples/plans/three_jobs.toml /dev/null cat "$script/given"
}
