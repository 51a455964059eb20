# Plans of each size up to 70 and of some above: a call that gives up at a size between those of the
# other tests shows. tools/examples reads this file, which uses the functions of that tool, and
# `counted` of show_examples.sh.

# make_small SIZE VERSION: writes a plan to small.toml, and the line that checks it to small.check.
# SIZE is its number of jobs, moves, rounds and numbers to add, and the bytes of its names and
# texts.
make_small() {
  awk -v size="$1" -v version="$2" -v workers=$(($1 % 16 + 1)) -v block=$(($1 % 9 + 1)) -v room="$room" '
    BEGIN {
      plan = room "/small.toml"; beta = workers + size % 3
      width = size < 64 ? size : 64
      for (k = 1; k <= size; k++) {
        say = say "x"
        numbers = numbers (k == 1 ? "" : ", ") k
        words = words (k == 1 ? "" : " ") (k - 1) % workers + 1
      }
      for (k = 1; k <= workers; k++) budgets = budgets (k == 1 ? "" : ", ") 100 * size
      print "version = " version "\nworkers = " workers "\nbeta = " beta "\nrounds = " size >plan
      print "schedule = \"" words "\"\nbudgets = [" budgets "]" >plan
      if (version == 2) print "block = " block >plan
      for (k = 1; k <= size; k++)
        print "[[job]]\nname = \"" sprintf("%0" width "d", k) "\"\n" (k % 2 ? "say = \"" say "\"" : "add = [" numbers "]") >plan
      blocks = version == 2 ? " block " block " blocks " int((size + block - 1) / block) : ""
      print "ok jobs " size blocks " workers " workers " beta " beta " moves " size " rounds " size >(room "/small.check")
    }'
}

# is_taken PROGRAM WORDS..: whether the command writes something of small.toml and nothing else. It
# is left in out.
is_taken() { "$@" <"$room/small.toml" >"$room/out" 2>"$room/err" && [ -s "$room/out" ] && [ ! -s "$room/err" ]; }

# is_small_taken SIZE: whether each command takes small.toml, the check is its line, and its report
# is judged to be a run.
is_small_taken() {
  local words
  is_taken "$program" check && cmp -s "$room/small.check" "$room/out" && is_taken "$program" replay && counted "$room/out" >"$room/counted" &&
    "$show" judge <"$room/out" 2>>"$room/err" | cmp -s - "$room/counted" && [ ! -s "$room/err" ] || return
  for words in run "explore $(($1 * 2345678901)) $(($1 % 50 + 1)) $1" "stops $(($1 % 16 + 1))"; do
    # shellcheck disable=SC2086
    is_taken "$program" $words || return
  done
  for words in trace picture explain worst; do
    is_taken "$show" $words || return
  done
}

try_smalls() {
  local size version
  for version in 1 2; do
    for size in {0..70} 85 100 128 150 200 256 300 400; do
      make_small "$size" $version
      if ! is_small_taken "$size"; then
        fail "each command of a plan of size $size in version $version" 'another end' 'the end that it asks for'
        head -n 5 "$room/out" "$room/err"
        continue 2
      fi
    done
    pass "each command of plans of each size up to 70 and of some up to $size in version $version"
  done
}
