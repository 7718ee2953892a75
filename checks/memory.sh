#!/usr/bin/env bash
# Want of memory, outside the gate: each allocation that the built program makes over a script fails, one
# at a time. Either there was no memory to begin with, and nothing is read (status 5, or 8 for the words); or
# exactly one line is answered `memory`, with status 7, and every other line as if that one were a
# comment, so that nothing has changed. Or the run is as if nothing had failed: std's `extend` and `collect` ask
# for room for all that an iterator may give, and where that fails for room for one more. Scripts are those of
# the words, or else those of examples/ and of docs/SCRIPT.md, which together have every kind of line.
set -u
cd "$(dirname "$0")/.." || exit 1
work=$(mktemp -d) || exit 1
trap 'rm -rf "$work"' EXIT
"${CC:-cc}" -O2 -shared -fPIC -o "$work/memory.so" checks/memory.c || exit 1

# it is built, if need be, before allocations fail
./prove >/dev/null || exit 1
program=crates/tmm_cli/out/tmm_cli

if [ "$#" -gt 0 ]; then
  scripts=("$@")
else
  awk -v dir="$work" '
    $1 == "```script" {
      file = dir "/line-" NR ".tmm"
      if (sub(/^```script +/, "")) print > (dir "/line-" NR ".words")
      next
    }
    $0 == "```" || $0 == "```replies" { file = ""; next }
    file { print > file }' docs/SCRIPT.md
  scripts=(examples/*.tmm "$work"/*.tmm)
fi

# answers SCRIPT FAILING: the output of a run in which this allocation fails, in the file `have`; its status.
answers() { TMM_FAIL=$2 LD_PRELOAD=$work/memory.so "$program" "${words[@]}" < "$1" > "$work/have" 2> "$work/errors"; }

# asked LINE: the output of the script `script` in which this line is a comment, kept for the next time.
asked() {
  local file=$work/asked-$1
  if [ ! -e "$file" ]; then
    awk -v line="$1" 'NR == line { print "#"; next } { print }' "$script" | "$program" "${words[@]}" > "$file"
  fi
  echo "$file"
}

# unharmed STATUS: whether the run, with this status, is as if nothing had failed.
unharmed() { [ "$1" -eq "$clean" ] && cmp -s "$work/have" "$work/plain"; }

# judge STATUS: says what is wrong with the run whose output is in the file `have`.
judge() {
  local line
  case $1 in
    5 | 8) [ ! -s "$work/have" ] || echo "status $1, and something was answered" ;;
    7)
      line=$(sed -n 's/^\([0-9]*\) memory$/\1/p' "$work/have")
      case $line in
        '' | *[!0-9]*) echo "not exactly one line is answered memory"; return ;;
      esac
      grep -v "^$line memory\$" "$work/have" | cmp -s - "$(asked "$line")" ||
        echo "line $line is answered memory, and others are not as if it were a comment"
      ;;
    *) echo "status $1" ;;
  esac
}

runs=0 before=0 again=0 failed=0
for script in "${scripts[@]}"; do
  # of the command line, where the script takes some
  words=()
  [ ! -e "${script%.tmm}.words" ] || read -ra words < "${script%.tmm}.words"
  rm -f "$work"/asked-*
  TMM_FAIL=0 TMM_COUNT=$work/count LD_PRELOAD=$work/memory.so "$program" "${words[@]}" < "$script" > "$work/plain"
  clean=$?
  count=$(cat "$work/count") || exit 1
  for ((number = 1; number <= count; number++)); do
    answers "$script" "$number"
    status=$?
    runs=$((runs + 1))
    if unharmed "$status"; then
      again=$((again + 1))
      continue
    fi
    [ "$status" -eq 7 ] || before=$((before + 1))
    wrong=$(judge "$status")
    if [ -n "$wrong" ]; then
      echo "checks: $script, allocation $number: $wrong" >&2
      failed=1
    fi
  done
done
echo "$runs runs, $before of them without memory to begin with, $again as if nothing had failed"
[ "$runs" -gt 0 ] || { echo "checks: no allocation was made to fail" >&2; failed=1; }
exit "$failed"
