#!/usr/bin/env bash
# A long script, of more than 5,000 lines and 300 premises, with every kind of line and replies of more than 100
# lines: each line has the reply that is due, and none is `memory`, which contracts would allow anywhere.
set -u
cd "$(dirname "$0")/.." || exit 1
./prove >/dev/null || exit 1
work=$(mktemp -d) || exit 1
trap 'rm -rf "$work"' EXIT

# give LINE REPLY: a line of the script, and the first line of its reply without the number.
number=0
give() {
  number=$((number + 1))
  echo "$1" >&3
  [ -z "${2:-}" ] || echo "$number $2" >&4
}

questions() {
  give "path p1 p102" "path 404"
  give "bounds p1 p102" "bounds 101 404"
  # the way back over all 101 distances, and the constraint itself
  give "dist x p102 p1 0 *" "no cycle -101"
  give "why $last" "why"
  give "why bang/shuts" "why"
  give "ask light e e" "yes sun"
  give "ask shut bang/shuts bang/shuts" "yes bang/shuts"
  # four that are declared, 119 ticks and a token
  give "list" "list 124"
  # 1 for each of them, 1 for each rule that leads to one, and 1 for each tick and for the bang
  give "size" "size $((124 + 119 * 120 / 2 + 1 + 120 + 1))"
  give "dump" "dump 328"
  give "audit" "audit yes"
}

# A token that contradicts what is to hold at 110 protections, and goes again.
breaks() {
  give "check" "check 0"
  give "token jam shut" "ok"
  give "dist j start jam 1 1" "ok"
  give "ask open e e" "no"
  give "check" "check 110"
  give "erase jam" "ok"
  give "check" "check 0"
}

# The 119th tick after the event e.
last=e$(printf '/a%.0s' {1..119})

write() {
  local i round least held
  give "class door open shut" "ok"
  give "class day light dark" "ok"
  give "kind push" "ok"
  give "kind tick" "ok"
  for ((i = 1; i <= 102; i++)); do give "point p$i" "ok"; done
  for ((i = 1; i < 102; i++)); do give "dist d$i p$i p$((i + 1)) 1 4" "ok"; done
  give "horizon 120" "ok"
  give "token held open" "ok"
  give "dist h start held 0 0" "ok"
  give "span sun light" "ok"
  give "dist up start sun 0 0" "ok"
  give "dist down start sun.end 1000 1000" "ok"
  give "rule a tick 1 1 tick if light" "ok"
  give "event e tick" "ok"
  give "dist f start e 1 1" "ok"
  for ((i = 1; i <= 110; i++)); do give "protect k$i open e e" "ok"; done
  give "rule shuts push 1 2 shut if open" "ok"
  give "event bang push" "ok"
  give "dist b start bang 5 5" "ok"
  questions
  breaks
  for ((round = 1; round <= 600; round++)); do
    least=$((round % 20))
    # by 7 the door is surely shut
    held="yes held"
    [ "$least" -lt 7 ] || held=no
    give "# round $round"
    give "point x" "ok"
    give "dist y p1 x $least *" "ok"
    give "bounds p1 x" "bounds $least *"
    give "ask open x x" "$held"
    give "point x" "no taken x"
    give "dist z x p1 1 *" "no cycle -$((least + 1))"
    give "bounds nobody x" "no unknown nobody"
    give "erase x" "ok"
    # one tick less, and all of them again
    [ "$((round % 20))" != 10 ] || give "horizon 119" "ok"
    [ "$((round % 20))" != 0 ] || give "horizon 120" "ok"
  done
  questions
  breaks
  # with it fall its tokens, the rule and the protections
  give "erase door" "ok"
  give "dump" "dump 214"
}

write 3>"$work/script" 4>"$work/due"
./tmm <"$work/script" >"$work/replies"
status=$?
failed=0
if [ "$status" != 1 ]; then
  echo "checks: a long script: status $status instead of 1" >&2
  failed=1
fi
if ! diff <(grep -v '^ ' "$work/replies") "$work/due" >&2; then
  echo "checks: a long script: other replies than are due" >&2
  failed=1
fi
exit "$failed"
