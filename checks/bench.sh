#!/usr/bin/env bash
# Figures of the built program, outside the gate: processor time of a line, in microseconds, as docs/FIGURES.md
# has them. Each is the difference of two runs, with and without the lines that are measured, by the best of
# five runs. Compare figures of one machine and one run alone.
set -u
cd "$(dirname "$0")/.." || exit 1
./prove >/dev/null || exit 1

# A chain of $1 points, each 1 to 4,000 time units after the one before.
chain() {
  seq -f 'point p%g' "$1"
  for ((i = 1; i < $1; i++)); do echo "dist d$i p$i p$((i + 1)) 1 4000"; done
}

# $2 constraints at the end of the chain of $1 points, each tighter than the one before.
tighter() {
  for ((i = 1; i <= $2; i++)); do echo "dist x$i p$(($1 - 1)) p$1 * $((4000 - i))"; done
}

# The same taken out again, the tightest first, so that each moves the end.
looser() {
  for ((i = $1; i >= 1; i--)); do echo "erase x$i"; done
}

# Processor time of the program over the script on standard input, in microseconds, the best of five runs.
spent() {
  local script best=0 user system whole
  script=$(mktemp)
  cat >"$script"
  for _ in 1 2 3 4 5; do
    read -r user system < <({ TIMEFORMAT='%3U %3S'; time ./tmm <"$script" >/dev/null; } 2>&1)
    whole=$(awk -v u="$user" -v s="$system" 'BEGIN { printf "%d", (u + s) * 1000000 }')
    if [ "$best" -eq 0 ] || [ "$whole" -lt "$best" ]; then best=$whole; fi
  done
  rm -f "$script"
  echo "$best"
}

per_line() { awk -v from="$1" -v to="$2" -v lines="$3" 'BEGIN { printf "%.1f", (to - from) / lines }'; }

count=1500
echo "commit $(git rev-parse --short HEAD 2>/dev/null), $(date +%F), $(nproc) processors"
printf '%-28s %12s %12s\n' "chain of points" "an edge in" "an edge out"
for points in 50 100 200; do
  standing=$(chain "$points" | spent)
  added=$({ chain "$points"; tighter "$points" "$count"; } | spent)
  erased=$({ chain "$points"; tighter "$points" "$count"; looser "$count"; } | spent)
  printf '%-28s %12s %12s\n' "$points" "$(per_line "$standing" "$added" "$count")" \
    "$(per_line "$added" "$erased" "$count")"
done
