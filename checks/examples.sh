#!/usr/bin/env bash
# The scripts that the documents show, through the built program: those of examples/ have their replies
# beside them, those of the pages behind them. One that takes a word of the command line has that in the file
# NAME.words, or on a page behind `script`. Where the environment variable TMM names another program, that one
# is run.
set -u
cd "$(dirname "$0")/.." || exit 1
program=${TMM:-./tmm}
[ -n "${TMM:-}" ] || ./prove >/dev/null || exit 1
failed=0

# compare SCRIPT REPLIES NAME
compare() {
  local words=()
  [ ! -e "${1%.tmm}.words" ] || read -ra words < "${1%.tmm}.words"
  if ! diff <("$program" "${words[@]}" < "$1") "$2" >&2; then
    echo "checks: $3: other replies than are written down" >&2
    failed=1
  fi
}

while read -r script; do
  compare "$script" "${script%.tmm}.out" "$script"
done < <(find examples -name '*.tmm' | sort)

shown=$(mktemp -d) || exit 1
for page in README.md docs/SCRIPT.md docs/TUTORIAL.md; do
  awk -v dir="$shown" '
    # of a session, what was typed stands behind a prompt
    $0 == "```session" { typed = dir "/line-" NR ".tmm"; told = dir "/line-" NR ".out"; next }
    typed && sub(/^tmm> /, "") { print > typed; next }
    typed && $0 != "```" { print > told; next }
    $1 == "```script" {
      file = dir "/line-" NR ".tmm"
      if (sub(/^```script +/, "")) print > (dir "/line-" NR ".words")
      next
    }
    $0 == "```replies" { sub(/tmm$/, "out", last); file = last; next }
    $0 == "```" { last = file; file = typed = ""; next }
    file { print > file }' "$page"
  if ! ls "$shown"/*.tmm >/dev/null; then
    echo "checks: $page: no script is shown" >&2
    failed=1
    continue
  fi
  for script in "$shown"/*.tmm; do
    compare "$script" "${script%.tmm}.out" "$page, $(basename "$script" .tmm)"
  done
  rm "$shown"/*
done
rmdir "$shown"

demo=$(sed -n 's/^    \(demo 120 lines .*\)$/\1/p' docs/SCRIPT.md)
if [ -z "$demo" ] || [ "$("$program" demo 120)" != "$demo" ]; then
  echo "checks: docs/SCRIPT.md: demo 120 writes another line than is shown" >&2
  failed=1
fi

exit "$failed"
