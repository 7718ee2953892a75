#!/usr/bin/env bash
# What no test of a function can show: the endings of the built program over real streams, and the
# most bytes that are taken.
set -u
cd "$(dirname "$0")/.." || exit 1
./prove >/dev/null || exit 1
failed=0

# expect STATUS WHAT: compares the status of the last command with the one that is due.
expect() {
  if [ "$status" != "$1" ]; then
    echo "checks: $2: status $status instead of $1" >&2
    failed=1
  fi
}

[ "$(./tmm < examples/first.tmm)" == "$(cat examples/first.out)" ]
status=$?
expect 0 "the replies to the first script"

./tmm < /dev/null
status=$?
expect 0 "an empty script"

./tmm word > /dev/null < /dev/null
status=$?
expect 2 "a word on the command line"

./tmm <&-
status=$?
expect 3 "a closed input"

./tmm < docs
status=$?
expect 3 "a folder as input"

kept=$(mktemp) || exit 1
{ cat examples/first.tmm; yes 'point a'; } | head -n 100000 | { ./tmm; echo $? > "$kept"; } | head -n 1 > /dev/null
status=$(cat "$kept")
expect 4 "a pipe that is closed"

coproc map { ./tmm; }
running=$map_PID
echo 'point a' >&"${map[1]}"
reply=
IFS= read -r -t 60 reply <&"${map[0]}"
[ "$reply" == '1 ok' ]
status=$?
expect 0 "a reply before the next line is given"
kill "$running" 2> /dev/null
wait "$running" 2> /dev/null

comment=$(printf '# %0300d' 0)
yes "$comment" | head -c $((1 << 30)) | ./tmm
status=$?
expect 0 "2^30 bytes"

yes "$comment" | head -c $(((1 << 30) + 1)) | ./tmm
status=$?
expect 6 "2^30 bytes and one more"

rm -f "$kept"

checks/streams.py || failed=1

exit $failed
