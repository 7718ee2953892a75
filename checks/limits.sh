#!/usr/bin/env bash
# The program at its limits: scripts that are too long to be written down in a test.
set -u
cd "$(dirname "$0")/.." || exit 1
failed=0

# last WANTED WHAT WORD..: runs the script on standard input, with these words, and compares the last numbered
# reply. It stands in no pipeline, where what it finds would be lost.
last() {
  local have
  have=$(./tmm "${@:3}" | grep -v '^ ' | tail -n 1)
  if [ "$have" != "$1" ]; then
    echo "checks: $2: '$have' instead of '$1'" >&2
    failed=1
  fi
}

points() { for ((i = 1; i <= $1; i++)); do echo "point p$i"; done; }
dists() { for ((i = 1; i <= $1; i++)); do echo "dist d$i p1 p1 0 *"; done; }
chain() { for ((i = 1; i < $1; i++)); do echo "dist d$i p$i p$((i + 1)) $2 $3"; done; }

effects() { printf 'kind t\nevent e t\ndist z start e 0 0\nhorizon 444\nrule r t 1 1 t\n'; }

# broad N: 390 rules on a kind, of which N events occur, so 390 decisions an event, none of which fires
broad() {
  echo "kind k"
  echo "class c f g"
  for ((i = 1; i <= 390; i++)); do echo "rule r$i k 1 1 f if g"; done
  for ((i = 1; i <= $1; i++)); do echo "event e$i k"; done
}

last "255 ok" "256 points with start" < <(points 255)
last "256 no limit points" "the 257th point" < <(points 256)
last "2000 ok" "2,000 premises" < <(points 1; dists 1999)
last "2001 no limit premises" "the 2,001st premise" < <(points 1; dists 2000)
last "510 bounds 254000000000 254000000000" "a chain of the greatest bounds" \
  < <(points 255; chain 255 1000000000 1000000000; echo "bounds p1 p255")
last "4 no cycle -1000000000" "a point before start" \
  < <(points 2; echo "dist s start p1 0 0"; chain 2 -1000000000 -1000000000)
last "510 no cycle -1" "a chain that is one too short" \
  < <(points 255; chain 255 3 7; echo "dist x p1 p255 0 761")
last "258 no limit points" "a span's two points" \
  < <(echo "class c f g"; points 254; echo "span s f"; echo "point q"; echo "point z")
last "2003 ok" "a premise in the place of one that was erased" \
  < <(for ((i = 1; i <= 2000; i++)); do echo "kind k$i"; done; echo "kind x"; echo "erase k7"; echo "kind x")
last "6 size 99680" "a chain of 444 effects" < <(effects; echo "size")
last "6 no limit size" "one effect more than a map may have" < <(effects; echo "horizon 445")
last "7 size 99680" "the map that a refused edit leaves" < <(effects; echo "horizon 445"; echo "size")
last "4 no limit size" "a chain of 1,000 effects, brought about by one edit" \
  < <(printf 'kind t\nevent e t\ndist z start e 0 0\nrule r t 1 1 t\n')
last "6 audit yes" "the audit of a chain of 444 effects" < <(effects; echo "audit")
last "643 size 97750" "97,500 decisions, each with its row" < <(broad 250; echo "size")
last "493 ok" "one edit that makes 39,000 decisions again" < <(broad 100; echo "token t g")
last "643 ok" "one edit that makes 97,500 decisions again" < <(broad 250; echo "token t g")
last "" "a line of 400 bytes" < <(printf '# %0398d' 0)
last "1 no limit line" "a line of 401 bytes" < <(printf '# %0399d' 0)

holds() { for ((i = 1; i <= $1; i++)); do echo "@p horizon 5"; done; }
agents() { for ((i = 0; i < $1; i++)); do echo "@a$i horizon 5"; done; }

last "100 held 100" "100 edits of an agent" agents < <(holds 100)
last "101 no limit batch" "the 101st edit of an agent" agents < <(holds 101)
last "102 ok 100" "a batch of 100 edits" agents < <(holds 101; echo "@p commit")
last "64 held 1" "the edits of 64 agents" agents < <(agents 64)
last "65 no limit agents" "an edit of the 65th agent" agents < <(agents 65)
last "69 ok 0" "an agent in the place of another" agents \
  < <(agents 65; echo "@a0 discard"; echo "@a64 horizon 5"; echo "@a64 commit"; echo "@a64 commit")

exit $failed
