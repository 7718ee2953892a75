#!/usr/bin/env bash
# The Python client over the built program: the package is installed into an empty folder, and from there its
# tests run, its example, and what docs/CLIENTS.md shows of it. Types are checked where mypy is. Where the
# environment variable TMM names another program, that one is run.
set -u
cd "$(dirname "$0")/.." || exit 1
export PYTHONDONTWRITEBYTECODE=1
# what is installed knows no checkout
export TMM=${TMM:-$PWD/tmm}
failed=0

if ! python3 -c 'import sys; sys.exit(sys.version_info < (3, 11))'; then
  echo "checks: the Python client takes python3, 3.11 or later" >&2
  exit 1
fi

# compare FILE NAME: what is on standard input with what is written down
compare() {
  if ! diff - "$1" >&2; then
    echo "checks: $2: another output than is written down" >&2
    failed=1
  fi
}

# passes NAME COMMAND..: a command that says nothing of interest where it succeeds
passes() {
  local name=$1 told
  shift
  if ! told=$("$@" 2>&1); then
    echo "$told" >&2
    echo "checks: $name" >&2
    failed=1
  fi
}

# A wheel is an archive, so without pip it is only unpacked.
install_package() {
  if python3 -m pip --version >/dev/null 2>&1; then
    PIP_NO_INDEX=1 PIP_DISABLE_PIP_VERSION_CHECK=1 python3 -m pip install --quiet --target "$1" ./clients/python
  else
    echo "checks: no pip is here, so the wheel is unpacked without it" >&2
    PYTHONPATH=clients/python/backend python3 - "$1" <<'PYTHON'
import sys, tempfile, zipfile, tmm_wheel
with tempfile.TemporaryDirectory() as made:
    zipfile.ZipFile(f"{made}/{tmm_wheel.build_wheel(made)}").extractall(sys.argv[1])
PYTHON
  fi
}

work=$(mktemp -d) || exit 1
trap 'rm -rf "$work"' EXIT
installed=$work/installed
passes "the package could not be installed" install_package "$installed"
if [ ! -e "$installed/tmm/py.typed" ]; then
  echo "checks: the installed package is not there, or says of no types" >&2
  exit 1
fi

export PYTHONPATH=$installed
if ! from=$(cd "$work" && python3 -c 'import tmm; print(tmm.__file__)') || [ "$from" != "$installed/tmm/__init__.py" ]; then
  echo "checks: the tests would run over another package than the installed one: $from" >&2
  exit 1
fi
passes "tests of the Python client failed" python3 -m unittest discover -s clients/python/tests

compare clients/python/examples/workshop.out "clients/python/examples/workshop.py" \
  < <(python3 clients/python/examples/workshop.py)

shown=$work/shown
mkdir "$shown"
awk -v dir="$shown" '
  $0 == "```python" { file = dir "/line-" NR ".py"; next }
  $0 == "```output" { sub(/py$/, "out", last); file = last; next }
  $0 == "```" { last = file; file = ""; next }
  file { print > file }' docs/CLIENTS.md
for program in "$shown"/*.py; do
  compare "${program%.py}.out" "docs/CLIENTS.md, $(basename "$program" .py)" < <(python3 "$program")
done

# the picture, after the line that jams the press
passes "the picture could not be drawn" \
  python3 -m tmm picture - -o "$shown/workshop.svg" < <(head -n 64 examples/workshop.tmm)
compare docs/workshop.svg "docs/workshop.svg" < "$shown/workshop.svg"

if command -v mypy >/dev/null; then
  passes "mypy finds a type that does not fit" \
    env -u PYTHONPATH MYPYPATH=clients/python:clients/python/tests mypy --strict --cache-dir "$work/mypy" \
    clients/python/tmm clients/python/tests clients/python/tmm_picture.py clients/python/backend/tmm_wheel.py
else
  echo "checks: no mypy is here, so the types of the Python client are not checked" >&2
fi

exit "$failed"
