#!/usr/bin/env python3
"""How the built program writes and what it makes of streams that do not wait: replies are one write each, and
an input or an output that is not there at once is a fault. `checks/endings.sh` runs this.
"""

import os
import subprocess
import sys
from pathlib import Path
from typing import List

os.chdir(Path(__file__).resolve().parents[1])
PROGRAM = "./tmm"


def replies_in(text: bytes) -> List[bytes]:
    """The replies of a text, each with its details."""
    replies: List[bytes] = []
    for line in text.splitlines(keepends=True):
        if line.startswith(b" "):
            replies[-1] += line
        else:
            replies.append(line)
    return replies


def writes_over(script: Path) -> List[bytes]:
    """What each write of the program brings when it has the whole script at once."""
    # in this mode each write is read by itself
    reading, writing = os.pipe2(os.O_DIRECT)
    with script.open("rb") as lines:
        program = subprocess.Popen([PROGRAM], stdin=lines, stdout=writing)
    os.close(writing)
    written = list(iter(lambda: os.read(reading, 1 << 16), b""))
    os.close(reading)
    program.wait()
    return written


def input_that_is_empty() -> str:
    """A line, and then nothing, on an input that does not wait for more."""
    reading, writing = os.pipe()
    os.set_blocking(reading, False)
    os.write(writing, b"point a\n")
    done = subprocess.run([PROGRAM], stdin=reading, stdout=subprocess.PIPE)
    os.close(reading)
    os.close(writing)
    return f"status {done.returncode} after {done.stdout!r}"


def output_that_is_full() -> str:
    """More replies than the pipe takes, on an output that does not wait for room."""
    reading, writing = os.pipe()
    os.set_blocking(writing, False)
    done = subprocess.run([PROGRAM], input=b"size\n" * 100_000, stdout=writing)
    os.close(reading)
    os.close(writing)
    return f"status {done.returncode}"


def main() -> int:
    wrong = []
    for script in (Path("examples/door.tmm"), Path("examples/network.tmm")):
        if writes_over(script) != replies_in(script.with_suffix(".out").read_bytes()):
            wrong.append(f"{script}: a reply is not one write")
    told = input_that_is_empty()
    if told != "status 3 after b'1 ok\\n'":
        wrong.append(f"an input that does not wait: {told}")
    told = output_that_is_full()
    if told != "status 4":
        wrong.append(f"an output that does not wait: {told}")
    for line in wrong:
        print(f"checks: {line}", file=sys.stderr)
    return 1 if wrong else 0


if __name__ == "__main__":
    sys.exit(main())
