#!/usr/bin/env python3
"""The example examples/sweep.py over some of its plans: its best is the one of a calculation without a map,
by processes and, where dask.distributed is there, by a local cluster too. Where the environment variable TMM
names another program, that one is run.
"""

import importlib.util
import itertools
import subprocess
import sys
from pathlib import Path
from typing import Dict

ROOT = Path(__file__).resolve().parents[1]
SWEEP = ROOT / "examples" / "sweep.py"
PLANS = 28

# As the example says: the least drying, a cut of at most 30 minutes and a gluing of at most 50, each with a minute more.
DRYING = {"bowl": 35, "lamp": 45, "desk": 60, "tray": 20}


def due_lines() -> str:
    """What is to be printed of the first plans. With a gap of 46 the press is not surely free, so no plan holds."""
    held = []
    orders = itertools.product(itertools.permutations(DRYING), itertools.permutations(DRYING))
    for cuts, gluings in itertools.islice(orders, PLANS // 2):
        begun: Dict[str, int] = {piece: 31 * place for place, piece in enumerate(cuts)}
        free = 0
        for piece in gluings:
            free = max(free, begun[piece] + DRYING[piece]) + 51
        held.append((free, cuts, gluings))
    minutes, cuts, gluings = min(held, key=lambda row: row[0])
    return (
        f"{PLANS} plans, of which {len(held)} hold\n"
        f"the best may be done {minutes} minutes after opening, with gluings 51 apart:\n"
        f"  cut {', '.join(cuts)}\n  glue {', '.join(gluings)}\n"
    )


def main() -> int:
    ways = [["--workers", "2"]]
    if importlib.util.find_spec("distributed"):
        ways.append(["--workers", "2", "--cluster", "local"])
    else:
        print("checks: dask.distributed is not there, so no cluster is tried", file=sys.stderr)
    failed = 0
    for words in ways:
        command = [sys.executable, str(SWEEP), "--plans", str(PLANS), *words]
        ran = subprocess.run(command, capture_output=True, text=True, timeout=300)
        if ran.returncode or ran.stdout != due_lines():
            print(f"checks: sweep.py {' '.join(words)}: not what is due\n{ran.stdout}{ran.stderr}", file=sys.stderr)
            failed = 1
    return failed


if __name__ == "__main__":
    sys.exit(main())
