#!/usr/bin/env python3
"""Where nothing is left open, what a timeline plays is what is believed.

    checks/timelines.py [--seeds 1-20] [--jobs N] [--seconds S] [--tmm PROGRAM] [--print SEED]

Random scripts in which every point has a fixed date and every rule one delay are run with the word `timeline`, and ask
for `list` and `timeline` after every few edits: each row of the one has to be a row of the other, in the same order.
What comes after a line that is refused, as where the map grows too large, is not looked at: the date that it would have
fixed is open. `--print` writes the script of a seed.
"""

import argparse
import os
import random
import subprocess
import sys
from concurrent.futures import ThreadPoolExecutor
from pathlib import Path
from typing import List, Tuple

ROOT = Path(__file__).resolve().parents[1]


def script_of(seed: int) -> List[str]:
    """Edits, and the two questions after every few of them. Odd seeds are scripts of version 2."""
    rng = random.Random(seed)
    two = seed % 2 == 1
    lines = ["tmm 2", f"horizon {rng.choice([9, 30, 100])}"] if two else []
    lines += ["class c f g", "class d h i", "kind k", "kind l"]
    facts, kinds = "fghi", "kl"
    if two:
        lines.append("against n f i")
    for number in range(rng.randint(2, 7)):
        delay = rng.randint(1, 4)
        given = f" if {rng.choice(facts)}" if rng.random() < 0.6 else ""
        barred = f" unless {rng.choice(facts)}" if two and rng.random() < 0.3 else ""
        lines.append(f"rule r{number} {rng.choice(kinds)} {delay} {delay} {rng.choice(facts + kinds)}{given}{barred}")
    for number in range(rng.randint(5, 25)):
        date = rng.randint(0, 20)
        if rng.random() < 0.4:
            lines.append(f"event e{number} {rng.choice(kinds)}")
        elif two and rng.random() < 0.3:
            lines += [f"span e{number} {rng.choice(facts)}", f"dist l{number} e{number} e{number}.end {date + 1} {date + 1}"]
        else:
            lines.append(f"token e{number} {rng.choice(facts)}")
        lines.append(f"dist d{number} start e{number} {date} {date}")
        if number and rng.random() < 0.15:
            lines.append(f"erase e{rng.randrange(number)}")
        if rng.random() < 0.5:
            lines += ["list", "timeline"]
    return [*lines, "list", "timeline"]


def rows_of(reply: List[str]) -> List[Tuple[str, ...]]:
    """The rows of a reply: date, occurrence, and kind or fact."""
    return [tuple(line.split()[:3]) for line in reply if not line.startswith("  at ")]


def differs(program: str, lines: List[str], seconds: float) -> str:
    """What is wrong with the replies to a script; empty where nothing is."""
    ran = subprocess.run([program, "timeline"], input="\n".join(lines) + "\n", text=True, capture_output=True, timeout=seconds)
    if ran.returncode not in (0, 1):
        return f"status {ran.returncode}"
    replies: List[List[str]] = []
    for line in ran.stdout.splitlines():
        if line.startswith(" "):
            replies[-1].append(line)
        else:
            replies.append([line])
    if len(replies) != len(lines):
        return f"{len(replies)} replies to {len(lines)} lines"
    for at, line in enumerate(lines):
        if replies[at][0].split()[1] == "no":
            break
        if line == "timeline":
            believed, played = (rows_of(reply[1:]) for reply in replies[at - 1 : at + 1])
            if believed != played:
                return f"line {at + 1}: {len(played)} rows are played, and {len(believed)} are believed, or they differ"
    return ""


def seeds_of(text: str) -> Tuple[int, int]:
    first, _, last = text.partition("-")
    return int(first), int(last or first)


def main() -> int:
    parser = argparse.ArgumentParser(description=__doc__, formatter_class=argparse.RawDescriptionHelpFormatter)
    parser.add_argument("--seeds", type=seeds_of, default=(1, 20))
    parser.add_argument("--jobs", type=int, default=os.cpu_count())
    parser.add_argument("--seconds", type=float, default=60)
    parser.add_argument("--tmm", default=str(ROOT / "tmm"))
    parser.add_argument("--print", type=int, metavar="SEED")
    words = parser.parse_args()
    if words.print is not None:
        print("\n".join(script_of(words.print)))
        return 0
    first, last = words.seeds
    seeds = range(first, last + 1)
    bad = 0
    with ThreadPoolExecutor(words.jobs) as pool:
        for seed, why in zip(seeds, pool.map(lambda seed: differs(words.tmm, script_of(seed), words.seconds), seeds)):
            if why:
                bad += 1
                print(f"script {seed}: {why}")
    print(f"timelines: {len(seeds)} scripts, of which {bad} play something else than what is believed")
    return 1 if bad else 0


if __name__ == "__main__":
    sys.exit(main())
