#!/usr/bin/env python3
"""What the line `repairs` tells is what mends a protection: each change is made by hand in a second run.

    checks/repairs.py [--seeds 1-20] [--jobs N] [--seconds S] [--tmm PROGRAM] [--print SEED]

Random scripts, whose protections are broken by little, are run with the word `repairs`, and ask for the repairs of
each protection. In a second run, with the word `suppose`, every change that might be a repair is made as a
supposition, and `check` and `dump` tell whether it is one: the line has to tell exactly those that are, in their
order. The example examples/mending.tmm is looked at in the same way. `--print` writes the script of a seed.
"""

import argparse
import os
import random
import subprocess
import sys
from concurrent.futures import ThreadPoolExecutor
from dataclasses import dataclass
from itertools import count
from pathlib import Path
from typing import Dict, List, Tuple

ROOT = Path(__file__).resolve().parents[1]
EXAMPLE = ROOT / "examples" / "mending.tmm"

# the details of the line behind which they stand
Details = List[str]


def script_of(seed: int) -> List[str]:
    """The edits of a small map with many protections. Odd seeds are scripts of version 2."""
    rng = random.Random(seed)
    two = seed % 2 == 1
    lines = ["tmm 2"] if two else []
    lines += ["class c f g", "class d h i", "kind k", "kind l", "rule r k 1 2 g if h", "rule s k 2 3 l", "rule t l 1 1 f"]
    if two:
        lines += ["rule u k 1 4 i if h unless g", "against n f i"]
    if rng.random() < 0.3:
        lines.append(f"horizon {rng.choice([3, 9, 20])}")
    points = ["start"]
    sorts = ["point {}", "token {} f", "token {} f", "token {} g", "token {} h", "span {} f", "span {} i", "event {} k"]
    for number in range(rng.randint(5, rng.choice([10, 30]))):
        name = f"p{number}"
        sort = rng.choice(sorts)
        lines.append(sort.format(name))
        points += [name, f"{name}.end"] if sort.startswith("span") else [name]
        for again in range(rng.choice([1, 1, 2])):
            first, second = rng.choice(points), rng.choice([name, rng.choice(points)])
            lower = rng.randint(-2, 5)
            low, high = rng.choice([(lower, lower + rng.randint(0, 7))] * 4 + [(lower, "*"), ("*", lower + 6)])
            lines.append(f"dist d{number}-{again} {first} {second} {low} {high}")
    for number in range(rng.randint(6, 16)):
        first, second = rng.choice(points), rng.choice(points)
        lines.append(f"protect x{number} {rng.choice('ffghi')} {first} {rng.choice([first, first, second])}")
    if rng.random() < 0.3:
        lines += ["point repair-0", "class e repair-1 repair-3"]
    return lines


@dataclass
class Reply:
    """The verdict of a line, and its details."""

    verdict: str
    details: Details


def replies(program: List[str], lines: List[str], seconds: float) -> List[Reply]:
    done = subprocess.run(program, input="".join(f"{line}\n" for line in lines), capture_output=True, text=True, timeout=seconds)
    # 1 is the status of a script of which a line was refused
    if done.returncode > 1:
        raise ValueError(f"status {done.returncode}")
    found: List[Reply] = []
    for line in done.stdout.splitlines():
        if line.startswith(" "):
            found[-1].details.append(line)
        else:
            found.append(Reply(line.split(" ", 1)[1], []))
    if len(found) != len(lines):
        raise ValueError(f"{len(lines)} lines have {len(found)} replies")
    return found


def blames_of(check: Reply) -> Dict[str, List[List[str]]]:
    """The blames of each broken protection; one that says `unordered` where its points are in no order."""
    broken: Dict[str, List[List[str]]] = {}
    for detail in check.details:
        words = detail.split()
        if detail.startswith("    "):
            broken[last].append(words)
        else:
            last = words[1]
            broken[last] = [words[2:]] if words[2:] else []
    return broken


def candidates_of(name: str, premises: List[List[str]], blames: List[List[str]]) -> List[Tuple[str, List[str]]]:
    """What might mend the protection: each change as the line tells it, and its edits."""
    names = {premise[1] for premise in premises} | {fact for premise in premises if premise[0] == "class" for fact in premise[2:]}
    free = next(made for made in map("repair-{}".format, count()) if made not in names)
    first, last = next(premise[3:] for premise in premises if premise[:2] == ["protect", name])
    added = []
    for token, *cause in blames:
        if [token] + cause == ["unordered"]:
            added.append(f"{first} {last} 0 *")
        elif cause == ["late"] and "/" not in token:
            added.append(f"{token} {first} 0 *")
        elif cause == ["ends"] and "/" not in token:
            added.append(f"{last} {token}.end 1 *")
    found = [(f"add {constraint}", [f"dist {free} {constraint}"]) for constraint in added]
    for word, premise, *rest in premises:
        found.append((f"erase {premise}", [f"erase {premise}"]))
        if word == "dist" and "*" not in rest:
            begin, end, lower, upper = rest
            found.append((f"loosen {premise} lo", [f"erase {premise}", f"dist {premise} {begin} {end} * {upper}"]))
            found.append((f"loosen {premise} hi", [f"erase {premise}", f"dist {premise} {begin} {end} {lower} *"]))
    return found


def repairs_by_hand(program: str, lines: List[str], names: List[str], seconds: float) -> Dict[str, List[str]]:
    """The changes that mend each of these protections and break no other, each made as a supposition."""
    *_, dump, check = replies([program, "suppose"], [*lines, "dump", "check"], seconds)
    premises = [line.split() for line in dump.details if line.split()[0] not in ("tmm", "horizon")]
    protections = {premise[1] for premise in premises if premise[0] == "protect"}
    broken = blames_of(check)
    trials = [(name, change, edits) for name in names if name in broken for change, edits in candidates_of(name, premises, broken[name])]
    asked = [line for _, _, edits in trials for line in ("suppose", *edits, "dump", "check", "drop")]
    told = iter(replies([program, "suppose"], [*lines, *asked], seconds)[len(lines) :])
    found: Dict[str, List[str]] = {name: [] for name in names}
    for name, change, edits in trials:
        begun, *made, dump, check, dropped = [next(told) for _ in range(len(edits) + 4)]
        if begun.verdict != "ok" or dropped.verdict != "ok":
            raise ValueError("a supposition is not begun, or not given up")
        stand = {line.split()[1] for line in dump.details if line.split()[0] == "protect"}
        after = set(blames_of(check))
        if all(edit.verdict == "ok" for edit in made) and stand == protections and name not in after and after <= set(broken):
            found[name].append(change)
    return found


def differs(program: str, lines: List[str], seconds: float) -> str:
    """Where the line tells other repairs than are found by hand; nothing where it does not."""
    try:
        names = [line.split()[1] for line in lines if line.startswith("protect ")]
        told = replies([program, "repairs"], [*lines, *(f"repairs {name}" for name in names), "audit"], seconds)[len(lines) :]
        # a protection whose own line was refused is unknown
        stand = [(name, reply) for name, reply in zip(names, told) if reply.verdict.startswith("repairs ")]
        by_hand = repairs_by_hand(program, lines, [name for name, _ in stand], seconds)
        for name, reply in stand:
            listed = [detail.strip() for detail in reply.details]
            if reply.verdict != f"repairs {len(listed)}" or listed != by_hand[name]:
                return f"{name}: {reply.verdict}, {listed}, but by hand {by_hand[name]}"
    except (ValueError, subprocess.SubprocessError) as error:
        return str(error)[:300]
    return ""


def before_questions(script: Path) -> List[str]:
    """The lines of a script up to the first that asks for repairs, without comments."""
    lines = [line for line in script.read_text(encoding="utf-8").splitlines() if line.strip() and not line.startswith("#")]
    first = next(place for place, line in enumerate(lines) if line.startswith("repairs "))
    return lines[:first]


def seeds_of(text: str) -> Tuple[int, int]:
    first, _, last = text.partition("-")
    return int(first), int(last or first)


def main() -> int:
    parser = argparse.ArgumentParser(description=__doc__, formatter_class=argparse.RawDescriptionHelpFormatter)
    parser.add_argument("--seeds", type=seeds_of, default=(1, 20))
    parser.add_argument("--jobs", type=int, default=os.cpu_count())
    parser.add_argument("--seconds", type=float, default=60)
    parser.add_argument("--tmm", default=str(ROOT / "tmm"))
    parser.add_argument("--print", type=int, metavar="SEED")
    words = parser.parse_args()
    if words.print is not None:
        lines = script_of(words.print)
        names = [line.split()[1] for line in lines if line.startswith("protect ")]
        print("\n".join([*lines, *(f"repairs {name}" for name in names), "audit"]))
        return 0
    first, last = words.seeds
    scripts = [(f"script {seed}", script_of(seed)) for seed in range(first, last + 1)]
    scripts.append((EXAMPLE.name, before_questions(EXAMPLE)))
    bad = 0
    with ThreadPoolExecutor(words.jobs) as pool:
        for (script, _), why in zip(scripts, pool.map(lambda named: differs(words.tmm, named[1], words.seconds), scripts)):
            if why:
                bad += 1
                print(f"{script}: {why}")
    print(f"repairs: {len(scripts)} scripts, of which {bad} tell other repairs than are found by hand")
    return 1 if bad else 0


if __name__ == "__main__":
    sys.exit(main())
