#!/usr/bin/env python3
"""Random histories of edits: what is kept current says the same as a map that is made anew.

    checks/histories.py [--version V] [--seeds 1-20] [--jobs N] [--seconds S] [--tmm PROGRAM] [--print SEED]

A history adds and erases premises and moves the horizon, some hundred times. Those of version 2 have rules with
exceptions, and premises that say which facts contradict each other. Now and then it asks for
`dump`, `list`, `check`, `size`, `audit` and some bounds. What `dump` tells is then run as a script of its own,
with the same questions behind it, and has to be answered alike. Each run has S seconds (20 without a word).
`--print` writes the history of a seed, to be run through another program.
"""

import argparse
import os
import random
import subprocess
import sys
from concurrent.futures import ThreadPoolExecutor
from pathlib import Path
from typing import Dict, List, Tuple

ROOT = Path(__file__).resolve().parents[1]
QUESTIONS = ["list", "check", "size", "audit"]


class History:
    """The lines of a history. Each point has a date that it is meant to have, so that most constraints fit."""

    def __init__(self, seed: int, version: int) -> None:
        self.rng = rng = random.Random(seed)
        self.version = version
        self.lines: List[str] = []
        self.dates: Dict[str, int] = {"start": 0}
        self.names: Dict[str, str] = {}  # what stands or stood, and its sort
        self.count = 0
        self.facts: List[List[str]] = []
        self.kinds: List[str] = []
        self.span = rng.choice([4, 30, 300])
        self.slack = rng.choice([0, 1, 5])
        # how likely each sort of edit is
        self.weights = rng.choice(
            [
                # points and constraints, up to 256 points
                {"point": 30, "dist": 45, "token": 3, "event": 3, "span": 3, "rule": 1, "protect": 2, "erase": 12, "horizon": 1},
                # hundreds of tokens of few classes, protected
                {"point": 2, "dist": 25, "token": 34, "event": 5, "span": 8, "rule": 2, "protect": 12, "erase": 11, "horizon": 1},
                # events on which many rules are, which lead to events again
                {"point": 1, "dist": 22, "token": 8, "event": 18, "span": 3, "rule": 24, "protect": 5, "erase": 14, "horizon": 5},
                # a little of all, with many erasures
                {"point": 8, "dist": 25, "token": 12, "event": 12, "span": 6, "rule": 9, "protect": 8, "erase": 25, "horizon": 4},
            ]
        )
        if version == 2:
            self.weights.update(against=rng.choice([2, 6, 15]), rule=rng.choice([5, 10]), event=rng.choice([8, 15]))
            self.say("tmm 2")
        counts, sizes = ([1, 2, 5], [1, 2, 2, 3, 8]) if version == 1 else ([2, 3, 5], [1, 2, 2, 3])
        for _ in range(rng.choice(counts)):
            facts = [self.name("fact") for _ in range(rng.choice(sizes))]
            self.facts.append(facts)
            self.say(f"class {self.name('class')} {' '.join(facts)}")
        # in version 2 the facts of most lines, of several classes, so that many of them contradict each other
        self.common = [rng.choice(facts) for facts in self.facts[:3]] if version == 2 else []
        for _ in range(rng.choice([1, 2, 6])):
            kind = self.name("kind")
            self.kinds.append(kind)
            self.say(f"kind {kind}")
        if rng.random() < 0.7:
            self.say(f"horizon {rng.choice([20, 60, 200])}")
        for _ in range(rng.choice([100, 300, 600])):
            self.edit()
            if rng.random() < 0.015:
                self.ask()
        self.ask()

    def say(self, line: str) -> None:
        self.lines.append(line)

    def name(self, sort: str) -> str:
        self.count += 1
        name = f"{self.rng.choice('abpz')}{self.count}"
        self.names[name] = sort
        return name

    def any_of(self, *sorts: str) -> str:
        names = [name for name, sort in self.names.items() if sort in sorts]
        return self.rng.choice(names) if names else "nil"

    def point(self) -> str:
        return self.rng.choice(list(self.dates)) if self.rng.random() < 0.95 else "start"

    def fact(self) -> str:
        if self.common and self.rng.random() < 0.6:
            return self.rng.choice(self.common)
        return self.rng.choice(self.rng.choice(self.facts))

    def declare(self, sort: str, what: str) -> None:
        name = self.name(sort)
        self.dates[name] = date = self.rng.randint(0, self.span)
        self.say(f"{sort} {name} {what}".rstrip())
        if sort == "span":
            self.dates[f"{name}.end"] = date + self.rng.randint(1, self.span)
        if self.rng.random() < 0.8:
            self.constrain("start", name)

    def constrain(self, first: str, second: str) -> None:
        apart = self.dates[second] - self.dates[first]
        if self.rng.random() < 0.03:
            apart += self.rng.randint(-self.span, self.span)
        least: object = apart - self.rng.randint(0, self.slack)
        most: object = apart + self.rng.randint(0, self.slack)
        if self.rng.random() < 0.15:
            if self.rng.random() < 0.5:
                least = "*"
            else:
                most = "*"
        self.say(f"dist {self.name('dist')} {first} {second} {least} {most}")

    def edit(self) -> None:
        rng = self.rng
        sort = rng.choices(list(self.weights), list(self.weights.values()))[0]
        if sort == "point":
            self.declare("point", "")
        elif sort in ("token", "span"):
            self.declare(sort, self.fact())
        elif sort == "event":
            self.declare("event", rng.choice(self.kinds))
        elif sort == "dist":
            self.constrain(self.point(), self.point())
        elif sort == "rule":
            least = rng.randint(1, 9)
            most = rng.choice([str(least), str(least + 3), "*"])
            effect = rng.choice(self.kinds) if rng.random() < (0.3 if self.version == 1 else 0.03) else self.fact()
            facts = [self.fact() for _ in range(rng.choice([0, 1, 1, 2, 4]))]
            condition = f" if {' '.join(facts)}" if facts else ""
            if self.version == 2 and rng.random() < 0.4:
                condition += f" unless {' '.join(self.fact() for _ in range(rng.choice([1, 1, 2])))}"
            self.say(f"rule {self.name('rule')} {rng.choice(self.kinds)} {least} {most} {effect}{condition}")
        elif sort == "against":
            one, other = self.fact(), self.fact()
            if one != other or rng.random() < 0.05:
                self.say(f"against {self.name('against')} {one} {other}")
        elif sort == "protect":
            self.say(f"protect {self.name('protect')} {self.fact()} {self.point()} {self.point()}")
        elif sort == "horizon":
            self.say(f"horizon {rng.choice([0, 5, 20, 60, 200])}")
        else:
            gone = self.any_of("dist", "rule", "protect", "token", "event", "span", "point", "against")
            if self.version == 2 and rng.random() < 0.2:
                gone = self.any_of("against")
            if rng.random() < 0.02:
                gone = self.any_of("kind", "class")
            self.say(f"erase {gone}")

    def ask(self) -> None:
        self.say("dump")
        for question in QUESTIONS:
            self.say(question)
        for _ in range(5):
            self.say(f"bounds {self.point()} {self.point()}")


def replies(program: str, lines: List[str], seconds: float) -> List[List[str]]:
    """The reply of each line, without its number; its details are the lines behind the first."""
    done = subprocess.run(
        [program], input="".join(f"{line}\n" for line in lines), capture_output=True, text=True, timeout=seconds
    )
    # 1 is the status of a script of which a line was refused
    if done.returncode > 1:
        raise ValueError(f"status {done.returncode}")
    found: List[List[str]] = []
    for line in done.stdout.splitlines():
        if line.startswith(" "):
            found[-1].append(line)
        else:
            found.append([line.split(" ", 1)[1]])
    if len(found) != len(lines):
        raise ValueError(f"{len(lines)} lines have {len(found)} replies")
    return found


def differs(program: str, version: int, seed: int, seconds: float) -> str:
    """Where the history of a seed is answered unlike the map made anew; nothing where it is not."""
    lines = History(seed, version).lines
    try:
        told = replies(program, lines, seconds)
        for at in (i for i, line in enumerate(lines) if line == "dump"):
            anew = [line.strip() for line in told[at][1:]]
            asked = len(QUESTIONS) + 5
            again = replies(program, anew + lines[at + 1 : at + 1 + asked], seconds)
            refused = [f"{line}: {reply[0]}" for line, reply in zip(anew, again) if reply[0] != "ok"]
            if refused:
                return f"line {at + 1}: the dump is refused: {refused[0]}"
            for question, before, after in zip(lines[at + 1 :], told[at + 1 :], again[len(anew) :]):
                if before != after:
                    return f"line {at + 1}: {question}: {before[:4]}, but made anew {after[:4]}"
    except (ValueError, subprocess.SubprocessError) as error:
        return str(error)[:300]
    return ""


def seeds_of(text: str) -> Tuple[int, int]:
    first, _, last = text.partition("-")
    return int(first), int(last or first)


def main() -> int:
    parser = argparse.ArgumentParser(description=__doc__, formatter_class=argparse.RawDescriptionHelpFormatter)
    parser.add_argument("--version", type=int, choices=[1, 2], default=1)
    parser.add_argument("--seeds", type=seeds_of, default=(1, 20))
    parser.add_argument("--jobs", type=int, default=os.cpu_count())
    parser.add_argument("--seconds", type=float, default=20)
    parser.add_argument("--tmm", default=str(ROOT / "tmm"))
    parser.add_argument("--print", type=int, metavar="SEED")
    words = parser.parse_args()
    if words.print is not None:
        print("\n".join(History(words.print, words.version).lines))
        return 0
    first, last = words.seeds
    bad = 0
    with ThreadPoolExecutor(words.jobs) as pool:
        seeds = range(first, last + 1)
        for seed, why in zip(seeds, pool.map(lambda seed: differs(words.tmm, words.version, seed, words.seconds), seeds)):
            if why:
                bad += 1
                print(f"history {seed}: {why}")
    print(f"histories of version {words.version}: {last - first + 1}, of which {bad} are answered unlike a map made anew")
    return 1 if bad else 0


if __name__ == "__main__":
    sys.exit(main())
