#!/usr/bin/env python3
"""For each kind of line the script that makes it longest, of those that are known: the processor time of that
one line, the length of its reply, and the most memory that the program takes. Outside the gate.

Time is what the kernel accounts to the program from the line before to its own reply, the best of three runs. The word N makes
maps N times smaller than the limits allow. Compare figures of one machine and one run alone.
"""

import datetime
import os
import subprocess
import sys
import threading
from pathlib import Path
from typing import List, NamedTuple, Tuple

os.chdir(Path(__file__).resolve().parents[1])
PROGRAM = os.environ.get("TMM", "./tmm")
RUNS = 3


class Case(NamedTuple):
    """A line of a kind, behind a map that is told in words, in the mode of a word, if there is one."""

    map: str
    before: List[str]
    line: str
    mode: str = ""


def chain(points: int, name: str = "p") -> List[str]:
    """Points, each 1 to 4 after the one before."""
    declared = [f"point {name}{i}" for i in range(1, points + 1)]
    return declared + [f"dist {name}d{i} {name}{i} {name}{i + 1} 1 4" for i in range(1, points)]


def hub(points: int) -> List[str]:
    """Points before one, points behind another, and nothing between the two."""
    lines = ["point a", "point b"]
    for i in range(points):
        lines += [f"point l{i}", f"dist la{i} l{i} a 0 10", f"point r{i}", f"dist br{i} b r{i} 0 10"]
    return lines


def crowded(events: int, rules: int, tokens: int) -> List[str]:
    """Rules that ask for a fact of many tokens, at many events; their effects are beyond the horizon."""
    lines = ["class asked f", "class made h", "kind k", "point o", "horizon 0"]
    for i in range(tokens):
        lines += [f"token t{i} f", f"dist td{i} o t{i} 0 0"]
    for i in range(events):
        lines += [f"event e{i} k", f"dist ed{i} o e{i} 10 10"]
    return lines + [f"rule r{i} k 1 2 h if f" for i in range(rules)]


def contradicting(events: int, rules: int) -> List[str]:
    """Effects of two facts in turn, all tokens of one class."""
    lines = ["class c f g", "kind k", "horizon 0"]
    for i in range(events):
        lines += [f"event e{i} k", f"dist ed{i} start e{i} {i} {i}"]
    lines += [f"rule r{i} k {1 + i} {2 + i} {'fg'[i % 2]}" for i in range(rules)]
    return lines + ["horizon 1000"]


def unordered(events: int, rules: int) -> List[str]:
    """Effects without a latest date, of two facts in turn: none is surely before another one."""
    lines = ["class c f g", "kind k", "horizon 0"]
    for i in range(events):
        lines += [f"event e{i} k", f"dist ed{i} start e{i} {i} {i}"]
    return lines + [f"rule r{i} k 1 * {'fg'[i % 2]}" for i in range(rules)]


def against(events: int, own: int, others: int, pairs: int) -> List[str]:
    """Tokens of a class of eight facts, and of ten classes more whose facts premises set against those of the first."""
    ten, eight = range(10), range(8)
    lines = ["tmm 2", f"class c {' '.join(f'c{i}' for i in eight)}"]
    lines += [f"class d{k} {' '.join(f'd{k}-{i}' for i in eight)}" for k in ten]
    lines += ["kind k", "horizon 0"]
    for i in range(events):
        lines += [f"event e{i} k", f"dist ed{i} start e{i} {i} {i}"]
    lines += [f"rule r{i} k {1 + i} {2 + i} c{i % 8}" for i in range(own)]
    lines += [f"rule s{k}-{i} k {1 + i} {2 + i} d{k}-{i % 8}" for k in ten for i in range(others)]
    all_pairs = [f"c{i} d{k}-{(i + j) % 8}" for j in eight for i in eight for k in ten]
    return lines + [f"against x{i} {pair}" for i, pair in enumerate(all_pairs[:pairs])]


def watched(events: int, rules: int, tokens: int) -> List[str]:
    """Rules that ask for a fact, and tokens of another class of which each begins between a token of the fact and the events."""
    lines = ["tmm 2", "class other g", *crowded(events, rules, tokens)]
    for i in range(tokens):
        lines += [f"token u{i} g", f"dist ud{i} o u{i} 5 5"]
    return [*lines, "horizon 1000"]


def ticks(number: int) -> List[str]:
    """A chain of effects, each of the one before."""
    return ["kind t", "event e t", "dist z start e 0 0", f"horizon {number}", "rule r t 1 1 t"]


def far_reasons(points: int, number: int) -> List[str]:
    """A chain of effects, each with four spans that hold by a long walk, of names as long as they may be."""
    facts = ["one", "two", "three", "four"]
    lines = [f"class of-{fact} {fact}" for fact in facts] + ["kind t", "event e t", f"horizon {number}"]
    names = [f"a-point-on-the-way--{i:04}" for i in range(points)]
    lines += [f"point {name}" for name in names]
    lines += [f"dist a-distance-on-the-wa{i:03} {names[i - 1]} {names[i]} 1 1" for i in range(1, points)]
    for fact in facts:
        lines += [
            f"span s-{fact} {fact}",
            f"dist b-{fact} s-{fact} {names[0]} 0 0",
            f"dist e-{fact} {names[0]} s-{fact}.end 100000 100000",
        ]
    return lines + [f"dist last {names[-1]} e 0 0", f"rule r t 1 1 t if {' '.join(facts)}"]


def broken(protections: int) -> List[str]:
    """Protections that no token keeps, each with eight blames and more."""
    lines = ["class c f g", *(f"token t{i} f" for i in range(20))]
    return lines + [f"protect x{i} f start start" for i in range(protections)]


def loose(points: int, protections: int, constraints: int) -> List[str]:
    """Constraints with two numbers, and protections of a fact whose token is clipped before them."""
    lines = ["class c f g", "token t f", "token u g", "dist ts start t 0 0", "dist us start u 2 2"]
    lines += [f"point p{i}" for i in range(points)]
    lines += [f"dist d{i} start p{i % points} {i % 7} {20 + i % 11}" for i in range(constraints)]
    return lines + [f"protect x{i} f p{i % points} p{i % points}" for i in range(protections)]


def cases(part: int) -> List[Tuple[str, Case]]:
    crowd = crowded(100 // part, 300 // part, 80 // part)
    full = [*crowd, "horizon 1000"]
    many = contradicting(40 // part, 250 // part)
    deep = "e" + "/r" * (190 // part)
    way = far_reasons(240 // part, 240 // part + 190 // part)
    ten = against(40 // part, 25 // part, 20 // part, 500 // part)
    made = [*ten, "horizon 1000"]
    two = watched(80 // part, 300 // part, 80 // part)
    open_order = ["tmm 2", "class d h", *unordered(20, 1650 // part), "horizon 1000"]
    no_event = [line for line in ticks(444 // part) if not line.startswith(("event", "dist"))]
    return [
        ("point", Case("crowded", full, "point x")),
        ("dist", Case("a hub", hub(126 // part), "dist x a b 0 5")),
        ("dist", Case("crowded, all dated anew", full, "dist x start o 7 7")),
        ("dist", Case("a chain, refused", chain(255 // part), f"dist x p1 p{255 // part} 0 1")),
        ("class", Case("crowded", full, "class y ya yb")),
        ("token", Case("contradicting", many, "token y f")),
        ("span", Case("contradicting", many, "span y f")),
        ("kind", Case("crowded", full, "kind y")),
        ("event", Case("crowded", full, "event y k")),
        ("event", Case("ticks, by the event", no_event, "event e t")),
        ("rule", Case("crowded", full, "rule y k 1 2 h")),
        ("protect", Case("contradicting", many, "protect y f e0 e0")),
        ("horizon", Case("crowded", crowd, "horizon 1000")),
        ("horizon", Case("no order is sure", unordered(20, 1650 // part), "horizon 1000")),
        ("erase", Case("crowded", full, "erase k")),
        ("erase", Case("a chain", chain(255 // part), f"erase p{100 // part}")),
        ("bounds", Case("ticks", ticks(444 // part), f"bounds {deep} e")),
        ("path", Case("a chain", chain(255 // part), f"path p1 p{255 // part}")),
        ("ask", Case("contradicting", many, "ask g e0 e0")),
        ("why", Case("ticks, far reasons", way, f"why {deep}")),
        ("check", Case("broken", broken(1900 // part), "check")),
        ("list", Case("crowded", full, "list")),
        ("list", Case("contradicting", many, "list")),
        ("dump", Case("broken", broken(1900 // part), "dump")),
        ("size", Case("crowded", full, "size")),
        ("audit", Case("crowded", full, "audit")),
        ("audit", Case("contradicting", many, "audit")),
        ("against", Case("eleven classes", made, "against y c0 c1")),
        ("against", Case("eleven classes", made, "against y c0 d0-0")),
        ("against", Case("crowded, of two classes", two, "against y f g")),
        ("against", Case("no order is sure", open_order, "against y f h")),
        ("erase", Case("eleven classes, a premise against", made, "erase x0")),
        ("erase", Case("eleven classes, the first", made, "erase c")),
        ("erase", Case("eleven classes, another one", made, "erase d0")),
        ("erase", Case("crowded, of two classes", [*two, "against y f g"], "erase y")),
        ("token", Case("eleven classes", made, "token y c0")),
        ("token", Case("no order is sure, against", [*open_order, "against x f h"], "token y h")),
        ("span", Case("eleven classes", made, "span y d0-0")),
        ("rule", Case("eleven classes", made, "rule y k 3 4 c0")),
        ("event", Case("eleven classes", made, "event y k")),
        ("horizon", Case("eleven classes", ten, "horizon 1000")),
        ("ask", Case("eleven classes", made, f"ask c0 e0 e{40 // part - 1}")),
        ("protect", Case("eleven classes", made, "protect y c0 e0 e1")),
        ("list", Case("eleven classes", made, "list")),
        ("dump", Case("eleven classes", made, "dump")),
        ("audit", Case("eleven classes", made, "audit")),
        ("timeline", Case("crowded", full, "timeline", "timeline")),
        ("timeline", Case("contradicting", many, "timeline", "timeline")),
        ("repairs", Case("constraints with two numbers", loose(240 // part, 40 // part, 1700 // part), "repairs x0", "repairs")),
    ]


class Run(NamedTuple):
    seconds: float
    refused: bool
    reply: bytes
    memory: int


class Session:
    """The program with its pipes. A question behind other lines shows when they are answered."""

    def __init__(self, mode: str) -> None:
        self.program = subprocess.Popen([PROGRAM, *mode.split()], stdin=subprocess.PIPE, stdout=subprocess.PIPE, bufsize=0)
        self.lines = 0
        self.output = bytearray()
        self.more = threading.Condition()
        threading.Thread(target=self.read, daemon=True).start()

    def read(self) -> None:
        assert self.program.stdout is not None
        while piece := self.program.stdout.read(1 << 16):
            with self.more:
                self.output += piece
                self.more.notify()

    def say(self, lines: List[str]) -> bytes:
        """Says these lines and a question, and returns the replies to the lines once that is answered."""
        assert self.program.stdin is not None
        begin = len(self.output)
        self.lines += len(lines) + 1
        last = f"{self.lines} bounds 0 0\n".encode("ascii")
        self.program.stdin.write("".join(f"{line}\n" for line in [*lines, "bounds start start"]).encode("ascii"))
        with self.more:
            while not self.output.endswith(last):
                self.more.wait()
            return bytes(self.output[begin : -len(last)])

    def seconds(self) -> float:
        """The processor time so far."""
        with open(f"/proc/{self.program.pid}/schedstat", encoding="ascii") as account:
            return int(account.read().split()[0]) / 1e9

    def memory(self) -> int:
        """The most memory so far, in kilobytes."""
        with open(f"/proc/{self.program.pid}/status", encoding="ascii") as status:
            return next(int(line.split()[1]) for line in status if line.startswith("VmHWM:"))


def run(case: Case) -> Run:
    """One run: the processor time of the line alone, its reply, and the most memory."""
    session = Session(case.mode)
    before = session.say(case.before)
    started = session.seconds()
    reply = session.say([case.line])
    seconds, memory = session.seconds() - started, session.memory()
    assert session.program.stdin is not None
    session.program.stdin.close()
    session.program.wait()
    return Run(seconds, b" no " in before or b" memory" in before + reply, reply, memory)


def main(words: List[str]) -> int:
    part = int(words[0]) if words else 1
    commit = subprocess.run(["git", "rev-parse", "--short", "HEAD"], stdout=subprocess.PIPE, text=True).stdout.strip()
    print(f"commit {commit}, {datetime.date.today()}, {os.cpu_count()} processors, maps of 1/{part}\n")
    print("| Line | Map | time | reply | memory |")
    print("|---|---|---|---|---|")
    wrong = 0
    for kind, case in cases(part):
        made = min((run(case) for _ in range(RUNS)), key=lambda it: it.seconds)
        first = made.reply.split(b"\n", 1)[0].decode("ascii")
        if made.refused or (" no " in first and " no cycle" not in first):
            print(f"worst.py: {kind} over {case.map}: {first}", file=sys.stderr)
            wrong = 1
        row = f"{made.seconds * 1000:.2f} ms | {len(made.reply):,} bytes | {made.memory / 1024:.0f} MB"
        print(f"| `{kind}` | {case.map} | {row} |", flush=True)
    return wrong


if __name__ == "__main__":
    sys.exit(main(sys.argv[1:]))
