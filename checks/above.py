#!/usr/bin/env python3
"""What a change of a crate proves again: it and the crates above it, by crates.txt, and how many wrong changes
of these the gate then tries. The words are crates; without words it tells all.
"""

import sys
from pathlib import Path
from typing import Dict, List, Set

ROOT = Path(__file__).resolve().parents[1]


def read_crates() -> Dict[str, List[str]]:
    """Each crate, with those that it stands on itself."""
    crates = {}
    for line in (ROOT / "crates.txt").read_text(encoding="utf-8").splitlines():
        name, colon, below = line.partition("#")[0].partition(":")
        if colon:
            crates[name.strip()] = below.split()
    return crates


def above(name: str, crates: Dict[str, List[str]]) -> Set[str]:
    """The crates that stand on this one, directly or through others."""
    found: Set[str] = set()
    new = {name}
    while new:
        new = {crate for crate, below in crates.items() if crate not in found and new & set(below)}
        found |= new
    return found


def wrong_changes(name: str) -> int:
    return len(list((ROOT / "crates" / name / "must-fail").glob("*.edit")))


def main(words: List[str]) -> int:
    crates = read_crates()
    unknown = [word for word in words if word not in crates]
    if unknown:
        print(f"above.py: crates.txt has no {', '.join(unknown)}", file=sys.stderr)
        return 2
    for name in words or crates:
        higher = above(name, crates)
        tried = sum(wrong_changes(crate) for crate in {name, *higher})
        print(f"{name}: {len(higher)} crates above it, {tried} wrong changes")
        if words:
            print("  " + " ".join(crate for crate in crates if crate in higher))
    return 0


if __name__ == "__main__":
    sys.exit(main(sys.argv[1:]))
