#!/usr/bin/env python3
"""Holds each claim of docs/PROOFS.md to what carries it: in the last column of its tables each name
is a function, a type, a trait or a definition of the crates, and a name behind `FUNCTION:` is a
clause of that function or one of its methods. It does not read the prose before it."""
import pathlib
import re
import sys

TOP = pathlib.Path(__file__).resolve().parent.parent
PROOFS = TOP / "docs" / "PROOFS.md"
FUNCTION = re.compile(r"\bfn (\w+)")
CLAUSE = re.compile(r"^\s*(?:ensures|requires)\*? ([\w']+) \{", re.M)
ITEM = re.compile(r"^\s*(?:pub(?:\(crate\))? )?(?:struct|enum|trait|type) (\w+)", re.M)
DEFINED = re.compile(r"^\s*(?:unfoldable )?(?:abbrev |record |data )?(?:pub )?(?:abbrev |record |data )?([\w'-]+)\b.*?(?: :|\(|\{)", re.M)


def sources(kind):
    return [path for path in TOP.glob("crates/*/**/*" + kind) if "out" not in path.relative_to(TOP).parts]


def clauses_of():
    """The clauses of all functions of one name, by the name."""
    found = {}
    for path in sources(".rt"):
        text = path.read_text()
        places = [(m.start(), m.group(1)) for m in FUNCTION.finditer(text)]
        for (start, name), (end, _) in zip(places, places[1:] + [(len(text), "")]):
            found.setdefault(name, set()).update(CLAUSE.findall(text[start:end]))
    return found


def words_of():
    """All other names that a claim may give: of types, traits and definitions."""
    found = {path.parent.name for path in TOP.glob("crates/*/src")}
    for path in sources(".rt"):
        found.update(ITEM.findall(path.read_text()))
    for path in sources(".antt"):
        if "specs" in path.parts or "proofs" in path.parts:
            found.update(DEFINED.findall(path.read_text()))
    return found


def rows():
    """The last column of each row of the tables that say what carries a claim."""
    reads = False
    for number, line in enumerate(PROOFS.read_text().splitlines(), 1):
        if not line.startswith("|"):
            reads = False
            continue
        last = line.rstrip().rstrip("|").rsplit(" | ", 1)[-1]
        if re.search(r"contract that carries it|Where it is proved", line):
            reads = True
        elif reads and not line.startswith("|--"):
            yield number, last


def faults():
    clauses, words = clauses_of(), words_of()
    checked = 0
    for number, text in rows():
        text = re.sub(r"\[[^]]*\]\([^)]*\)", "", text)
        for part in text.split(";"):
            head, colon, behind = part.partition("`:")
            owners = [name for name in re.findall(r"`([\w:'-]+)`", head + "`" if colon else head)]
            for owner in owners:
                checked += 1
                last = owner.split("::")[-1]
                if last not in clauses and last not in words and not any(last in of for of in clauses.values()):
                    yield f"docs/PROOFS.md:{number}: {owner} is no function, type or definition"
                for scope in owner.split("::")[:-1]:
                    if scope not in words and not any(TOP.glob(f"crates/*/src/{scope}.rt")):
                        yield f"docs/PROOFS.md:{number}: {scope} of {owner} is no type, trait, crate or module"
            if not colon:
                continue
            owner = owners[-1].split("::")[-1]
            for name in re.findall(r"`([\w'-]+)`", behind):
                checked += 1
                if name not in clauses.get(owner, ()) and name not in clauses and name not in words:
                    yield f"docs/PROOFS.md:{number}: {name} is no clause of {owner}"
    if checked < 200:
        yield f"docs/PROOFS.md: only {checked} names were found"
    print(f"claims.py: {checked} names")


found = list(faults())
print("\n".join(found))
sys.exit(1 if found else 0)
