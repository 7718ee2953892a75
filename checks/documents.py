#!/usr/bin/env python3
"""What the documents say of the repository, held against it. It runs no program, and takes a second.

With the word `manual` it writes the tables of docs/SCRIPT.md into docs/tmm.1 instead.
"""

import re
import sys
from pathlib import Path
from typing import Dict, Iterator, List, Tuple

ROOT = Path(__file__).resolve().parents[1]
DOCUMENTS = [*sorted(ROOT.glob("*.md")), *sorted((ROOT / "docs").rglob("*.md"))]
MANUAL = ROOT / "docs" / "tmm.1"
# The section of the manual page, and the heading of docs/SCRIPT.md whose table it has.
MANUAL_TABLES = [
    ("WORDS", "## Lines and words"),
    ("LINES", "## What a line says"),
    ("SUPPOSITIONS", "## Suppositions"),
    ("AGENTS", "## Agents"),
    ("REPAIRS", "## Repairs"),
    ("TIMELINES", "## A timeline"),
    ("EXIT STATUS", "## Words and endings"),
]


def text_of(path: Path) -> str:
    return path.read_text(encoding="utf-8")


# ---- the manual page


def table_below(text: str, heading: str) -> List[Tuple[str, str]]:
    """The rows of the first table of two columns below a heading, without its head."""
    rows = []
    for line in text.split(f"\n{heading}\n", 1)[1].splitlines():
        if line.startswith("|"):
            first, second = (cell.strip() for cell in line.strip("|").split("|"))
            rows.append((first, second))
        elif rows:
            break
    # the names of the columns, and the dashes below them
    return rows[2:]


def as_manual(text: str) -> str:
    """The text of a cell, in bold where it is between backquotes, and without the targets of its links."""
    plain = re.sub(r"\[([^\]]*)\]\([^)]*\)", r"\1", text)
    escaped = plain.replace("\\", "\\e").replace("-", "\\-").replace("^", "\\(ha")
    return re.sub(r"`([^`]*)`", r"\\fB\1\\fP", escaped)


def with_tables(manual: str, script: str) -> str:
    """The manual page with the tables of the reference in their sections."""
    for section, heading in MANUAL_TABLES:
        rows = "".join(f".TP\n{as_manual(row)}\n{as_manual(said)}\n" for row, said in table_below(script, heading))
        # what stands before the first entry of a section stays
        pattern = rf"(\.SH {section}\n(?:(?!\.TP|\.SH).*\n)*)(?:(?!\.SH).*\n)*"
        manual = re.sub(pattern, lambda found: found.group(1) + rows, manual)
    return manual


def wrong_manual() -> Iterator[str]:
    manual = text_of(MANUAL)
    if with_tables(manual, text_of(ROOT / "docs" / "SCRIPT.md")) != manual:
        yield "docs/tmm.1 has not the tables of docs/SCRIPT.md: checks/documents.py manual writes them"


# ---- what is named


def without_blocks(text: str) -> str:
    return re.sub(r"^```.*?^```$", "", text, flags=re.DOTALL | re.MULTILINE)


def anchors(path: Path) -> List[str]:
    headings = re.findall(r"^#+ (.*)$", without_blocks(text_of(path)), re.MULTILINE)
    return [re.sub(r"[^\w -]", "", heading.lower()).replace(" ", "-") for heading in headings]


def wrong_links() -> Iterator[str]:
    for document in DOCUMENTS:
        for link in re.findall(r"\]\(([^)]+)\)", without_blocks(text_of(document))):
            if link.startswith("http"):
                continue
            file, _, anchor = link.partition("#")
            target = document.parent / file if file else document
            if not target.exists():
                yield f"{document.name}: no file {link}"
            elif anchor and anchor not in anchors(target):
                yield f"{document.name}: no heading {link}"


def wrong_paths() -> Iterator[str]:
    """Paths between backquotes that begin with a folder of the repository; capital letters are any name.

    What a build makes need not be there.
    """
    for document in DOCUMENTS:
        for path in re.findall(r"`(?:\./)?((?:checks|clients|crates|docs|examples)/[^` ]*)`", text_of(document)):
            if "/out" not in path and not any(ROOT.glob(re.sub(r"\b[A-Z_]{3,}\b", "*", path).rstrip("/"))):
                yield f"{document.name}: no file {path}"


def wrong_lemmas() -> Iterator[str]:
    examples = ROOT / "crates" / "tmm_examples" / "proofs"
    for file, lemma in re.findall(r"`(Worked\w+)\.(\w+)`", text_of(ROOT / "docs" / "DEFINITIONS.md")):
        path = examples / f"{file}.antt"
        if not path.exists() or not re.search(rf"^(?:pub )?{lemma} :", text_of(path), re.MULTILINE):
            yield f"DEFINITIONS.md: no lemma {file}.{lemma}"


def wrong_crates() -> Iterator[str]:
    names = re.findall(r"^(\w+):", text_of(ROOT / "crates.txt"), re.MULTILINE)
    layers = text_of(ROOT / "docs" / "ARCHITECTURE.md")
    for name in names:
        if not re.search(rf"\b{name}\b", layers):
            yield f"ARCHITECTURE.md: the crate {name} is not there"
    for name in re.findall(r"^\| `(\w+)` \|", text_of(ROOT / "docs" / "PROOFS.md"), re.MULTILINE):
        if name not in names:
            yield f"PROOFS.md: there is no crate {name}"


def wrong_version() -> Iterator[str]:
    version = text_of(ROOT / "VERSION").strip()
    if f'version = "{version}"' not in text_of(ROOT / "clients" / "python" / "pyproject.toml").splitlines():
        yield f"clients/python/pyproject.toml: the version is not {version}, as VERSION has it"


# ---- what is quoted


def signature_of_run() -> str:
    """The contract of `run`, without the imports of its clauses."""
    source = text_of(ROOT / "crates" / "tmm_cli" / "src" / "run.rt")
    return re.search(r"^pub fn run<.*?(?=^\{$)", source, re.DOTALL | re.MULTILINE).group()


def one_line(text: str) -> str:
    # a list of parameters that is laid out on several lines has a comma behind the last one
    return re.sub(r",? \)", ")", re.sub(r"\( ", "(", " ".join(text.split())))


def wrong_quotes() -> Iterator[str]:
    run = one_line(signature_of_run())
    for name in ("DEFINITIONS.md", "PROOFS.md"):
        if run not in one_line(text_of(ROOT / "docs" / name)):
            yield f"{name}: the contract of run is another one"
    readme = text_of(ROOT / "README.md")
    for name in ("first.tmm", "first.out"):
        shown = "".join(f"    {line}\n" for line in text_of(ROOT / "examples" / name).splitlines())
        if shown not in readme:
            yield f"README.md: examples/{name} is not shown as it is"


def wrong_excerpts() -> Iterator[str]:
    """Blocks of the tutorial under the name of a file of examples/: their lines stand there, in the same order."""
    left: Dict[str, Iterator[str]] = {}
    tutorial = text_of(ROOT / "docs" / "TUTORIAL.md")
    excerpts = re.findall(r"^```(\w+\.(?:tmm|out))\n(.*?)^```$", tutorial, re.DOTALL | re.MULTILINE)
    for name, block in excerpts:
        lines = left.setdefault(name, iter(text_of(ROOT / "examples" / name).splitlines()))
        for line in block.splitlines():
            # it takes all lines up to the one that it finds
            if line not in lines:
                yield f"TUTORIAL.md: `{line}` does not stand in examples/{name}, behind what was shown before"
                break
    if not excerpts:
        yield "TUTORIAL.md: no example is shown"


def main(words: List[str]) -> int:
    if words == ["manual"]:
        MANUAL.write_text(with_tables(text_of(MANUAL), text_of(ROOT / "docs" / "SCRIPT.md")), encoding="utf-8")
        return 0
    wrong = [
        *wrong_manual(),
        *wrong_links(),
        *wrong_paths(),
        *wrong_lemmas(),
        *wrong_crates(),
        *wrong_version(),
        *wrong_quotes(),
        *wrong_excerpts(),
    ]
    for line in wrong:
        print(f"checks: {line}", file=sys.stderr)
    return 1 if wrong else 0


if __name__ == "__main__":
    sys.exit(main(sys.argv[1:]))
