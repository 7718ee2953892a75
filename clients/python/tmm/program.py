"""Where the program is, and what it can do."""

import os
import re
import shutil
import subprocess
from pathlib import Path
from typing import Dict, FrozenSet, Optional, Tuple

from tmm.errors import NoProgram

# The mode in which a map takes suppositions: a word of the program's command line.
SUPPOSE = "suppose"
# The mode in which several agents share a map.
AGENTS = "agents"
# The mode in which a map tells what mends a broken protection.
REPAIRS = "repairs"
# The mode in which a map tells its timeline.
TIMELINE = "timeline"

_USAGE = re.compile(rb"usage: tmm \[demo N((?: \| [a-z]+)*)\], N from 1 to 1000\n")

# What programs were found to have, by their files and the times of these.
_known_modes: Dict[Tuple[str, int], FrozenSet[str]] = {}

# The checkout that this file stands in, where it is not installed elsewhere.
CHECKOUT = Path(__file__).resolve().parents[3]


def find_program() -> str:
    """What the environment variable TMM names, else the `tmm` of PATH, else what was built last in this checkout.

    Nothing is built from here, so it is the built program itself, and not the script `tmm` beside it, which
    builds anew where a source has changed. Where nothing is built, that raises `NoProgram`.
    """
    named = os.environ.get("TMM")
    if named:
        return named
    on_path = shutil.which("tmm")
    if on_path:
        return on_path
    crate = CHECKOUT / "crates" / "tmm_cli"
    built = crate / "out" / "tmm_cli"
    if built.is_file():
        return str(built)
    if crate.is_dir():
        raise NoProgram(
            f"tmm is not built: run ./prove in {CHECKOUT}, which proves and builds it,"
            " or let the environment variable TMM name a program"
        )
    raise NoProgram("there is no program `tmm` on PATH: let the environment variable TMM name one")


def modes_of(program: str, timeout: Optional[float] = None) -> FrozenSet[str]:
    """The modes that a program has. Its usage line tells them, for which each program is run once.

    One that writes something else has none, nor has one that says nothing within `timeout` seconds. Raises
    `OSError` where it cannot be started.
    """
    file = shutil.which(program) or program
    key = file, os.stat(file).st_mtime_ns
    if key not in _known_modes:
        try:
            told = subprocess.run(
                [program, "--help"],
                stdin=subprocess.DEVNULL,
                stdout=subprocess.PIPE,
                stderr=subprocess.DEVNULL,
                timeout=timeout,
            ).stdout
        except subprocess.TimeoutExpired:
            return frozenset()
        usage = _USAGE.fullmatch(told)
        _known_modes[key] = frozenset(usage.group(1).decode().split(" | ")[1:] if usage else [])
    return _known_modes[key]
