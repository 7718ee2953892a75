"""Writes replies as JSON lines, for programs in other languages.

    python3 -m tmm json < REPLIES

Each reply becomes one line: an object with the number of its line, its kind, and what it says. The
schema in docs/CLIENTS.md says which members each kind has.
"""

import argparse
import json
import os
import sys
from dataclasses import fields, is_dataclass
from enum import Enum
from typing import Dict, Iterable, Iterator, List, Sequence, Tuple, Type, Union

from tmm.errors import ProtocolError
from tmm.replies import parse_replies
from tmm.values import (
    AddedConstraint,
    Answer,
    Audit,
    Batch,
    Bounds,
    Changes,
    Check,
    Dump,
    EffectReason,
    ErasedPremise,
    Held,
    Listing,
    LoosenedConstraint,
    NoBatch,
    NoMemory,
    OrderReason,
    PremiseReason,
    Refusal,
    Repairs,
    Reply,
    Size,
    Timeline,
    Walk,
    Why,
)

Json = Union[None, int, str, List["Json"], Dict[str, "Json"]]

# What of a union an object is, by a word of its own.
KINDS: Dict[Type[object], str] = {
    Changes: "changes",
    Bounds: "bounds",
    Walk: "path",
    Answer: "answer",
    Why: "why",
    Check: "check",
    Repairs: "repairs",
    Listing: "list",
    Timeline: "timeline",
    Dump: "dump",
    Size: "size",
    Audit: "audit",
    Held: "held",
    Batch: "batch",
    NoBatch: "no batch",
    Refusal: "refusal",
    NoMemory: "memory",
    PremiseReason: "premise",
    OrderReason: "order",
    EffectReason: "effect",
    AddedConstraint: "add",
    ErasedPremise: "erase",
    LoosenedConstraint: "loosen",
}


def as_json(value: object) -> Json:
    """A value of `tmm.client` as what JSON knows: an object by its members, a word by its text."""
    if value is None or isinstance(value, (int, str)):
        return value
    if isinstance(value, Enum):
        return str(value.value)
    if isinstance(value, tuple):
        return [as_json(each) for each in value]
    if is_dataclass(value):
        known: Dict[str, Json] = {"kind": KINDS[type(value)]} if type(value) in KINDS else {}
        known.update((field.name, as_json(getattr(value, field.name))) for field in fields(value))
        return known
    raise TypeError(f"nothing that a reply has: {value!r}")


def json_line(number: int, reply: Reply) -> str:
    """The reply to the line of this number as one line of JSON, without its end."""
    said = as_json(reply)
    assert isinstance(said, dict)
    return json.dumps({"line": number, **said})


def replies_of(lines: Iterable[str]) -> Iterator[Tuple[int, Reply]]:
    """The replies among lines that come one by one, each as soon as the next one begins.

    Raises `ProtocolError` for what is no reply.
    """
    reply = ""
    for line in lines:
        if reply and not line.startswith(" "):
            yield from parse_replies(reply)
            reply = ""
        reply += line
    yield from parse_replies(reply)


def main(words: Sequence[str]) -> int:
    """Reads replies from standard input, writes them as JSON lines, and gives the exit status."""
    parser = argparse.ArgumentParser(
        prog="python3 -m tmm json",
        description="Reads replies from standard input, and writes each as a line of JSON.",
    )
    parser.parse_args(words)
    try:
        # All bytes of a reply are ASCII. What else comes is no reply, and is told as such.
        received = (line.decode("ascii", "backslashreplace") for line in sys.stdin.buffer)
        for number, reply in replies_of(received):
            print(json_line(number, reply), flush=True)
    except ProtocolError as error:
        print(f"tmm json: {error}", file=sys.stderr)
        return 1
    except BrokenPipeError:
        # Who read the lines wants no more of them, and Python would tell so once more at its end.
        os.dup2(os.open(os.devnull, os.O_WRONLY), sys.stdout.fileno())
        return 1
    return 0
