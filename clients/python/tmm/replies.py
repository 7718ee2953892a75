"""From the text of replies to values."""

from dataclasses import dataclass
from functools import lru_cache
from typing import Callable, Dict, Iterator, List, Optional, Tuple, Union

from tmm.errors import ProtocolError
from tmm.values import (
    AddedConstraint,
    Answer,
    Audit,
    Batch,
    Blame,
    BlameCause,
    Bounds,
    Broken,
    Cause,
    Changes,
    Check,
    Clip,
    Dated,
    Dump,
    EffectReason,
    ErasedPremise,
    Held,
    Listing,
    LoosenedConstraint,
    Made,
    NoBatch,
    NoMemory,
    OrderReason,
    PointDate,
    PremiseReason,
    Reason,
    Refusal,
    Repair,
    Repairs,
    Reply,
    Row,
    Side,
    Size,
    Step,
    Timeline,
    Verdict,
    Walk,
    Why,
)


@dataclass
class _Detail:
    """The words of a line behind two blanks, and the lines behind four that belong to it."""

    words: List[str]
    parts: List[str]


def parse_replies(text: str) -> Iterator[Tuple[int, Reply]]:
    """The replies in a text, each with the number of its line. Raises `ProtocolError` for what is none."""
    lines = text.split("\n")
    if not lines[-1]:
        lines.pop()
    begin = 0
    while begin < len(lines):
        end = begin + 1
        # Details are indented, so a line that is not begins the next reply.
        while end < len(lines) and lines[end][:1] == " ":
            end += 1
        yield _parse_reply(lines[begin:end])
        begin = end


def parse_reply(text: str, number: int) -> Reply:
    """The one reply in a text, to the line of this number. Raises `ProtocolError` for anything else."""
    # most have one line, and then nothing is to be parted
    lines = [text] if text.find("\n") == len(text) - 1 else text.rstrip("\n").split("\n")
    told, reply = _parse_reply(lines)
    if told != number or (len(lines) > 1 and not all([line[:1] == " " for line in lines[1:]])):
        raise ProtocolError(f"this is not the reply to line {number}:\n{text}")
    return reply


def _parse_reply(lines: List[str]) -> Tuple[int, Reply]:
    try:
        number, verdict, *words = lines[0].split()
        details = lines[1:]
        if details and verdict in _WITHOUT_DETAILS:
            raise ValueError("details of a reply that has none")
        return int(number), _READERS[verdict](words, details)
    except (IndexError, KeyError, ValueError) as error:
        raise ProtocolError("this is no reply of tmm:\n" + "\n".join(lines)) from error


def _details(lines: List[str]) -> List[_Detail]:
    details: List[_Detail] = []
    for line in lines:
        if line.startswith(_INNER):
            details[-1].parts.append(line)
        else:
            details.append(_Detail(line.split(), []))
    return details


def _words_of(lines: List[str]) -> List[List[str]]:
    return [detail.words for detail in _details(lines)]


def _bound(word: str) -> Optional[int]:
    return None if word == "*" else int(word)


# looked up far faster than `Side(word)`
_SIDES = {side.value: side for side in Side}

# how details begin, and what belongs to them
_OUTER, _INNER = "  ", "    "

# how the details of an edit of a batch begin
_HELD_AT = "  line "


# The same steps are told again and again, and a step never changes.
@lru_cache(1 << 14)
def _step(line: str, indent: str) -> Step:
    if not line.startswith(indent) or line[len(indent) :].startswith(" "):
        raise ValueError("a step that stands elsewhere")
    premise, side, origin, target, weight = line.split()
    return Step(premise, _SIDES[side], origin, target, int(weight))


def _steps(lines: List[str], indent: str) -> Tuple[Step, ...]:
    return tuple([_step(line, indent) for line in lines])


def _blames(lines: List[List[str]]) -> Tuple[Tuple[Blame, ...], int]:
    blames = []
    more = 0
    for token, cause, *rest in lines:
        # `and 3 more` is no blame. A token may be named `and`, but no cause is a number.
        if token == "and" and cause.isdigit():
            more = int(cause)
        else:
            blames.append(Blame(token, BlameCause(cause), rest[0] if rest else None))
    return tuple(blames), more


def _broken(detail: _Detail) -> Broken:
    _, protection, *rest = detail.words
    blames, more = _blames([part.split() for part in detail.parts])
    return Broken(protection, rest == ["unordered"], blames, more)


def _counted(word: str, number: int) -> None:
    if int(word) != number:
        raise ValueError("another number of details than is told")


# the reply to most edits
_NO_CHANGES = Changes()


def _read_ok(words: List[str], lines: List[str]) -> Union[Changes, Batch]:
    # A number behind it tells how many edits of an agent were made.
    return _read_batch(words, lines) if words else _read_changes(lines)


def _read_batch(words: List[str], lines: List[str]) -> Batch:
    made: List[Tuple[int, List[str]]] = []
    for line in lines:
        if line.startswith(_HELD_AT):
            made.append((int(line[len(_HELD_AT) :]), []))
        else:
            made[-1][1].append(line)
    _counted(words[0], len(made))
    return Batch(tuple([Made(held_at, _read_changes(changes)) for held_at, changes in made]))


def _read_changes(lines: List[str]) -> Changes:
    if not lines:
        return _NO_CHANGES
    names: Dict[str, List[str]] = {"erased": [], "out": [], "in": [], "loose": [], "mended": []}
    clips = []
    broken = []
    for detail in _details(lines):
        if detail.words[0] == "clip":
            _, token, _, by = detail.words
            clips.append(Clip(token, by))
        elif detail.words[0] == "broken":
            broken.append(_broken(detail))
        else:
            word, name = detail.words
            names[word].append(name)
    return Changes(
        erased=tuple(names["erased"]),
        left=tuple(names["out"]),
        entered=tuple(names["in"]),
        loosened=tuple(names["loose"]),
        clips=tuple(clips),
        broken=tuple(broken),
        mended=tuple(names["mended"]),
    )


def _read_bounds(words: List[str], lines: List[str]) -> Bounds:
    lower, upper = words
    return Bounds(_bound(lower), _bound(upper))


def _read_walk(words: List[str], lines: List[str]) -> Walk:
    (upper,) = words
    return Walk(_bound(upper), _steps(lines, _OUTER))


def _read_yes(words: List[str], lines: List[str]) -> Answer:
    (supporter,) = words
    return Answer(Verdict.YES, supporter)


def _read_no(words: List[str], lines: List[str]) -> Union[Answer, NoBatch, Refusal]:
    # A `no` alone answers `ask`. One with a cause is a refusal.
    if not words:
        blames, more = _blames(_words_of(lines))
        return Answer(Verdict.NO, None, blames, more)
    if words[0] == "batch":
        return NoBatch(int(words[1]), _read_refusal(lines[0].split(), lines[1:], _INNER))
    return _read_refusal(words, lines, _OUTER)


def _read_refusal(words: List[str], lines: List[str], indent: str) -> Refusal:
    cause = Cause(" ".join(words) if words[0] == "limit" else words[0])
    if cause is Cause.CYCLE:
        return Refusal(cause, sum=int(words[1]), steps=_steps(lines, indent))
    if cause in (Cause.TAKEN, Cause.UNKNOWN, Cause.SORT):
        return Refusal(cause, words[1])
    return Refusal(cause)


def _read_why(words: List[str], lines: List[str]) -> Why:
    reasons: List[Reason] = []
    for detail in _details(lines):
        if detail.words[0] == "premise":
            _, premise = detail.words
            reasons.append(PremiseReason(premise))
        elif detail.words[0] == "order":
            _, first, second, at_most = detail.words
            reasons.append(OrderReason(first, second, int(at_most), _steps(detail.parts, _INNER)))
        else:
            # `O by R on T`, then `with K1 .. Kn` and `unless g1 .. gm` where the rule has facts and
            # exceptions. No occurrence has the name `unless`.
            effect, _, rule, _, event, *rest = detail.words
            end = rest.index("unless") if "unless" in rest else len(rest)
            supporters, exceptions = rest[:end][1:], rest[end:][1:]
            reasons.append(EffectReason(effect, rule, event, tuple(supporters), tuple(exceptions)))
    return Why(tuple(reasons))


def _read_check(words: List[str], lines: List[str]) -> Check:
    details = _details(lines)
    _counted(words[0], len(details))
    return Check(tuple(_broken(detail) for detail in details))


def _repair(words: List[str]) -> Repair:
    if words[0] == "add":
        _, origin, target, lower, upper = words
        if upper != "*":
            raise ValueError("an upper bound of a constraint that would be added")
        return AddedConstraint(origin, target, int(lower))
    if words[0] == "erase":
        _, premise = words
        return ErasedPremise(premise)
    loosen, constraint, side = words
    if loosen != "loosen" or side not in (Side.LOWER.value, Side.UPPER.value):
        raise ValueError(words)
    return LoosenedConstraint(constraint, _SIDES[side])


def _read_repairs(words: List[str], lines: List[str]) -> Repairs:
    _counted(words[0], len(lines))
    return Repairs(tuple([_repair(detail) for detail in _words_of(lines)]))


def _read_listing(words: List[str], lines: List[str]) -> Listing:
    _counted(words[0], len(lines))
    rows = []
    for earliest, occurrence, what, *rest in _words_of(lines):
        rows.append(Row(int(earliest), occurrence, what, rest[1] if rest else None))
    return Listing(tuple(rows))


def _read_timeline(words: List[str], lines: List[str]) -> Timeline:
    point_count, row_count = [int(word) for word in words]
    if len(lines) != point_count + row_count:
        raise ValueError("another number of details than is told")
    told = _words_of(lines)
    points = []
    for at, point, date in told[:point_count]:
        if at != "at":
            raise ValueError("a point without its date")
        points.append(PointDate(point, int(date)))
    rows = []
    for date, occurrence, what, *rest in told[point_count:]:
        rows.append(Dated(int(date), occurrence, what, bool(rest), _bound(rest[0]) if rest else None))
    return Timeline(tuple(points), tuple(rows))


def _read_dump(words: List[str], lines: List[str]) -> Dump:
    # The line that opens the version, where there is one, and the horizon come first, and are not counted.
    version = 1
    details = _details(lines)
    if details[0].words[0] == "tmm":
        version = int(details[0].words[1])
        details = details[1:]
    _counted(words[0], len(details) - 1)
    _, horizon = details[0].words
    return Dump(int(horizon), tuple(" ".join(detail.words) for detail in details[1:]), version)


def _read_size(words: List[str], lines: List[str]) -> Size:
    (number,) = words
    return Size(int(number))


def _read_audit(words: List[str], lines: List[str]) -> Audit:
    if words != ["yes"]:
        raise ValueError(words)
    return Audit()


def _read_held(words: List[str], lines: List[str]) -> Held:
    (number,) = words
    return Held(int(number))


def _read_memory(words: List[str], lines: List[str]) -> NoMemory:
    return NoMemory()


_READERS: Dict[str, Callable[[List[str], List[str]], Reply]] = {
    "ok": _read_ok,
    "bounds": _read_bounds,
    "path": _read_walk,
    "yes": _read_yes,
    "no": _read_no,
    "held": _read_held,
    "why": _read_why,
    "check": _read_check,
    "repairs": _read_repairs,
    "list": _read_listing,
    "timeline": _read_timeline,
    "dump": _read_dump,
    "size": _read_size,
    "audit": _read_audit,
    "memory": _read_memory,
}

# No details belong to these.
_WITHOUT_DETAILS = frozenset(["bounds", "yes", "size", "audit", "held", "memory"])
