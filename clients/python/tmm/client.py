"""The client: `TimeMap`, which gives line by line, and `run_script`, which gives a whole script at once."""

import subprocess
from dataclasses import dataclass
from itertools import count
from types import TracebackType
from typing import Callable, Dict, Iterable, List, Optional, Sequence, Set, Tuple, Type, TypeVar, Union

from tmm import explain, words
from tmm.edits import Edits
from tmm.errors import ALL_ANSWERED, OutOfMemory, ProgramEnded, ProtocolError, TimedOut, TmmError, refused
from tmm.explain import Threats, WhyNot
from tmm.handles import New
from tmm.program import SUPPOSE, TIMELINE, find_program, modes_of
from tmm.replies import parse_replies, parse_reply
from tmm.stream import Stream, shown
from tmm.values import (
    AddedConstraint,
    Answer,
    Audit,
    Batch,
    Bounds,
    Broken,
    Cause,
    Changes,
    Check,
    Dump,
    EffectReason,
    ErasedPremise,
    Held,
    Listing,
    NoMemory,
    OrderReason,
    Reason,
    Refusal,
    Repair,
    Repairs,
    Reply,
    Row,
    Side,
    Size,
    Timeline,
    Verdict,
    Walk,
    Why,
)

# Given after a line or several. It changes nothing, is never refused, and its reply begins with a number
# of its own: what comes before that is the whole reply.
_FENCE = b"bounds start start\n"

# The line of an agent that holds an edit or discards, in the place of its first word.
OF_AGENT = "@"

# A line that begins so has a reply of one line, whatever it is, and needs no fence.
_OF_ONE_LINE = frozenset(
    ["bounds", "size", "audit", "point", "kind", "class", "suppose", "keep", "drop", OF_AGENT]
)

_PREMISES = frozenset(
    ["point", "dist", "class", "token", "span", "kind", "event", "rule", "protect", "against"]
)

FIRST_HORIZON = 1000

# So many suppositions may stand on top of each other.
MOST_SUPPOSITIONS = 8

ReplyKind = TypeVar(
    "ReplyKind",
    Changes,
    Bounds,
    Walk,
    Answer,
    Why,
    Check,
    Listing,
    Dump,
    Size,
    Audit,
    Held,
    Batch,
    Repairs,
    Timeline,
)

# Called after each line with it and its reply, None for a comment or a blank line.
Log = Callable[[str, Optional[Reply]], None]


def _encoded(line: str) -> bytes:
    """The bytes of one line with its end, which may stand there already."""
    line = line[:-1] if line.endswith("\n") else line
    if "\n" in line:
        raise ValueError(f"more than one line: {line!r}")
    # Bytes of a file that are no text, as a comment may have, are given as they were read.
    return line.encode("utf-8", "surrogateescape") + b"\n"


def _first_word(line: str) -> str:
    """The first word of a line, nothing where it has none."""
    return next(iter(line.split(None, 1)), "")


@dataclass(frozen=True)
class Mark:
    """What stands at a moment, for `TimeMap.back`: the premises in their order, the horizon, the version."""

    premises: Tuple[str, ...]
    horizon: int
    version: int


@dataclass
class _Standing:
    """What stands, as the client notes it."""

    # The premises by their names, in the order in which they were given.
    premises: Dict[str, str]
    facts: Set[str]
    horizon: int = FIRST_HORIZON
    version: int = 1

    def copy(self) -> "_Standing":
        return _Standing(dict(self.premises), set(self.facts), self.horizon, self.version)


class Supposition:
    """What `TimeMap.suppose` gives: a block whose edits are undone when it is left."""

    def __init__(self, time_map: "TimeMap") -> None:
        self._map = time_map
        self._is_kept = False
        # How many suppositions of the program stand with that of the block, where it has one of its own.
        self._depth = 0
        # Else what stood before.
        self._mark: Optional[Mark] = None

    def keep(self) -> None:
        """What the block has edited and will edit stays."""
        self._is_kept = True

    def __enter__(self) -> "Supposition":
        self._is_kept = False
        self._depth = self._map._begin_supposition()
        self._mark = None if self._depth else self._map.mark()
        return self

    def __exit__(
        self,
        kind: Optional[Type[BaseException]],
        error: Optional[BaseException],
        trace: Optional[TracebackType],
    ) -> None:
        # Of a map that is gone nothing can be undone, and the error that ended it is the one to tell.
        if error is not None and not self._map.is_usable:
            return
        if self._depth:
            self._map._end_suppositions(self._depth, self._is_kept)
        elif self._mark is not None and not self._is_kept:
            self._map.back(self._mark)


class TimeMap(Edits[Changes]):
    """A map in a `tmm` of its own, which runs until `close`. It serves one thread at a time.

    Methods raise `Refused`, `RefusedForCycle` or `OutOfMemory`, after which the map is as before, and
    `ProgramEnded`, `ProtocolError` or `TimedOut`, after which it is gone. Arguments that no line can have
    are a `ValueError`, and then nothing is given.
    """

    def __init__(
        self,
        command: Optional[Sequence[str]] = None,
        *,
        mode: Optional[str] = None,
        timeout: Optional[float] = None,
        log: Optional[Log] = None,
    ) -> None:
        """Starts the program: that of `find_program`, or the given command with its words.

        `mode` is the word of the mode in which it is started. Without one it is started in the mode `suppose`,
        where it has that and the command has no words of its own.
        `timeout` is the most seconds that it may be silent while a reply is due, None for any number;
        after that `TimedOut` is raised. `log` is called after each line. Raises `NoProgram` and `OSError`.
        """
        if timeout is not None and not timeout > 0:
            raise ValueError(f"a timeout is more than 0 seconds, and not {timeout}")
        words_given = list(command) if command else [find_program()]
        if mode is not None:
            words_given.append(mode)
        elif len(words_given) == 1 and SUPPOSE in modes_of(words_given[0], timeout):
            words_given.append(SUPPOSE)
        self._has_suppositions = words_given[1:] == [SUPPOSE]
        self._command = words_given
        self._timeout = timeout
        self._stream = Stream(words_given, timeout)
        self._log = log
        self._lines_given = 0
        # Why the map is of no use, where it is.
        self._fault: Optional[str] = None
        self._standing = _Standing({}, set())
        # What stands below each supposition of the program, the last on top.
        self._below: List[_Standing] = []
        # The last number of each word that `new` made names of.
        self.names_made_up: Dict[str, int] = {}

    def __enter__(self) -> "TimeMap":
        return self

    def __exit__(
        self,
        kind: Optional[Type[BaseException]],
        error: Optional[BaseException],
        trace: Optional[TracebackType],
    ) -> None:
        self.close()

    @property
    def process(self) -> "subprocess.Popen[bytes]":
        """The program."""
        return self._stream.process

    @property
    def new(self) -> New:
        """Declares as the methods below do, gives handles, and makes up names."""
        return New(self)

    def is_declared(self, name: str) -> bool:
        """Whether a premise or a fact of this name stands, without asking. All names share one space."""
        return name in self._standing.premises or name in self._standing.facts

    @property
    def is_usable(self) -> bool:
        """Whether the map takes lines: it is not closed, and nothing went wrong with its program."""
        return self._stream.is_open and self._fault is None

    def close(self) -> int:
        """Ends the script, waits for the program, and gives its exit status.

        A program that does not end though its input did is ended after 10 seconds.
        """
        return self._stream.close()

    # ---- lines and replies

    def send(self, line: str) -> Optional[Reply]:
        """Gives one line of a script, and takes its reply. A comment or a blank line has none.

        A refusal is a reply here, and want of memory too: neither is raised.
        """
        return self._reply(line, _encoded(line), _first_word(line))

    def send_all(self, lines: Iterable[str]) -> List[Optional[Reply]]:
        """Gives lines of a script by one fence, and takes the reply to each, as `send` does."""
        given = list(lines)
        data = b"".join([_encoded(line) for line in given]) + _FENCE
        self._want_usable()
        first = self._lines_given + 1
        fence = first + len(given)
        try:
            self._lines_given = fence
            told = dict(parse_replies(shown(self._stream.lines(data, first, fence))))
            replies = [told.get(number) for number in range(first, fence)]
            for at, (line, reply) in enumerate(zip(given, replies), first):
                self._note_reply(at, line, reply)
        except BaseException as error:
            self._give_up(error)
            raise
        if self._log is not None:
            for line, reply in zip(given, replies):
                self._log(line, reply)
        return replies

    def _reply(self, line: str, data: bytes, word: str) -> Optional[Reply]:
        self._want_usable()
        number = self._lines_given + 1
        reply: Optional[Reply] = None
        try:
            if word in _OF_ONE_LINE:
                self._lines_given = number
                reply = parse_reply(shown(self._stream.line(data, number)), number)
            else:
                self._lines_given = number + 1
                received = self._stream.lines(data + _FENCE, number, number + 1)
                if received:
                    reply = parse_reply(shown(received), number)
            self._note_reply(number, line, reply)
        except BaseException as error:
            self._give_up(error)
            raise
        if self._log is not None:
            self._log(line, reply)
        return reply

    def _want_usable(self) -> None:
        """Raises where the map takes no lines."""
        if self._fault is not None:
            raise ProtocolError(self._fault)
        if not self._stream.is_open:
            raise ProgramEnded(self.close())

    def _give_up(self, error: BaseException) -> None:
        """An exchange was not finished: whatever comes next would be taken for the reply to another line."""
        if not isinstance(error, ProgramEnded):
            self._fault = f"the map is of no use since an exchange was not finished: {error!r}"
            self._stream.kill()

    def _note_reply(self, number: int, line: str, reply: Optional[Reply]) -> None:
        """Keeps what stands after the line of this number."""
        if isinstance(reply, Changes):
            self._note(line, reply)

    def _note(self, line: str, changes: Changes) -> None:
        """Keeps what stands after an edit that was taken."""
        first, *rest = line.split()
        standing = self._standing
        if first in _PREMISES:
            standing.premises[rest[0]] = " ".join([first, *rest])
            if first == "class":
                standing.facts.update(rest[1:])
        elif first == "erase":
            for name in changes.erased:
                word, _, *others = standing.premises.pop(name).split()
                if word == "class":
                    standing.facts.difference_update(others)
        elif first == "horizon":
            standing.horizon = int(rest[0])
        elif first == "suppose":
            self._below.append(standing.copy())
        elif first == "keep":
            self._below.pop()
        elif first == "drop":
            self._standing = self._below.pop()
        elif first == "tmm":
            standing.version = int(rest[0])

    def _answer(self, kind: Type[ReplyKind], word: str, line: str) -> ReplyKind:
        return self._wanted(kind, line, self._reply(line, line.encode() + b"\n", word))

    def _answers(self, kind: Type[ReplyKind], lines: List[str]) -> List[ReplyKind]:
        return [self._wanted(kind, line, reply) for line, reply in zip(lines, self.send_all(lines))]

    def _wanted(self, kind: Type[ReplyKind], line: str, reply: Optional[Reply]) -> ReplyKind:
        """The reply, where it is of this kind. Raises `Refused`, `OutOfMemory` and `ProtocolError`."""
        if isinstance(reply, kind):
            return reply
        if isinstance(reply, Refusal):
            raise refused(line, reply)
        if isinstance(reply, NoMemory):
            raise OutOfMemory(f"no memory for `{line}`")
        error = ProtocolError(f"`{line}` is answered by {reply!r}")
        self._give_up(error)
        raise error

    def _edit(self, word: str, line: str) -> Changes:
        return self._answer(Changes, word, line)

    # ---- other edits

    def upgrade(self) -> Changes:
        """Opens version 2 of the script, from the empty map alone.

        In it rules may have exceptions, and facts of two classes may contradict each other.
        """
        return self._answer(Changes, "tmm", "tmm 2")

    def change(self, name: str, lower: Optional[int] = None, upper: Optional[int] = None) -> Tuple[Changes, Changes]:
        """Gives a standing constraint other bounds. It then stands last.

        Gives what erasing it changed, and what giving it anew did. A refusal leaves all as it was.
        """
        word, _, *points = self._standing.premises.get(name, "none -").split()
        if word != "dist":
            raise ValueError(f"no constraint {name!r} stands")
        line = f"dist {name} {' '.join(points[:2])} {words.bounds(lower, upper)}"
        # Two edits are undone sooner than a whole map is taken twice.
        before = self.mark()
        try:
            return self.erase(name), self._answer(Changes, "dist", line)
        except BaseException:
            if self.is_usable:
                self.back(before)
            raise

    def apply(self, repair: Repair) -> Tuple[Changes, ...]:
        """Makes a change that `repairs` told, and gives what each of its edits changed.

        A constraint that is added gets the first of the names `repair-0`, `repair-1` and so on that is free; one
        that is loosened then stands last. A refusal leaves all as it was.
        """
        if isinstance(repair, ErasedPremise):
            return (self.erase(repair.premise),)
        if isinstance(repair, AddedConstraint):
            return (self.dist(self._free_name(), repair.origin, repair.target, repair.lower),)
        word, *_, lower, upper = self._standing.premises.get(repair.constraint, "none * *").split()
        if word != "dist" or "*" in (lower, upper):
            raise ValueError(f"no constraint {repair.constraint!r} with two bounds stands")
        if repair.side is Side.LOWER:
            return self.change(repair.constraint, None, int(upper))
        return self.change(repair.constraint, int(lower), None)

    def _free_name(self) -> str:
        """The first of the names `repair-0`, `repair-1` and so on that is not declared."""
        return next(name for name in map("repair-{}".format, count()) if not self.is_declared(name))

    # ---- trying out

    @property
    def premises(self) -> Tuple[str, ...]:
        """The standing premises as lines of a script, in their order: those of `dump`, without asking."""
        return tuple(self._standing.premises.values())

    @property
    def horizon_date(self) -> int:
        """The date up to which effects are believed, without asking."""
        return self._standing.horizon

    def mark(self) -> Mark:
        """What stands now, to come `back` to."""
        return Mark(self.premises, self._standing.horizon, self._standing.version)

    def back(self, mark: Mark) -> None:
        """Undoes what was edited since the mark: the same premises stand in the same order.

        Raises `OutOfMemory`, after which it may be tried again, and `TmmError` for version 2 of the
        script, which no line takes back.
        """
        replies = self.send_all(self._lines_back(mark))
        if not all(isinstance(reply, Changes) for reply in replies):
            # On the way some rule may have brought about too much. Up to the date 0 none brings about anything.
            lines = ["horizon 0", *self._lines_back(mark), f"horizon {mark.horizon}"]
            for line, reply in zip(lines, self.send_all(lines)):
                self._wanted(Changes, line, reply)
        if self._standing.version != mark.version:
            raise TmmError("version 2 of the script stays: no line takes it back")

    def suppose(self) -> Supposition:
        """A block that tries out: `with time_map.suppose() as supposed:`.

        Where it is left, however that is, its edits are undone, unless `supposed.keep()` was called. Of a
        program in the mode `suppose` it is a supposition, and else its edits are undone by edits, as by
        `back`. Raises `OutOfMemory` where it is entered or left, after which what stood stands.
        """
        return Supposition(self)

    def _begin_supposition(self) -> int:
        """How many suppositions of the program stand with one that is begun here.

        It is 0 where none is begun: the program has no such mode, or as many stand as there may be.
        """
        if not self._has_suppositions or len(self._below) == MOST_SUPPOSITIONS:
            return 0
        self._answer(Changes, "suppose", "suppose")
        return len(self._below)

    def _end_suppositions(self, depth: int, keeps: bool) -> None:
        """Ends the suppositions from the one of this depth on: they are taken over, or given up."""
        word = "keep" if keeps else "drop"
        while len(self._below) >= depth:
            self._answer(Changes, word, word)

    def _lines_back(self, mark: Mark) -> List[str]:
        """The edits from what stands to what stood. What was given before the first difference stays."""
        same = 0
        for stands, stood in zip(self._standing.premises.values(), mark.premises):
            if stands != stood:
                break
            same += 1
        # What mentions a premise was given after it, so from the last one on each is erased alone.
        erased = [f"erase {name}" for name in reversed(list(self._standing.premises)[same:])]
        horizon = [f"horizon {mark.horizon}"] if mark.horizon != self._standing.horizon else []
        return [*erased, *mark.premises[same:], *horizon]

    # ---- questions

    def bounds(self, origin: str, target: str) -> Bounds:
        """The tightest bounds on `target - origin`."""
        return self._answer(Bounds, "bounds", _bounds_line(origin, target))

    def path(self, origin: str, target: str) -> Walk:
        """The upper bound on `target - origin`, and the steps of a walk that give it."""
        return self._answer(Walk, "path", _path_line(origin, target))

    def ask(self, fact: str, begin: str, end: str) -> Answer:
        """Does the fact hold throughout the interval?"""
        return self._answer(Answer, "ask", _ask_line(fact, begin, end))

    def ask_all(self, questions: Iterable[Tuple[str, str, str]]) -> List[Answer]:
        """`ask` for each fact and interval, by one fence. A refusal is raised when all are answered."""
        return self._answers(Answer, [_ask_line(*question) for question in questions])

    def bounds_all(self, pairs: Iterable[Tuple[str, str]]) -> List[Bounds]:
        """`bounds` for each pair, by one fence. A refusal is raised when all are answered."""
        return self._answers(Bounds, [_bounds_line(*pair) for pair in pairs])

    def path_all(self, pairs: Iterable[Tuple[str, str]]) -> List[Walk]:
        """`path` for each pair, by one fence. A refusal is raised when all are answered."""
        return self._answers(Walk, [_path_line(*pair) for pair in pairs])

    def dates(self, places: Optional[Iterable[str]] = None) -> Dict[str, Bounds]:
        """The earliest and the latest date of each of these, or else of each declared point.

        Declared points are events, tokens, spans and their ends too, in the order of their premises. A
        latest date is None where there is no limit.
        """
        asked = self._points() if places is None else list(places)
        return dict(zip(asked, self.bounds_all(("start", place) for place in asked)))

    def _points(self) -> List[str]:
        points = []
        for premise in self._standing.premises.values():
            word, name, *_ = premise.split()
            if word in ("point", "event", "token", "span"):
                points.append(name)
            if word == "span":
                points.append(f"{name}.end")
        return points

    def why(self, occurrence: str, depth: Optional[int] = None) -> Tuple[Reason, ...]:
        """What the occurrence rests on.

        With a depth only so many steps are told: 1 for the reason of the occurrence itself with the orders
        that it needs, 2 for those of what that cites too, and so on.
        """
        if depth is not None and words.number(depth) < 1:
            raise ValueError(f"a depth is at least 1, and not {depth}")
        reasons = self._answer(Why, "why", f"why {words.occurrence(occurrence)}").reasons
        return reasons if depth is None else _down_to(reasons, occurrence, depth)

    def why_not(self, occurrence: str) -> Optional[WhyNot]:
        """What stands against the occurrence, followed back to a premise. None where it is believed."""
        return explain.why_not(self, occurrence)

    def threats(self) -> Threats:
        """Pairs of contradicting tokens whose order is open, and effects past the horizon."""
        return explain.threats(self)

    def check(self) -> Tuple[Broken, ...]:
        """The broken protections."""
        return self._answer(Check, "check", "check").broken

    def repairs(self, protection: str) -> Tuple[Repair, ...]:
        """The small changes that mend the broken protection and break no other; none where it is not broken.

        The map has to run in the mode `repairs`: in any other the program refuses the line for its form.
        """
        return self._answer(Repairs, "repairs", f"repairs {words.name(protection)}").repairs

    def list(self) -> Tuple[Row, ...]:
        """All believed occurrences, by their earliest dates."""
        return self._answer(Listing, "list", "list").rows

    def timeline(self) -> Timeline:
        """What happens where each point comes at its earliest date, and each effect after its least delay.

        A program in the mode `timeline` is asked itself. Else what stands is given to one that is started in
        that mode for it. Raises `Refused` where too much happens, and `TmmError` for a program that has no
        such mode.
        """
        if self._command[1:] == [TIMELINE]:
            return self._answer(Timeline, "timeline", "timeline")
        program = self._command[0]
        if TIMELINE not in modes_of(program, self._timeout):
            raise TmmError(f"{program} tells no timeline")
        standing = self._standing
        lines = ["tmm 2"] if standing.version == 2 else []
        # Up to the date 0 no rule brings about anything, so that nothing is too large on the way.
        lines += ["horizon 0", *standing.premises.values(), f"horizon {standing.horizon}"]
        with TimeMap([program, TIMELINE], timeout=self._timeout) as played:
            played._answers(Changes, lines)
            return played.timeline()

    def dump(self) -> Dump:
        """The horizon, and the standing premises as lines of a script."""
        return self._answer(Dump, "dump", "dump")

    def size(self) -> int:
        """The size of the map."""
        return self._answer(Size, "size", "size").number

    def audit(self) -> None:
        """Has what is believed found anew from the premises, and compared with what is kept."""
        self._answer(Audit, "audit", "audit")


def _bounds_line(origin: str, target: str) -> str:
    return f"bounds {words.place(origin)} {words.place(target)}"


def _path_line(origin: str, target: str) -> str:
    return f"path {words.place(origin)} {words.place(target)}"


def _ask_line(fact: str, begin: str, end: str) -> str:
    return f"ask {words.name(fact)} {words.place(begin)} {words.place(end)}"


def _down_to(reasons: Tuple[Reason, ...], occurrence: str, depth: int) -> Tuple[Reason, ...]:
    """The reasons that so many steps down from the occurrence lead to, in their order."""
    cited = {occurrence}
    for _ in range(depth - 1):
        for reason in reasons:
            if isinstance(reason, EffectReason) and reason.effect in cited:
                cited = cited | {reason.event, *reason.supporters}
    told: List[Reason] = []
    orders: List[Reason] = []
    for reason in reasons:
        # The orders that an effect needs come directly before it.
        if isinstance(reason, OrderReason):
            orders.append(reason)
            continue
        if (reason.effect if isinstance(reason, EffectReason) else reason.premise) in cited:
            told += [*orders, reason]
        orders = []
    return tuple(told)


# ---- a whole script at once


@dataclass(frozen=True)
class Transcript:
    """The replies to a script by the numbers of its lines, and the exit status of the program.

    Comments and blank lines have no reply. A refusal is a reply, and want of memory too.
    """

    replies: Dict[int, Reply]
    status: int


def run_script(
    lines: Iterable[str], command: Optional[Sequence[str]] = None, *, timeout: Optional[float] = None
) -> Transcript:
    """Gives all lines to a program of their own.

    Raises `ProgramEnded` where some are not answered, and `TimedOut` where that takes more than `timeout`
    seconds; `NoProgram` and `OSError` as `TimeMap` does.
    """
    script = b"".join(_encoded(line) for line in lines)
    try:
        done = subprocess.run(
            list(command) if command else [find_program()],
            input=script,
            stdout=subprocess.PIPE,
            timeout=timeout,
        )
    except subprocess.TimeoutExpired:
        raise TimedOut(f"the script is not answered within {timeout} s") from None
    output = shown(done.stdout)
    if done.returncode not in ALL_ANSWERED:
        raise ProgramEnded(done.returncode, output)
    return Transcript(dict(parse_replies(output)), done.returncode)
