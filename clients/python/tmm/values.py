"""What replies say, as values. docs/SCRIPT.md says what each of them means."""

from dataclasses import dataclass
from enum import Enum
from typing import Optional, Tuple, Union


class Side(Enum):
    """What of its premise a step is."""

    UPPER = "hi"
    LOWER = "lo"
    # no point is before `start`
    BASE = "base"
    # a span lasts at least 1
    LENGTH = "length"


@dataclass(frozen=True)
class Step:
    """By this side of this premise, `target` less `origin` is at most `weight`."""

    premise: str
    side: Side
    origin: str
    target: str
    weight: int

    def __str__(self) -> str:
        return f"{self.premise} {self.side.value} {self.origin} {self.target} {self.weight}"


class BlameCause(Enum):
    """Why a token does not support a fact."""

    # it does not surely begin in time
    LATE = "late"
    # another token clips it
    CLIPPED = "clipped"
    # it is a span that may end too early
    ENDS = "ends"


@dataclass(frozen=True)
class Blame:
    """A token that does not support a fact, and why; `by` is what clips it."""

    token: str
    cause: BlameCause
    by: Optional[str] = None


@dataclass(frozen=True)
class Clip:
    """A token, and the first that clips it."""

    token: str
    by: str


@dataclass(frozen=True)
class Broken:
    """A broken protection: its interval may be out of order, or no token supports its fact.

    So many blames as `more` says are not told.
    """

    protection: str
    unordered: bool = False
    blames: Tuple[Blame, ...] = ()
    more: int = 0


@dataclass(frozen=True)
class Changes:
    """What an edit changed."""

    # premises that stand no longer
    erased: Tuple[str, ...] = ()
    # effects that are believed no longer, and those that are newly believed
    left: Tuple[str, ...] = ()
    entered: Tuple[str, ...] = ()
    # tokens that are clipped no longer, and those that are newly clipped, or by another token
    loosened: Tuple[str, ...] = ()
    clips: Tuple[Clip, ...] = ()
    # protections that are newly broken, and those that are broken no longer
    broken: Tuple[Broken, ...] = ()
    mended: Tuple[str, ...] = ()


@dataclass(frozen=True)
class Bounds:
    """The least and the greatest distance of two points, None where there is no limit."""

    lower: Optional[int]
    upper: Optional[int]


@dataclass(frozen=True)
class Walk:
    """The greatest distance of two points, None where there is no limit, and steps that give it."""

    upper: Optional[int]
    steps: Tuple[Step, ...] = ()


class Verdict(Enum):
    """Whether a fact holds throughout an interval."""

    YES = "yes"
    NO = "no"


@dataclass(frozen=True)
class Answer:
    """Whether a fact holds: a yes has the token that supports it, a no has blames.

    So many blames as `more` says are not told.
    """

    verdict: Verdict
    supporter: Optional[str] = None
    blames: Tuple[Blame, ...] = ()
    more: int = 0


@dataclass(frozen=True)
class PremiseReason:
    """The premise of this name declares it."""

    premise: str


@dataclass(frozen=True)
class OrderReason:
    """`first` is surely at or before `second`: `first` less `second` is at most `at_most`, by these steps."""

    first: str
    second: str
    at_most: int
    steps: Tuple[Step, ...]


@dataclass(frozen=True)
class EffectReason:
    """The effect is what the rule makes of the event, where these tokens support the rule's facts.

    None of the rule's exceptions, facts too, holds there.
    """

    effect: str
    rule: str
    event: str
    supporters: Tuple[str, ...] = ()
    exceptions: Tuple[str, ...] = ()


Reason = Union[PremiseReason, OrderReason, EffectReason]


@dataclass(frozen=True)
class Why:
    """What an occurrence rests on; each reason comes after those that it cites."""

    reasons: Tuple[Reason, ...]


@dataclass(frozen=True)
class Check:
    """The broken protections."""

    broken: Tuple[Broken, ...] = ()


@dataclass(frozen=True)
class AddedConstraint:
    """Would add a constraint: `target` is at least `lower` after `origin`."""

    origin: str
    target: str
    lower: int


@dataclass(frozen=True)
class ErasedPremise:
    """Would erase a premise, and with it all that mentions it."""

    premise: str


@dataclass(frozen=True)
class LoosenedConstraint:
    """Would give up the lower or the upper bound of a constraint."""

    constraint: str
    side: Side


# A small change that mends a broken protection and breaks no other.
Repair = Union[AddedConstraint, ErasedPremise, LoosenedConstraint]


@dataclass(frozen=True)
class Repairs:
    """The small changes that mend a broken protection and break no other."""

    repairs: Tuple[Repair, ...] = ()


@dataclass(frozen=True)
class Row:
    """A believed occurrence: its earliest date, its name, its kind or fact, and what clips it."""

    earliest: int
    occurrence: str
    what: str
    clipped_by: Optional[str] = None


@dataclass(frozen=True)
class Listing:
    """All believed occurrences, by their earliest dates."""

    rows: Tuple[Row, ...] = ()


@dataclass(frozen=True)
class PointDate:
    """A declared point, and its date in a timeline: its earliest."""

    point: str
    date: int


@dataclass(frozen=True)
class Dated:
    """What occurs on a date of a timeline: its name, and its kind or fact.

    A token holds until the date `until`, None where it lasts; an event has none.
    """

    date: int
    occurrence: str
    what: str
    is_token: bool = False
    until: Optional[int] = None


@dataclass(frozen=True)
class Timeline:
    """What happens where each point comes at its earliest date, by date and then by name."""

    points: Tuple[PointDate, ...] = ()
    rows: Tuple[Dated, ...] = ()


@dataclass(frozen=True)
class Dump:
    """The horizon, and the standing premises, each as the line that declares it; and the version."""

    horizon: int
    premises: Tuple[str, ...] = ()
    version: int = 1


@dataclass(frozen=True)
class Size:
    """The size of the map."""

    number: int


@dataclass(frozen=True)
class Audit:
    """What is kept was found anew, and is right: there is no other answer."""


class Cause(Enum):
    """Why a line is refused."""

    LINE_TOO_LONG = "limit line"
    FORM = "form"
    TAKEN = "taken"
    UNKNOWN = "unknown"
    SORT = "sort"
    TOO_MANY_PREMISES = "limit premises"
    TOO_MANY_POINTS = "limit points"
    CYCLE = "cycle"
    MAP_TOO_LARGE = "limit size"
    UNORDERED = "unordered"
    # eight suppositions stand, and none
    TOO_MANY_SUPPOSITIONS = "limit suppose"
    NO_SUPPOSITION = "suppose"
    # an edit without an agent; 100 edits are held for it; edits of 64 others are held
    NO_AGENT = "agent"
    TOO_MANY_EDITS_HELD = "limit batch"
    TOO_MANY_AGENTS = "limit agents"


@dataclass(frozen=True)
class Refusal:
    """A line is refused, and nothing has changed.

    `word` is the one that is taken, unknown or of the wrong sort. `sum` and `steps` are those of a cycle.
    """

    cause: Cause
    word: Optional[str] = None
    sum: Optional[int] = None
    steps: Tuple[Step, ...] = ()


@dataclass(frozen=True)
class Held:
    """An edit is held for an agent, and so many are now."""

    number: int


@dataclass(frozen=True)
class Made:
    """An edit of a batch that was made: the number of the line that held it, and what it changed."""

    held_at: int
    changes: Changes


@dataclass(frozen=True)
class Batch:
    """All edits that an agent held were made, one after the other, in this order."""

    edits: Tuple[Made, ...] = ()


@dataclass(frozen=True)
class NoBatch:
    """None of the edits that an agent held was made, and none is held any longer.

    `held_at` is the number of the line that held the first one that is refused.
    """

    held_at: int
    refusal: Refusal


@dataclass(frozen=True)
class NoMemory:
    """There was no memory for a line, and nothing has changed."""


Reply = Union[
    Changes,
    Bounds,
    Walk,
    Answer,
    Why,
    Check,
    Listing,
    Dump,
    Size,
    Audit,
    Held,
    Batch,
    NoBatch,
    Repairs,
    Timeline,
    Refusal,
    NoMemory,
]
