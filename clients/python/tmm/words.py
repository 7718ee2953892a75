"""From arguments to the words of a line. What no line can have is a `ValueError` with the reason."""

import re
from operator import index
from typing import Callable, List, Optional, Sequence, Set, Union

GREATEST_NUMBER = 1_000_000_000
LAST_HORIZON = 100_000
MOST_FACTS = 8
MOST_CONDITIONS = 4
MOST_EXCEPTIONS = 2

_NAME = r"[A-Za-z][A-Za-z0-9_-]{0,23}"

# A client says the same words again and again, so those that were looked at are known; so many at a time.
_KNOWN = 1 << 14


def _form(pattern: str, what: str) -> Callable[[str], str]:
    """A function that gives a word back where it has this form, and else raises `ValueError`."""
    compiled = re.compile(pattern)
    known: Set[str] = set()

    def looked_at(word: str) -> str:
        if isinstance(word, str) and word in known:
            return word
        if not isinstance(word, str):
            raise ValueError(f"{word!r} is no {what}, but a {type(word).__name__}")
        if not compiled.fullmatch(word):
            raise ValueError(
                f"{word!r} is no {what}: a name has 1 to 24 letters, digits, `_` or `-`, and begins with a letter"
            )
        if len(known) == _KNOWN:
            known.clear()
        # A handle is a text too, and would keep its map from being closed.
        known.add(str(word))
        return word

    return looked_at


# a name, as a line declares it
name = _form(_NAME, "name")
# `start`, a name, or the end of a span
point = _form(rf"{_NAME}(\.end)?", "point")
# what is declared, or what rules make of an event
occurrence = _form(rf"{_NAME}(/{_NAME})*", "occurrence")
# a point or an occurrence
place = _form(rf"{_NAME}(\.end|(/{_NAME})*)", "point or occurrence")


def number(value: int) -> int:
    """A whole number that a line may have; no truth value, though Python counts these as such."""
    try:
        whole = index(value)
    except TypeError:
        raise ValueError(f"{value!r} is no whole number") from None
    if isinstance(value, bool):
        raise ValueError(f"{value!r} is no whole number, but a truth value")
    if abs(whole) > GREATEST_NUMBER:
        raise ValueError(f"{value!r} is beyond 1,000,000,000")
    return whole


def bounds(lower: Optional[int], upper: Optional[int]) -> str:
    """The two bounds of a constraint, `*` where there is none."""
    if lower is None and upper is None:
        raise ValueError("a constraint has at least one bound")
    low = None if lower is None else number(lower)
    high = None if upper is None else number(upper)
    if low is not None and high is not None and low > high:
        raise ValueError(f"the bounds are reversed: {low} is above {high}")
    return f"{'*' if low is None else low} {'*' if high is None else high}"


def delay(lower: int, upper: Optional[int]) -> str:
    """The two bounds of a rule's delay, of which the lower is at least 1."""
    if lower is None:
        raise ValueError("a rule has a least delay")
    if number(lower) < 1:
        raise ValueError(f"a rule has a delay of at least 1, and not {lower}")
    return bounds(lower, upper)


def horizon(date: int) -> int:
    """A date that may be the horizon."""
    if not 0 <= number(date) <= LAST_HORIZON:
        raise ValueError(f"a horizon is 0 to 100,000, and not {date}")
    return number(date)


def facts(words: Sequence[str], most: int, least: int = 0) -> List[str]:
    """Names of facts, neither more nor less than a line may have."""
    if not least <= len(words) <= most:
        raise ValueError(f"a line has {least} to {most} facts here, and not {len(words)}")
    return [name(word) for word in words]


def clause(word: str, chosen: Union[str, Sequence[str]], most: int) -> str:
    """The word and the facts behind it, with a blank before; nothing where there are none."""
    names = facts([chosen] if isinstance(chosen, str) else list(chosen), most)
    return "".join(f" {each}" for each in [word, *names]) if names else ""
