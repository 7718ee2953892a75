"""The lines that edit, as methods."""

from typing import Generic, Optional, Sequence, TypeVar, Union

from tmm import words

# What comes back when such a line is given.
Told = TypeVar("Told")


class Edits(Generic[Told]):
    """A method for each line that edits. What becomes of the line is up to who takes it.

    Arguments that no line can have are a `ValueError`, and then nothing is given.
    """

    def _edit(self, word: str, line: str) -> Told:
        """Gives a line that begins with this word."""
        raise NotImplementedError

    # ---- premises

    def point(self, name: str) -> Told:
        """Declares a point."""
        return self._edit("point", f"point {words.name(name)}")

    def dist(
        self, name: str, origin: str, target: str, lower: Optional[int] = None, upper: Optional[int] = None
    ) -> Told:
        """`lower <= target - origin <= upper`; one of the two may be None, for no bound."""
        return self._edit(
            "dist",
            f"dist {words.name(name)} {words.point(origin)} {words.point(target)} {words.bounds(lower, upper)}",
        )

    def class_(self, name: str, *facts: str) -> Told:
        """Declares a class and its facts, each of which contradicts the others."""
        return self._edit("class", " ".join(["class", words.name(name), *words.facts(facts, words.MOST_FACTS, 1)]))

    def token(self, name: str, fact: str) -> Told:
        """The fact begins to hold at the token, and persists."""
        return self._edit("token", f"token {words.name(name)} {words.name(fact)}")

    def span(self, name: str, fact: str) -> Told:
        """The fact holds from NAME to NAME.end, at least 1 later."""
        return self._edit("span", f"span {words.name(name)} {words.name(fact)}")

    def kind(self, name: str) -> Told:
        """Declares a kind of event."""
        return self._edit("kind", f"kind {words.name(name)}")

    def event(self, name: str, kind: str) -> Told:
        """Declares an event of a kind."""
        return self._edit("event", f"event {words.name(name)} {words.name(kind)}")

    def rule(
        self,
        name: str,
        kind: str,
        lower: int,
        upper: Optional[int],
        effect: str,
        given: Union[str, Sequence[str]] = (),
        unless: Union[str, Sequence[str]] = (),
    ) -> Told:
        """An event of the kind makes the effect, a fact or a kind, `lower` to `upper` later.

        Where facts are given, it does so only where each of them holds at the event; in version 2 it may
        have exceptions, and then does so only where none of these holds there.
        """
        condition = words.clause("if", given, words.MOST_CONDITIONS)
        exceptions = words.clause("unless", unless, words.MOST_EXCEPTIONS)
        return self._edit(
            "rule",
            f"rule {words.name(name)} {words.name(kind)} {words.delay(lower, upper)} {words.name(effect)}"
            f"{condition}{exceptions}",
        )

    def protect(self, name: str, fact: str, begin: str, end: str) -> Told:
        """The fact is to hold throughout the interval."""
        return self._edit(
            "protect",
            f"protect {words.name(name)} {words.name(fact)} {words.point(begin)} {words.point(end)}",
        )

    def against(self, name: str, one: str, other: str) -> Told:
        """The two facts contradict each other, of whichever classes they are; in version 2 alone."""
        if one == other:
            raise ValueError(f"{one!r} does not contradict itself")
        return self._edit(
            "against", f"against {words.name(name)} {words.name(one)} {words.name(other)}"
        )

    # ---- the other edits

    def horizon(self, date: int) -> Told:
        """No effect is believed whose earliest date is past this one."""
        return self._edit("horizon", f"horizon {words.horizon(date)}")

    def erase(self, name: str) -> Told:
        """Retracts a premise and all that mentions it."""
        return self._edit("erase", f"erase {words.name(name)}")
