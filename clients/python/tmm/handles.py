"""Handles for what is declared, and names that are made up.

A handle is the name of a premise, a text that goes wherever a name does, with what can be done with it.
"""

from typing import TYPE_CHECKING, Callable, Optional, Sequence, Tuple, Type, TypeVar, Union

from tmm.values import Bounds, Broken, Changes

if TYPE_CHECKING:
    from tmm.client import TimeMap


class Handle(str):
    """The name of a premise, its map, and what declaring it changed."""

    time_map: "TimeMap"
    changes: Changes

    def erase(self) -> Changes:
        """Retracts the premise and all that mentions it."""
        return self.time_map.erase(self)


class PointHandle(Handle):
    """A point, a token, or another that has a date."""

    def dates(self) -> Bounds:
        """The earliest and the latest date, the latter None where there is no limit."""
        return self.time_map.bounds("start", self)


class SpanHandle(PointHandle):
    """A span."""

    @property
    def end(self) -> str:
        """The point where it ends."""
        return f"{self}.end"


class EventHandle(PointHandle):
    """An event."""

    def effect(self, *rules: str) -> str:
        """What the rules make of the event, each of what the one before makes."""
        return "/".join([self, *rules])


class ConstraintHandle(Handle):
    """A constraint."""

    def change(self, lower: Optional[int] = None, upper: Optional[int] = None) -> Tuple[Changes, Changes]:
        """Gives it other bounds, as `TimeMap.change` does."""
        return self.time_map.change(self, lower, upper)


class ProtectionHandle(Handle):
    """A protection."""

    def broken(self) -> Optional[Broken]:
        """How it is broken, None where it is kept."""
        return next((each for each in self.time_map.check() if each.protection == self), None)


SomeHandle = TypeVar("SomeHandle", bound=Handle)


class New:
    """Declares, and gives handles. Where no name is given, one is made up that is not declared yet.

    Raises as the methods of `TimeMap` do.
    """

    def __init__(self, time_map: "TimeMap") -> None:
        self._map = time_map

    def _declared(
        self, kind: Type[SomeHandle], word: str, name: Optional[str], declare: Callable[[str], Changes]
    ) -> SomeHandle:
        chosen = self._made_up(word) if name is None else name
        changes = declare(chosen)
        handle = kind(chosen)
        handle.time_map = self._map
        handle.changes = changes
        return handle

    def _made_up(self, word: str) -> str:
        """The word and a number behind it that was not made up before, and is free."""
        number = self._map.names_made_up.get(word, 0) + 1
        while self._map.is_declared(f"{word}{number}"):
            number += 1
        self._map.names_made_up[word] = number
        return f"{word}{number}"

    def point(self, name: Optional[str] = None) -> PointHandle:
        """A point."""
        return self._declared(PointHandle, "point", name, self._map.point)

    def dist(
        self,
        origin: str,
        target: str,
        lower: Optional[int] = None,
        upper: Optional[int] = None,
        name: Optional[str] = None,
    ) -> ConstraintHandle:
        """A constraint: `lower <= target - origin <= upper`."""
        return self._declared(
            ConstraintHandle, "dist", name, lambda chosen: self._map.dist(chosen, origin, target, lower, upper)
        )

    def class_(self, *facts: str, name: Optional[str] = None) -> Handle:
        """A class of facts."""
        return self._declared(Handle, "class", name, lambda chosen: self._map.class_(chosen, *facts))

    def token(self, fact: str, name: Optional[str] = None) -> PointHandle:
        """A token of the fact."""
        return self._declared(PointHandle, "token", name, lambda chosen: self._map.token(chosen, fact))

    def span(self, fact: str, name: Optional[str] = None) -> SpanHandle:
        """A span of the fact."""
        return self._declared(SpanHandle, "span", name, lambda chosen: self._map.span(chosen, fact))

    def kind(self, name: Optional[str] = None) -> Handle:
        """A kind of event."""
        return self._declared(Handle, "kind", name, self._map.kind)

    def event(self, kind: str, name: Optional[str] = None) -> EventHandle:
        """An event of the kind."""
        return self._declared(EventHandle, "event", name, lambda chosen: self._map.event(chosen, kind))

    def rule(
        self,
        kind: str,
        lower: int,
        upper: Optional[int],
        effect: str,
        given: Union[str, Sequence[str]] = (),
        unless: Union[str, Sequence[str]] = (),
        name: Optional[str] = None,
    ) -> Handle:
        """A rule."""
        return self._declared(
            Handle,
            "rule",
            name,
            lambda chosen: self._map.rule(chosen, kind, lower, upper, effect, given, unless),
        )

    def protect(self, fact: str, begin: str, end: str, name: Optional[str] = None) -> ProtectionHandle:
        """A protection of the fact."""
        return self._declared(
            ProtectionHandle, "protect", name, lambda chosen: self._map.protect(chosen, fact, begin, end)
        )

    def against(self, one: str, other: str, name: Optional[str] = None) -> Handle:
        """Two facts that contradict each other; in version 2 alone."""
        return self._declared(Handle, "against", name, lambda chosen: self._map.against(chosen, one, other))
