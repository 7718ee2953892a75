"""Why something is not believed, and what a planner has still to order: composed from several questions.

`why_not` follows a condition that fails back to a premise. `threats` tells pairs of tokens that contradict
each other and whose order is open, and effects that the horizon cuts off; `check` tells neither.
"""

from dataclasses import dataclass
from enum import Enum
from itertools import combinations
from typing import Dict, FrozenSet, Iterable, Iterator, List, NamedTuple, Optional, Protocol, Sequence, Set, Tuple

from tmm import words
from tmm.errors import ProtocolError
from tmm.values import Answer, Blame, BlameCause, Bounds, Row, Verdict

# ---- what is told


class Obstacle(Enum):
    """Why a rule does not bring an effect about."""

    # nothing that could be its event is declared by this name
    NO_EVENT = "event"
    # no such rule stands
    NO_RULE = "rule"
    # the rule acts on another kind of event
    OTHER_KIND = "kind"
    # a fact after `if` does not hold at the event
    CONDITION = "if"
    # a fact after `unless` holds at the event
    EXCEPTION = "unless"
    # it would come about past the horizon
    HORIZON = "horizon"


@dataclass(frozen=True)
class Failure:
    """What stands against an effect, and what that leads back to.

    `fact` is the condition or the exception, and `blames` are those of the program, where `more` are not
    told. `blame` is of the last token that might have supported the condition. `missing` is an effect that
    would have supported it, and is not believed itself. `token` upholds an exception. `date` is the
    earliest of an effect past the horizon. `premise` is the declared event, token or span at the root, None
    where there is none.
    """

    obstacle: Obstacle
    fact: Optional[str] = None
    blames: Tuple[Blame, ...] = ()
    more: int = 0
    blame: Optional[Blame] = None
    missing: Optional["WhyNot"] = None
    token: Optional[str] = None
    date: Optional[int] = None
    premise: Optional[str] = None


@dataclass(frozen=True)
class WhyNot:
    """The first effect on the way to an occurrence that is not believed, and what stands against it.

    `event` is believed, and `rule` does not bring about `effect` at it. They are None where the event
    itself is not declared. `str` tells all as a text for a person.
    """

    effect: str
    event: Optional[str]
    rule: Optional[str]
    failures: Tuple[Failure, ...]

    @property
    def premises(self) -> Tuple[str, ...]:
        """The premises that it leads back to, each once."""
        return tuple(dict.fromkeys(each.premise for each in self.failures if each.premise is not None))

    def __str__(self) -> str:
        return "\n".join(self._lines(""))

    def _lines(self, indent: str) -> Iterator[str]:
        yield f"{indent}{self.effect} is not believed:"
        for failure in self.failures:
            yield f"{indent}  {self._said(failure)}"
            if failure.missing is not None:
                yield from failure.missing._lines(indent + "    ")

    def _said(self, failure: Failure) -> str:
        if failure.obstacle is Obstacle.NO_EVENT:
            return f"no event, token or span {self.effect} is declared"
        if failure.obstacle is Obstacle.NO_RULE:
            return f"no rule {self.rule} stands"
        if failure.obstacle is Obstacle.OTHER_KIND:
            return f"{self.rule} does not act on what {self.event} is"
        if failure.obstacle is Obstacle.HORIZON:
            return f"it would be due at {failure.date}, past the horizon"
        if failure.obstacle is Obstacle.EXCEPTION:
            return f"{self.rule} is barred at {self.event}: {failure.fact} holds by {_of(failure.token, failure.premise)}"
        return f"{self.rule} wants {failure.fact} at {self.event}, and {_lack(failure)}"


def _of(token: Optional[str], premise: Optional[str]) -> str:
    return f"{token}" if token == premise else f"{token}, which comes of {premise}"


def _lack(failure: Failure) -> str:
    """Why the condition does not hold."""
    blame = failure.blame
    if failure.missing is not None:
        return f"{failure.missing.effect} would have led to it:"
    if blame is None:
        return "nothing brings that about in time"
    if blame.cause is BlameCause.CLIPPED:
        return f"{blame.token} is clipped by {_of(blame.by, failure.premise)}"
    if blame.cause is BlameCause.ENDS:
        return f"{blame.token} may end before"
    return f"{blame.token} may begin later"


@dataclass(frozen=True)
class Threat:
    """Two tokens that contradict each other, neither of which surely begins before the other.

    So both facts may hold. `bounds` are those of `second` less `first`.
    """

    first: str
    second: str
    bounds: Bounds

    @property
    def at_one_date(self) -> bool:
        """They surely begin at the same date."""
        return self.bounds == Bounds(0, 0)


@dataclass(frozen=True)
class CutOff:
    """An effect whose rule would fire, but which is due past the horizon: from this date on."""

    effect: str
    date: int


@dataclass(frozen=True)
class Shared:
    """Two events that rest on one token of a fact which each of them takes away, as two jobs on one machine.

    A rule on each wants the fact and makes one that contradicts it, and still both find it to hold: their
    order is open, or the first takes it too late for the second to see.
    """

    token: str
    first: str
    second: str


@dataclass(frozen=True)
class Threats:
    """What a planner has still to order, and what the horizon hides."""

    pairs: Tuple[Threat, ...] = ()
    shared: Tuple[Shared, ...] = ()
    cut_off: Tuple[CutOff, ...] = ()


# ---- what it is composed from


class Questions(Protocol):
    """What is asked of a map."""

    @property
    def premises(self) -> Tuple[str, ...]: ...

    @property
    def horizon_date(self) -> int: ...

    def list(self) -> Tuple[Row, ...]: ...

    def ask_all(self, questions: Iterable[Tuple[str, str, str]]) -> List[Answer]: ...

    def bounds_all(self, pairs: Iterable[Tuple[str, str]]) -> List[Bounds]: ...


class Rule(NamedTuple):
    """A rule as it is declared."""

    name: str
    kind: str
    lower: int
    upper: Optional[int]
    effect: str
    given: Tuple[str, ...]
    unless: Tuple[str, ...]


def rule_of(premise: Sequence[str]) -> Rule:
    """The rule of a premise, given as its words."""
    _, name, kind, lower, upper, effect, *condition = premise
    # No fact has the name of one of these words.
    end = condition.index("unless") if "unless" in condition else len(condition)
    given, unless = tuple(condition[:end][1:]), tuple(condition[end:][1:])
    return Rule(name, kind, int(lower), None if upper == "*" else int(upper), effect, given, unless)


class Chain(NamedTuple):
    """An effect that is not believed, and the rules from there on that would lead to a fact.

    It starts at the believed `event`; `lower` and `upper` are the delay of the fact after it.
    """

    event: str
    effect: str
    lower: int
    upper: Optional[int]


class _Situation:
    """What stands and what is believed while questions are put."""

    def __init__(self, time_map: Questions) -> None:
        self.map = time_map
        self.rows = {row.occurrence: row for row in time_map.list()}
        self.rules: Dict[str, Rule] = {}
        self.spans: Set[str] = set()
        self._classes: Dict[str, str] = {}
        self._against: Set[FrozenSet[str]] = set()
        for premise in time_map.premises:
            word, name, *rest = premise.split()
            if word == "rule":
                self.rules[name] = rule_of(premise.split())
            elif word == "span":
                self.spans.add(name)
            elif word == "class":
                self._classes.update((fact, name) for fact in rest)
            elif word == "against":
                self._against.add(frozenset(rest))
        # What is being explained, which is no explanation of itself.
        self._open: Set[str] = set()

    def contradict(self, one: str, other: str) -> bool:
        """Whether the two are facts that contradict each other."""
        if one not in self._classes or other not in self._classes or one == other:
            return False
        return self._classes[one] == self._classes[other] or frozenset([one, other]) in self._against

    def is_fact(self, word: str) -> bool:
        """Whether this is a fact; else it is a kind."""
        return word in self._classes

    def due(self, event: str, rule: Rule) -> int:
        """The earliest date of what the rule makes of the event."""
        return self.rows[event].earliest + rule.lower

    # ---- why not

    def why_not(self, occurrence: str) -> Optional[WhyNot]:
        """What stands against the occurrence, None where it is believed."""
        event, *rules = occurrence.split("/")
        if event not in self.rows:
            return WhyNot(event, None, None, (Failure(Obstacle.NO_EVENT),))
        for rule in rules:
            effect = f"{event}/{rule}"
            if effect not in self.rows:
                return self._against_effect(effect, event, rule)
            event = effect
        return None

    def _against_effect(self, effect: str, event: str, name: str) -> WhyNot:
        rule = self.rules.get(name)
        if rule is None:
            return WhyNot(effect, event, name, (Failure(Obstacle.NO_RULE),))
        if rule.kind != self.rows[event].what:
            return WhyNot(effect, event, name, (Failure(Obstacle.OTHER_KIND),))
        self._open.add(effect)
        failures: List[Failure] = []
        answers = self.map.ask_all([(fact, event, event) for fact in [*rule.given, *rule.unless]])
        for fact, answer in zip(rule.given, answers):
            if answer.verdict is Verdict.NO:
                failures.append(self._lacking(fact, event, answer))
        for fact, answer in zip(rule.unless, answers[len(rule.given):]):
            if answer.supporter is not None:
                failures.append(
                    Failure(
                        Obstacle.EXCEPTION, fact, token=answer.supporter, premise=premise_of(answer.supporter)
                    )
                )
        if self.due(event, rule) > self.map.horizon_date:
            failures.append(Failure(Obstacle.HORIZON, date=self.due(event, rule)))
        self._open.discard(effect)
        if not failures:
            raise ProtocolError(f"{effect} is not believed, though nothing stands against it")
        return WhyNot(effect, event, name, tuple(failures))

    def _lacking(self, fact: str, event: str, answer: Answer) -> Failure:
        """Why the fact does not hold at the event: what would have brought it about, or what took it away."""
        clipping = self._in_time([row.occurrence for row in self.rows.values() if self.contradict(row.what, fact)], event)
        missing = self._missing(fact, event, clipping)
        blame = self._last_blame(fact, event, clipping)
        premise = None
        if missing is not None:
            premise = next(iter(missing.premises), None)
        elif blame is not None:
            premise = premise_of(blame.by or blame.token)
        return Failure(Obstacle.CONDITION, fact, answer.blames, answer.more, blame, missing, premise=premise)

    def _in_time(self, tokens: List[str], event: str) -> List[str]:
        """Those that surely begin at or before the event."""
        distances = self.map.bounds_all([(token, event) for token in tokens])
        return [token for token, bounds in zip(tokens, distances) if _at_least(bounds, 0)]

    def _last_blame(self, fact: str, event: str, clipping: List[str]) -> Optional[Blame]:
        """Why the last token of the fact that is in time does not support it; or the first, where none is."""
        tokens = [row.occurrence for row in self.rows.values() if row.what == fact]
        in_time = self._in_time(tokens, event)
        if not in_time:
            return Blame(tokens[0], BlameCause.LATE) if tokens else None
        last = in_time[-1]
        after = self.map.bounds_all([(last, token) for token in clipping])
        for token, bounds in zip(clipping, after):
            if _at_least(bounds, 1):
                return Blame(last, BlameCause.CLIPPED, token)
        return Blame(last, BlameCause.ENDS)

    def _missing(self, fact: str, event: str, clipping: List[str]) -> Optional[WhyNot]:
        """The last effect that would have led to the fact in time, and would not have been clipped by then."""
        chains = [chain for chain in self._chains(fact) if chain.upper is not None and chain.effect not in self._open]
        starts = list(dict.fromkeys(chain.event for chain in chains))
        # from each start to the event, and to each token that clips
        ends = [event, *clipping]
        distances = iter(self.map.bounds_all([(start, end) for start in starts for end in ends]))
        after = {start: [next(distances) for _ in ends] for start in starts}
        found: List[Tuple[int, str, str]] = []
        for chain in chains:
            upper = chain.upper or 0
            to_event, *to_clipping = after[chain.event]
            if _at_least(to_event, upper) and not any(_at_least(bounds, upper + 1) for bounds in to_clipping):
                found.append((self.rows[chain.event].earliest + chain.lower, chain.effect, chain.event))
        if not found:
            return None
        _, effect, start = max(found)
        return self._against_effect(effect, start, effect.rsplit("/", 1)[1])

    def _chains(self, fact: str) -> Iterator[Chain]:
        """The effects of believed events that are not believed, where rules lead on from them to the fact."""
        makers = self._delays_to(fact)
        on_kind: Dict[str, List[Rule]] = {}
        for rule in self.rules.values():
            on_kind.setdefault(rule.kind, []).append(rule)
        for row in self.rows.values():
            for rule in on_kind.get(row.what, []):
                effect = f"{row.occurrence}/{rule.name}"
                if rule.effect in makers and effect not in self.rows:
                    lower, upper = makers[rule.effect]
                    whole = None if rule.upper is None or upper is None else rule.upper + upper
                    yield Chain(row.occurrence, effect, rule.lower + lower, whole)

    def _delays_to(self, fact: str) -> Dict[str, Tuple[int, Optional[int]]]:
        """For the fact, and each kind from which rules lead to it, the delay of the way by fewest rules."""
        delays: Dict[str, Tuple[int, Optional[int]]] = {fact: (0, 0)}
        reached = [fact]
        while reached:
            step: List[str] = []
            for rule in self.rules.values():
                if rule.effect in reached and rule.kind not in delays:
                    lower, upper = delays[rule.effect]
                    whole = None if rule.upper is None or upper is None else rule.upper + upper
                    delays[rule.kind] = (rule.lower + lower, whole)
                    step.append(rule.kind)
            reached = step
        return delays

    # ---- threats

    def pairs(self) -> Iterator[Threat]:
        """The pairs that contradict each other and whose order is open, by their earliest dates."""
        tokens = [row for row in self.rows.values() if self.is_fact(row.what)]
        dates = self.map.bounds_all([("start", row.occurrence) for row in tokens])
        open_pairs: List[Tuple[str, str]] = []
        for at, (row, date) in enumerate(zip(tokens, dates)):
            for other in tokens[at + 1:]:
                # They come by their earliest dates, so all that follow are surely later.
                if date.upper is not None and date.upper < other.earliest:
                    break
                if self.contradict(row.what, other.what):
                    open_pairs.append((row.occurrence, other.occurrence))
        for (first, second), bounds in zip(open_pairs, self.map.bounds_all(open_pairs)):
            if not _at_least(bounds, 1) and not (bounds.upper is not None and bounds.upper <= -1):
                yield Threat(first, second, bounds)

    def shared(self) -> Iterator[Shared]:
        """The pairs of events that take one token, by their earliest dates."""
        # the events that take a fact, and the fact
        taking = dict.fromkeys(
            (row.occurrence, fact)
            for row in self.rows.values()
            for rule in self.rules.values()
            if rule.kind == row.what and f"{row.occurrence}/{rule.name}" in self.rows
            for fact in rule.given
            if self.contradict(fact, rule.effect)
        )
        by_token: Dict[str, List[str]] = {}
        for (event, _), answer in zip(taking, self.map.ask_all([(fact, event, event) for event, fact in taking])):
            if answer.supporter is not None:
                by_token.setdefault(answer.supporter, []).append(event)
        for token, events in by_token.items():
            for first, second in combinations(events, 2):
                yield Shared(token, first, second)

    def cut_off(self) -> Iterator[CutOff]:
        """The effects that would be believed if the horizon were further."""
        late = [
            (row.occurrence, rule)
            for row in self.rows.values()
            for rule in self.rules.values()
            if rule.kind == row.what and self.due(row.occurrence, rule) > self.map.horizon_date
        ]
        asked = [(fact, event, event) for event, rule in late for fact in [*rule.given, *rule.unless]]
        answers = iter(self.map.ask_all(asked))
        for event, rule in late:
            holding = [next(answers).verdict is Verdict.YES for _ in [*rule.given, *rule.unless]]
            if all(holding[: len(rule.given)]) and not any(holding[len(rule.given):]):
                yield CutOff(f"{event}/{rule.name}", self.due(event, rule))


def _at_least(bounds: Bounds, least: int) -> bool:
    return bounds.lower is not None and bounds.lower >= least


def premise_of(occurrence: str) -> str:
    """The declared event, token or span that an occurrence comes of."""
    return occurrence.split("/", 1)[0]


def why_not(time_map: Questions, occurrence: str) -> Optional[WhyNot]:
    """What stands against the occurrence, None where it is believed. Raises as the questions do."""
    return _Situation(time_map).why_not(words.occurrence(occurrence))


def threats(time_map: Questions) -> Threats:
    """The pairs whose order is open, and the effects that the horizon cuts off. Raises as the questions do."""
    situation = _Situation(time_map)
    return Threats(tuple(situation.pairs()), tuple(situation.shared()), tuple(situation.cut_off()))
