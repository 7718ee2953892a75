"""A map that several agents share: `SharedMap`, of which each `Agent` edits by whole batches."""

from typing import Dict, Optional

from tmm import words
from tmm.client import OF_AGENT, Log, TimeMap
from tmm.edits import Edits
from tmm.errors import BatchRefused, NoProgram
from tmm.program import AGENTS, find_program, modes_of
from tmm.values import Batch, Changes, Held, NoBatch, Reply


class SharedMap(TimeMap):
    """A map of version 2 that several agents share, in a `tmm agents` of its own.

    `agent` gives one of them. Questions are about what the agents have committed. An edit needs an agent:
    those of the map itself raise `Refused`.
    """

    def __init__(
        self,
        program: Optional[str] = None,
        *,
        timeout: Optional[float] = None,
        log: Optional[Log] = None,
    ) -> None:
        """Starts the program: that of `find_program`, or the given one.

        `timeout` and `log` are those of `TimeMap`. Raises `NoProgram` where it has no such mode, and `OSError`.
        """
        name = program or find_program()
        if AGENTS not in modes_of(name, timeout):
            raise NoProgram(f"{name} has no mode `{AGENTS}`")
        super().__init__([name, AGENTS], timeout=timeout, log=log)
        self._standing.version = 2
        # The edits that are held for each agent, under the numbers of their lines.
        self._held: Dict[str, Dict[int, str]] = {}

    def agent(self, name: str) -> "Agent":
        """The agent of this name, which is there as soon as it is named."""
        return Agent(self, words.name(name))

    def _held_by(self, agent: str) -> Dict[int, str]:
        return self._held.setdefault(agent, {})

    def _note_reply(self, number: int, line: str, reply: Optional[Reply]) -> None:
        if not isinstance(reply, (Held, Batch, NoBatch, Changes)):
            return
        first, *rest = line.split(None, 1)
        agent = first[1:]
        if isinstance(reply, Held):
            self._held_by(agent)[number] = rest[0].rstrip()
        elif isinstance(reply, Batch):
            held = self._held.pop(agent, {})
            for made in reply.edits:
                self._note(held[made.held_at], made.changes)
        else:
            self._held.pop(agent, None)


class Agent(Edits[int]):
    """An agent of a shared map. Its edits are held, and each method tells how many are now.

    They raise `Refused` for an edit that cannot be held, `OutOfMemory`, and what else `TimeMap` raises. Whether
    an edit is accepted is told by `commit`.
    """

    def __init__(self, shared: SharedMap, name: str) -> None:
        self._map = shared
        self.name = name

    @property
    def held(self) -> int:
        """How many edits are held, without asking."""
        return len(self._map._held_by(self.name))

    def hold(self, line: str) -> int:
        """Holds the edit that a line says, and tells how many are held now."""
        if "\n" in line or line.split() in (["commit"], ["discard"]):
            raise ValueError(f"no edit: {line!r}")
        return self._map._answer(Held, OF_AGENT, f"{self._word} {line}").number

    def commit(self) -> Batch:
        """Makes all edits that are held, one after the other, and tells what each of them changed.

        Raises `BatchRefused` where one is refused. Then none is made, and in either case none is held after it.
        Raises `OutOfMemory`, after which all are held as before.
        """
        line = f"{self._word} commit"
        held = dict(self._map._held_by(self.name))
        reply = self._map.send(line)
        if isinstance(reply, NoBatch):
            raise BatchRefused(held[reply.held_at], reply.refusal, reply.held_at)
        return self._map._wanted(Batch, line, reply)

    def discard(self) -> None:
        """Forgets the edits that are held."""
        self._map._answer(Changes, OF_AGENT, f"{self._word} discard")

    @property
    def _word(self) -> str:
        return f"@{self.name}"

    def _edit(self, word: str, line: str) -> int:
        return self.hold(line)
