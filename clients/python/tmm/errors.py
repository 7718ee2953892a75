"""What can go wrong, as exceptions."""

from tmm.values import Cause, Refusal


class TmmError(Exception):
    """All that this package raises, but for an argument that no line can have and an error of the system."""


class NoProgram(TmmError, FileNotFoundError):
    """There is no program to start, and none is built from here."""


class Refused(TmmError):
    """A line was refused. The map is as before, and takes further lines."""

    def __init__(self, line: str, refusal: Refusal) -> None:
        super().__init__(" ".join(filter(None, [f"`{line}` is refused:", refusal.cause.value, refusal.word])))
        self.line = line
        self.refusal = refusal

    @property
    def cause(self) -> Cause:
        """Why the line was refused."""
        return self.refusal.cause


class RefusedForCycle(Refused):
    """No dates keep the constraint together with those that stand.

    The first step is of the refused constraint, and the others lead back to where it begins. Their
    weights add up to `sum`, which is below 0.
    """

    def __init__(self, line: str, refusal: Refusal, total: int) -> None:
        super().__init__(line, refusal)
        self.sum = total
        self.steps = refusal.steps

    def __str__(self) -> str:
        steps = ", ".join(str(step) for step in self.steps)
        return f"`{self.line}` is refused: cycle {self.sum}, by {steps}"


class BatchRefused(Refused):
    """None of the edits that an agent held was made, since this one is refused. None is held any longer.

    `held_at` is the number of the line that held it.
    """

    def __init__(self, line: str, refusal: Refusal, held_at: int) -> None:
        super().__init__(line, refusal)
        self.held_at = held_at


def refused(line: str, refusal: Refusal) -> Refused:
    """The exception that a refusal of this line is."""
    if refusal.sum is not None:
        return RefusedForCycle(line, refusal, refusal.sum)
    return Refused(line, refusal)


class OutOfMemory(TmmError):
    """There was no memory for a line. The map is as before, and takes further lines."""


class ProgramEnded(TmmError):
    """The program is there no longer, and its map with it.

    `received` is what came of the reply that is due, or in a batch of all replies.
    """

    def __init__(self, status: int, received: str = "") -> None:
        super().__init__(f"tmm ended: {describe_status(status)}")
        self.status = status
        self.received = received


class ProtocolError(TmmError):
    """What came is not the reply that is due: this is not `tmm`, or an exchange was not finished."""


class TimedOut(TmmError, TimeoutError):
    """The program did not answer within the time that was given. It is ended, and its map with it."""


STATUSES = {
    0: "all lines are answered, and none is refused",
    1: "all lines are answered, and some are refused",
    2: "its words are wrong",
    3: "a read failed",
    4: "a write failed",
    5: "there was no memory to begin with",
    6: "the script has more than 2^30 bytes",
    7: "all lines are answered, and some `memory`",
    8: "the command-line arguments could not be read",
    70: "the program could be neither built nor run without proofs",
}

# The statuses that come after a reply to every line.
ALL_ANSWERED = (0, 1, 7)


def describe_status(status: int) -> str:
    """Says in words how the program ended. A negative number is that of a signal."""
    if status < 0:
        return f"signal {-status} stopped it"
    return f"status {status}, {STATUSES.get(status, 'which is none of its own')}"
