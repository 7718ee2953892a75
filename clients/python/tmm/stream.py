"""The two pipes to a program: bytes of lines there, and bytes of replies back.

Our end of its input does not wait, so that lines and replies of any length pass side by side.
"""

import os
import select
import subprocess
from typing import List, Optional, Sequence

from tmm.errors import ALL_ANSWERED, STATUSES, ProgramEnded, ProtocolError, TimedOut, TmmError

# As much as a pipe holds, and enough for all but long replies.
LARGE = 1 << 16
SMALL = 1 << 12
# `tmm` ends at once when its input does. One that takes longer than this is no `tmm`, or hangs.
SECONDS_TO_END = 10.0
SECONDS_TO_SAY_WHY = 1.0


class Stream:
    """A program and its pipes."""

    def __init__(self, command: Sequence[str], timeout: Optional[float]) -> None:
        """Starts the program. Raises `OSError` where it cannot be started."""
        # A group of its own: Ctrl-C at a terminal is for the one who drives it, and does not end it.
        self.process = subprocess.Popen(
            command, stdin=subprocess.PIPE, stdout=subprocess.PIPE, bufsize=0, process_group=0
        )
        assert self.process.stdin is not None and self.process.stdout is not None
        self._input = self.process.stdin.fileno()
        self._output = self.process.stdout.fileno()
        os.set_blocking(self._input, False)
        self.timeout = timeout
        self.is_open = True

    def close(self) -> int:
        """Closes the pipes, waits for the program, and gives its exit status."""
        if self.is_open:
            self.is_open = False
            self._close_pipes()
            try:
                self.process.wait(SECONDS_TO_END)
            except subprocess.TimeoutExpired:
                self.process.kill()
        return self.process.wait()

    def kill(self) -> None:
        """Ends the program, whatever it is at."""
        self.is_open = False
        self.process.kill()
        self._close_pipes()
        self.process.wait()

    def _close_pipes(self) -> None:
        assert self.process.stdin is not None and self.process.stdout is not None
        self.process.stdin.close()
        self.process.stdout.close()

    def line(self, given: bytes, number: int) -> bytes:
        """Gives a line, and takes the one line of its reply."""
        prefix = b"%d " % number
        received = self._give(given)
        while not (received.startswith(prefix) and received.endswith(b"\n")):
            if b"\n" in received or not prefix.startswith(received[: len(prefix)]):
                raise self._wrong(f"this is not the reply to line {number}", received)
            data = self._read(SMALL)
            if not data:
                raise self._ended(received)
            received += data
        return received

    def lines(self, given: bytes, first: int, fence: int) -> bytes:
        """Gives lines from this number on, and takes what comes before the line with that of the fence."""
        rest = self._give(given)
        if not rest and fence == first + 1:
            # The common case: one read gets a reply of one line, and a second one that of the fence.
            rest = self._read(SMALL)
            if rest.startswith(b"%d " % first):
                if rest.find(b"\n") == len(rest) - 1:
                    rest += self._read(SMALL)
                at = rest.find(b"\n%d " % fence) + 1
                if at and rest.find(b"\n", at) == len(rest) - 1:
                    return rest[:at]
        # Each line is looked at once. `last` is the number of the reply that it belongs to.
        whole: List[bytes] = []
        last = first - 1
        while True:
            *lines, rest = rest.split(b"\n")
            for line in lines:
                if line[:1] != b" " or last < first:
                    digits = line.partition(b" ")[0]
                    told = int(digits) if digits.isdigit() else last
                    if last == fence or not last < told <= fence:
                        raise self._wrong(f"this is no reply to a line of {first} to {fence - 1}", line)
                    last = told
                whole.append(line)
            if last == fence:
                break
            data = self._read(LARGE)
            if not data:
                # By the number of the fence the replies before it are whole.
                if rest.startswith(b"%d " % fence):
                    return _joined(whole)
                raise self._ended(_joined(whole) + rest)
            rest += data
        fence_line = whole.pop()
        if rest or not fence_line.startswith(b"%d " % fence):
            raise self._wrong(f"more came than the reply to line {fence}", rest or fence_line)
        return _joined(whole)

    def _give(self, given: bytes) -> bytes:
        """Writes all, and gives what came back meanwhile."""
        try:
            written = os.write(self._input, given)
        except BlockingIOError:
            written = 0
        except BrokenPipeError:
            raise self._ended(b"") from None
        return b"" if written == len(given) else self._give_and_take(given[written:])

    def _give_and_take(self, given: bytes) -> bytes:
        received: List[bytes] = []
        left = memoryview(given)
        both = select.poll()
        both.register(self._input, select.POLLOUT)
        both.register(self._output, select.POLLIN)
        while left:
            ready = [file for file, _ in both.poll(self._milliseconds())]
            if not ready:
                raise self._timed_out()
            if self._output in ready:
                data = self._read(LARGE)
                if not data:
                    raise self._ended(b"".join(received))
                received.append(data)
            if self._input in ready:
                try:
                    left = left[os.write(self._input, left[:LARGE]):]
                except BlockingIOError:
                    pass
                except BrokenPipeError:
                    raise self._ended(b"".join(received)) from None
        return b"".join(received)

    def _read(self, size: int) -> bytes:
        """What comes next; nothing where the program ended."""
        if self.timeout is not None:
            output = select.poll()
            output.register(self._output, select.POLLIN)
            if not output.poll(self._milliseconds()):
                raise self._timed_out()
        return os.read(self._output, size)

    def _milliseconds(self) -> Optional[float]:
        return None if self.timeout is None else self.timeout * 1000

    def _timed_out(self) -> TimedOut:
        return TimedOut(f"nothing came from the program within {self.timeout} s")

    def _ended(self, received: bytes) -> ProgramEnded:
        return ProgramEnded(self.close(), shown(received))

    def _wrong(self, what: str, received: bytes) -> TmmError:
        """The error for what is no reply. One of `tmm` that could not begin, and says so, is told by its status."""
        self._close_pipes()
        try:
            status = self.process.wait(SECONDS_TO_SAY_WHY)
        except subprocess.TimeoutExpired:
            status = None
        if status in STATUSES and status not in ALL_ANSWERED:
            self.is_open = False
            return ProgramEnded(status, shown(received))
        return ProtocolError(f"{what}:\n{shown(received)}")


def _joined(lines: List[bytes]) -> bytes:
    return b"".join([line + b"\n" for line in lines])


def shown(received: bytes) -> str:
    """What came, as text; bytes of no reply by their numbers."""
    return received.decode("ascii", "backslashreplace")
