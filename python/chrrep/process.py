"""A process that answers lines, asked over its standard input and output with an eye on the time."""

import fcntl
import logging
import os
import select
import subprocess
import time
from contextlib import suppress
from typing import IO

from .refusals import NodeDied

_GRACE = 5.0
"""Seconds that a program has to end after the end of its input."""
_PIPE = 65_536
"""Bytes that a pipe holds, and so the most that one reading finds."""
_LARGE_PIPE = 262_144
"""Bytes that the pipe to the program holds, where the system allows it: what is sent while the program works."""
_NOTHING = memoryview(b"")
_LOG = logging.getLogger("chrrep.node")


class Late(Exception):
    """What was waited for didn't come in time."""


class Process:
    """A running program that answers each line by a line.

    It has a session of its own, so that what is typed at a terminal, as Ctrl-C, is for its user alone. It ends with its
    input, and so with its user, however that one ends. A call raises `Late` where the clock has passed `end`. One that
    is interrupted while `is_waiting` can be taken up again: what is left of the line is sent, and the answer read.
    """

    owed = 0
    """Answers that have not been read yet."""
    is_waiting = False
    """Whether nothing is being sent or read."""
    is_deaf = False
    """Whether it was found that the program reads no more."""

    def __init__(self, words: list[str], errors: IO[bytes] | None = None) -> None:
        """Begins the program, whose standard error goes to a file where one is given."""
        self._process = subprocess.Popen(
            words, stdin=subprocess.PIPE, stdout=subprocess.PIPE, stderr=errors, bufsize=0, start_new_session=True
        )
        assert self._process.stdin and self._process.stdout
        self._input, self._output = self._process.stdin.fileno(), self._process.stdout.fileno()
        # no write is to wait for a program that takes nothing
        os.set_blocking(self._input, False)
        with suppress(OSError):
            fcntl.fcntl(self._input, fcntl.F_SETPIPE_SZ, _LARGE_PIPE)
        self._room, self._answers = select.poll(), select.poll()
        self._room.register(self._input, select.POLLOUT)
        self._answers.register(self._output, select.POLLIN)
        self._left = _NOTHING
        self._parts = [b""]

    @property
    def pid(self) -> int:
        """The id of the process."""
        return self._process.pid

    def send(self, lines: bytes, end: float | None, count: int = 1) -> None:
        """Sends a line, or so many, for each of which an answer is owed then."""
        self.is_waiting = False
        self.owed += count
        self._left = memoryview(lines)
        self.flush(end)

    def flush(self, end: float | None) -> None:
        """Sends what is left of a line; nothing more to a program that reads no more, since it may have answered."""
        self.is_waiting = False
        try:
            while self._left:
                try:
                    self._left = self._left[os.write(self._input, self._left):]
                except BlockingIOError:
                    self._wait_for(self._room, end)
        except BrokenPipeError:
            self.is_deaf = True
        self._left = _NOTHING

    def answer(self, end: float | None) -> str:
        """The next line of its output. `NodeDied` where it has ended instead."""
        self.is_waiting = False
        while b"\n" not in self._parts[-1]:
            self._wait_for(self._answers, end)
            part = os.read(self._output, _PIPE)
            if not part:
                raise NodeDied("the node died", self.status())
            self._parts.append(part)
        line, _, rest = b"".join(self._parts).partition(b"\n")
        self._parts = [rest]
        self.owed -= 1
        return line.decode()

    def status(self) -> int:
        """The status of a program that is to end by itself."""
        try:
            return self._process.wait(_GRACE)
        except subprocess.TimeoutExpired:
            return self.kill()

    def kill(self) -> int:
        """Ends the program at once, and gives its status."""
        self._process.kill()
        return self._process.wait()

    def close(self) -> None:
        """Ends the program by the end of its input, and waits for it."""
        self.let_go()
        _LOG.debug("process %d ended with status %d", self.pid, self.status())

    def let_go(self) -> None:
        """Closes this side of its input and output."""
        for pipe in (self._process.stdin, self._process.stdout):
            assert pipe
            pipe.close()

    def _wait_for(self, pipe: select.poll, end: float | None) -> None:
        """Waits until a pipe is ready. It is looked at once even where the time is over."""
        left = None if end is None else max(0.0, 1000 * (end - time.monotonic()))
        self.is_waiting = True
        is_ready = pipe.poll(left)
        self.is_waiting = False
        if not is_ready:
            raise Late


def end_of(seconds: float | None) -> float | None:
    """The time that is `seconds` from now; None where there is no limit."""
    return None if seconds is None else time.monotonic() + seconds
