"""Forks of the process that tests."""

import os
import select
import signal
from collections.abc import Callable

SECONDS = 60.0
"""Far longer than a fork takes here."""


class Fork:
    """A fork that makes a call at once, and lives until it is ended. It ends with a `with`."""

    def __init__(self, call: Callable[[], object]) -> None:
        self._answer, answer = os.pipe()
        self.pid = os.fork()
        if not self.pid:
            # nothing of the tests goes on here
            try:
                os.write(answer, said_of(call).encode())
                os.close(answer)
                signal.pause()
            finally:
                os._exit(0)
        os.close(answer)

    def said(self) -> str:
        """What the call gave or raised; nothing where it gives no answer."""
        with open(self._answer, "rb", closefd=False) as pipe:
            return pipe.read().decode() if select.select([pipe], [], [], SECONDS)[0] else ""

    def __enter__(self) -> "Fork":
        return self

    def __exit__(self, *_: object) -> None:
        os.kill(self.pid, signal.SIGKILL)
        os.waitpid(self.pid, 0)
        os.close(self._answer)


def said_of(call: Callable[[], object]) -> str:
    try:
        return repr(call())
    except BaseException as fault:
        return f"{type(fault).__name__}: {fault}"


def said_in_fork(call: Callable[[], object]) -> str:
    """What the call gives or raises in a fork."""
    with Fork(call) as fork:
        return fork.said()
