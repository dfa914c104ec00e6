"""What comes into a member's store and goes from it, as it happens."""

import logging
import threading
import time
from collections.abc import Callable, Iterator
from types import TracebackType
from typing import Protocol, Self

from ..refusals import ChrrepError
from ..texts import Change

LOOK_SECONDS = 1.0
_LOG = logging.getLogger("chrrep.link")


class Followed(Protocol):
    """A member, as far as its store is followed."""

    def follow(self, wait: float = 0.0) -> int:
        """Reads on in the log, and waits for so long where there is nothing new."""

    def change_from(self, before: str) -> tuple[Change, str]:
        """What came and went since the store had this text, and the text that it has now."""


class Watch:
    """Looks at a member's store, again and again."""

    def __init__(self, member: Followed) -> None:
        self._member = member
        self._text = "true"

    def look(self, wait: float = 0.0) -> Change | None:
        """What came and went since the last look, at first all that is there; None where that is nothing for `wait`
        seconds."""
        end = time.monotonic() + wait
        while True:
            change, self._text = self._member.change_from(self._text)
            if change.came or change.went:
                return change
            left = end - time.monotonic()
            if left <= 0:
                return None
            self._member.follow(min(left, LOOK_SECONDS))

    def wait(self, seconds: float) -> None:
        """Waits until something may have come, up to so many seconds."""
        self._member.follow(seconds)

    def changes(self, wait: float | None) -> Iterator[Change]:
        """Each change, until there is none for so many seconds; or for ever."""
        return changes_of(self, wait)

    def __repr__(self) -> str:
        return f"<chrrep.link.Watch of {self._member!r}>"


class Looking(Protocol):
    """What looks at a store, again and again."""

    def look(self, wait: float = 0.0) -> Change | None:
        """What came and went since the last look; None where that is nothing for so many seconds."""


def changes_of(watch: Looking, wait: float | None) -> Iterator[Change]:
    """Each change that a watch sees, until there is none for so many seconds; or for ever."""
    while True:
        change = watch.look(LOOK_SECONDS if wait is None else wait)
        if change:
            yield change
        elif wait is not None:
            return


class Following:
    """A thread that follows the log, and calls with each change of the store, at first with all that is there.

    What it raises, or the call does, ends it: it is logged, and raised by `stop`. Leaving a `with` stops it.
    """

    def __init__(self, watch: Looking, call: Callable[[Change], object]) -> None:
        self.fault: BaseException | None = None
        self._watch = watch
        self._call = call
        self._is_over = False
        self._thread = threading.Thread(target=self._run, name="chrrep following", daemon=True)
        self._thread.start()

    @property
    def is_alive(self) -> bool:
        """Whether the thread goes on."""
        return self._thread.is_alive()

    def stop(self) -> None:
        """Ends the thread, within a second, and raises what ended it before. To stop twice is no fault."""
        self._is_over = True
        if threading.current_thread() is not self._thread:
            self._thread.join()
        fault, self.fault = self.fault, None
        if fault:
            raise fault

    def __repr__(self) -> str:
        state = "alive" if self.is_alive else "ended"
        return f"<chrrep.link.Following {state}: {self._watch!r}>"

    def __enter__(self) -> Self:
        return self

    def __exit__(
        self, kind: type[BaseException] | None, error: BaseException | None, trace: TracebackType | None
    ) -> None:
        try:
            self.stop()
        except Exception:
            # what left the block comes first
            if error is None:
                raise

    def _run(self) -> None:
        try:
            while not self._is_over:
                change = self._watch.look(LOOK_SECONDS)
                if change:
                    self._call(change)
        except BaseException as fault:
            self.fault = fault
            level = logging.WARNING if isinstance(fault, ChrrepError) else logging.ERROR
            _LOG.log(level, "a thread that followed the log ended: %s: %s", type(fault).__name__, fault)
