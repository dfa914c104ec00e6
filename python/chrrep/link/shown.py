"""What came into a folder's store and went from it, for all that watch it."""

import time
import weakref
from collections import Counter
from collections.abc import Iterable, Iterator
from pathlib import Path
from typing import Protocol

from ..texts import Atom, Change
from .feeds import Looks
from .following import changes_of

Store = Counter[Atom]


class Pending:
    """What came and went since it was taken last: of each atom by how many there are more."""

    def __init__(self, store: Store) -> None:
        self._more: Store = Counter(store)

    def add(self, change: Change) -> None:
        self._more.update(change.came)
        self._more.subtract(change.went)

    def take(self) -> Change | None:
        """What came and went, if anything did; then nothing is left."""
        more, self._more = self._more, Counter()
        change = Change(tuple(more.elements()), tuple((-more).elements()))
        return change if change.came or change.went else None


class Shown:
    """The store as a node told of it last, for those that watch it."""

    def __init__(self) -> None:
        self._store: Store = Counter()
        self._watches: weakref.WeakSet[Pending] = weakref.WeakSet()

    def watched(self) -> Pending:
        """What is to come, of all that is there."""
        pending = Pending(self._store)
        self._watches.add(pending)
        return pending

    def take(self, change: Change) -> None:
        """Takes in what came and went."""
        self._store.update(change.came)
        self._store.subtract(change.went)
        # those that are gone would stay as none
        for atom in change.went:
            if not self._store[atom]:
                del self._store[atom]
        for pending in list(self._watches):
            pending.add(change)

    def take_whole(self, atoms: Iterable[Atom]) -> None:
        """Takes in all that is there."""
        store = Counter(atoms)
        came, went = (tuple(more.elements()) for more in (store - self._store, self._store - store))
        self.take(Change(came, went))


class Watched(Protocol):
    """A member of a folder, as far as its store is watched."""

    feeds: Path
    shown: Shown
    tells: int
    """How many operations it has told."""

    def hear(self) -> None:
        """Has its node say what came and went."""

    def named(self, atoms: Iterable[Atom]) -> tuple[Atom, ...]:
        """The atoms with names in the place of numbers."""


class FolderWatch:
    """Looks at the store of a folder's member, again and again; its node is asked only where a file was written."""

    def __init__(self, member: Watched) -> None:
        self._member = member
        self._looks = Looks(member.feeds)
        self._pending = member.shown.watched()
        self._is_due = True
        self._tells = 0

    def look(self, wait: float = 0.0) -> Change | None:
        """What came and went since the last look, at first all that is there; None where that is nothing for so many
        seconds."""
        end = time.monotonic() + wait
        while True:
            if self._is_new():
                self._member.hear()
            if change := self._pending.take():
                return Change(self._member.named(change.came), self._member.named(change.went))
            left = end - time.monotonic()
            if left <= 0:
                return None
            self.wait(left)

    def wait(self, seconds: float) -> None:
        """Waits until something may have come, up to so many seconds."""
        self._is_due = self._looks.wait(seconds) or self._is_due

    def changes(self, wait: float | None) -> Iterator[Change]:
        """Each change, until there is none for so many seconds; or for ever."""
        return changes_of(self, wait)

    def _is_new(self) -> bool:
        # what the member itself told may be within a tick of the file's clock
        tells, due = self._member.tells, self._is_due or self._looks.wait(0.0)
        is_new = due or tells != self._tells
        self._tells, self._is_due = tells, False
        return is_new

    def __repr__(self) -> str:
        return f"<chrrep.link.FolderWatch of {self._member!r}>"
