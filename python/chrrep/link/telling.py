"""What becomes of operations that are told: what is in the log, what may be there, and what isn't."""

from abc import ABC, abstractmethod
from collections.abc import Callable, Mapping, Sequence
from dataclasses import dataclass, replace
from itertools import repeat
from typing import NamedTuple, TypeVar

from ..texts import Atom, Id
from .log import Entry

Operations = list[tuple[Atom, ...]]

K = TypeVar("K", bound="AnyTell")

# thrice as fast as `Id` itself
_new: Callable[[type[Id], tuple[int, int]], Id] = tuple.__new__


@dataclass(slots=True)
class Batch:
    """Operations that are appended at once, all or none, and what the log has to be like for that.

    Their atoms are `texts`, and their ids the `first` and those that follow it. `before` is the greatest number of the
    origin that the log has, as far as the member knows; `room` is what they take of it, and `names` are those of the
    numbers in them. `is_unsure` says, after an append that raised, whether they may be in the log all the same.
    """

    first: Id
    texts: Sequence[str]
    writer: str
    epoch: int
    before: int
    room: int
    names: Mapping[int, str]
    is_unsure: bool = True

    @property
    def end(self) -> int:
        """The number of the last."""
        return self.first.number + len(self.texts) - 1

    @property
    def last(self) -> Entry:
        return Entry(Id(self.first.origin, self.end), self.texts[-1], self.writer)

    @property
    def ids(self) -> list[Id]:
        origin, first = self.first
        if len(self.texts) == 1:
            return [self.first]
        return list(map(_new, repeat(Id), zip(repeat(origin), range(first, first + len(self.texts)))))

    @property
    def entries(self) -> list[Entry]:
        return list(map(Entry._make, zip(self.ids, self.texts, repeat(self.writer))))

    @property
    def halves(self) -> "tuple[Batch, Batch]":
        """The same operations in two parts."""
        half = len(self.texts) // 2
        rest = Id(self.first.origin, self.first.number + half)
        return replace(self, texts=self.texts[:half]), replace(self, first=rest, texts=self.texts[half:])

    def delta(self) -> str:
        """The operations as a delta has them, without its brackets. A text that a node takes has no sign of percent."""
        origin, first = self.first
        if len(self.texts) == 1:
            return f"[[{origin},{first}],{self.texts[0]}]"
        begin = f"[[{origin},%d],"
        numbers = tuple(range(first, first + len(self.texts)))
        return f"{begin}{f'],{begin}'.join(self.texts)}]" % numbers


class Outcome(NamedTuple):
    """Of the operations of a call the first are in the log, by these ids; of those that follow, `unsure`, it isn't
    known; and the rest is not there."""

    told: tuple[Id, ...]
    unsure: tuple[Id, ...]


class AnyTell(ABC):
    """The operations of one call, and how far they are told."""

    __slots__ = ("operations", "told")

    def __init__(self, operations: Operations) -> None:
        self.operations = operations
        self.told: list[Id] = []

    @property
    def rest(self) -> Operations:
        """The operations that are not known to be told."""
        return self.operations[len(self.told):] if self.told else self.operations

    @abstractmethod
    def outcome(self) -> Outcome:
        """What became of the operations."""

    def leave_by(self, fault: BaseException) -> None:
        """Has an exception say what became of the operations; `tell_of` finds them."""
        told, unsure = self.outcome()
        for name, value in (("told", told), ("unsure", unsure), ("tell", self)):
            setattr(fault, name, value)


class Tell(AnyTell):
    """Operations that go into a log."""

    __slots__ = ("unsure",)

    def __init__(self, operations: Operations) -> None:
        super().__init__(operations)
        self.unsure: Batch | None = None

    def settle(self, is_there: bool) -> None:
        """Takes notice of whether what was unsure is in the log."""
        ids = self.unsure.ids if is_there and self.unsure else ()
        # no call stands between these, and so no interrupt
        self.told += ids
        self.unsure = None

    def outcome(self) -> Outcome:
        return Outcome(tuple(self.told), tuple(self.unsure.ids) if self.unsure else ())


class Sent(NamedTuple):
    """Where operations are that were sent to a folder's node: behind so many of the run of this origin."""

    origin: int
    before: int


class FolderTell(AnyTell):
    """Operations that go into a folder. Of those that were sent and not settled some may be told, perhaps `unsure`."""

    __slots__ = ("sent", "unsure")

    def __init__(self, operations: Operations) -> None:
        super().__init__(operations)
        self.sent: Sent | None = None
        self.unsure: tuple[Id, ...] = ()

    def settle(self, ids: Sequence[Id]) -> None:
        """Takes notice of which of those that were sent are told."""
        # no call stands between these, and so no interrupt
        self.told += ids
        self.sent, self.unsure = None, ()

    def outcome(self) -> Outcome:
        return Outcome(tuple(self.told), self.unsure if self.sent else ())


def leave_as(fault: BaseException, before: BaseException) -> None:
    """Has an exception say what the one before it said of a tell, where that was raised by one."""
    tell = getattr(before, "tell", None)
    if isinstance(tell, AnyTell):
        tell.leave_by(fault)


def tell_of(fault: BaseException, operations: Operations, kind: type[K]) -> K:
    """The tell of this kind that an exception has left. ValueError where it left none, or one of other operations."""
    tell = getattr(fault, "tell", None)
    if not isinstance(tell, kind):
        raise ValueError(f"{type(fault).__name__} was not raised by a tell") from fault
    if tell.operations != operations:
        raise ValueError("a tell goes on with the operations that it began with") from fault
    return tell


class Journal:
    """The tells of a call that is made again, so that what it told before isn't told again."""

    def __init__(self) -> None:
        self.place = 0
        self._tells: list[Tell] = []

    def next(self, operations: Operations) -> Tell:
        """The tell of these operations, which goes on where the call has told just them at this place before."""
        known = self._tells[self.place:self.place + 1]
        if not known or known[0].operations != operations:
            known = [Tell(operations)]
            self._tells[self.place:] = known
        self.place += 1
        return known[0]
