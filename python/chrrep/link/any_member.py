"""What every member has, whatever it shares its facts by."""

from abc import abstractmethod
from collections.abc import Callable, Iterable, Iterator, Sequence
from typing import Protocol, TypeVar

from ..closing import Closing
from ..columns import Columns
from ..texts import Atom, Change, Id, Verdict
from .following import Following
from .log import Entry, Program

T = TypeVar("T")


class Watches(Protocol):
    """Looks at a member's store, again and again."""

    def look(self, wait: float = 0.0) -> Change | None:
        """What came and went since the last look, at first all that is there; None where that is nothing for so many
        seconds."""

    def wait(self, seconds: float) -> None:
        """Waits until something may have come, up to so many seconds."""

    def changes(self, wait: float | None) -> Iterator[Change]:
        """Each change, until there is none for so many seconds; or for ever."""


class AnyMember(Closing):
    """A node that keeps what it is told, and shares it with others: by a log or in a folder."""

    when_rejoined: Callable[[], object] | None = None
    """What is called after the member went over to another program."""

    @property
    @abstractmethod
    def origin(self) -> int:
        """The origin of the operations that this member tells."""

    @property
    @abstractmethod
    def program(self) -> Program:
        """The program of what is shared."""

    @property
    @abstractmethod
    def verdict(self) -> Verdict:
        """What was said of the program."""

    @property
    @abstractmethod
    def columns(self) -> Columns:
        """What the program's text tells of symbols and their columns."""

    @abstractmethod
    def tell(self, *atoms: Atom, after: BaseException | None = None) -> Id:
        """Tells one operation, and gives its id."""

    @abstractmethod
    def tell_many(self, tells: Iterable[Iterable[Atom]], *, after: BaseException | None = None) -> list[Id]:
        """Tells operations, many at once, and gives their ids."""

    @abstractmethod
    def follow(self, wait: float = 0.0) -> int:
        """Reads on in what others tell; waits for that, up to so many seconds."""

    @abstractmethod
    def show(self, symbol: str | None = None, *pattern: str | int | None) -> tuple[Atom, ...]:
        """The store at rest, or what is asked for of it."""

    @abstractmethod
    def show_text(self) -> str:
        """The store at rest, as it is printed, with names."""

    @abstractmethod
    def count(self, symbol: str, *pattern: str | int | None) -> int:
        """How many atoms `show` gives."""

    @abstractmethod
    def watch(self) -> Watches:
        """What looks at the store, again and again."""

    @abstractmethod
    def going_over(self, call: Callable[[], T]) -> T:
        """The call's result, also where another program came in between."""

    @abstractmethod
    def listen(self, call: Callable[[Sequence[Entry]], object]) -> None:
        """From now on has the call made with operations that are told, as they come."""

    @abstractmethod
    def named(self, atoms: Iterable[Atom]) -> tuple[Atom, ...]:
        """The atoms with names in the place of numbers, as far as this member knows them by now."""

    def show_named(self, symbol: str, /, **values: str | int) -> tuple[dict[str, str | int], ...]:
        """The facts of a symbol whose columns have names, `% chr_columns seen(parcel, time, place)`, by these; with
        values only the facts that have them: `show_named("seen", parcel="box")`. Raises `UnknownColumn`, and what
        `show` raises."""
        return tuple(
            dict(zip(names, arguments))
            for names, pattern in self.columns.patterns(symbol, values)
            for _, *arguments in self.show(symbol, *pattern)
        )

    def changes(self, wait: float | None = None) -> Iterator[Change]:
        """What came into the store at rest and went from it, each time that it has changed; at first all that it has.

        It ends where nothing has changed for so many seconds; left out, never.
        """
        return self.watch().changes(wait)

    def following(self, call: Callable[[Change], object]) -> Following:
        """A thread that follows what is told, and calls with each change of the store, at first with all that is there.
        It ends with a `with`, or by `stop`."""
        return Following(self.watch(), call)

    def __iter__(self) -> Iterator[Atom]:
        return iter(self.show())
