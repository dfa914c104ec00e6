"""The texts that go to and come from the program, and what they mean."""

import json
import re
from collections import Counter
from collections.abc import Callable, Iterable, Iterator
from pathlib import Path
from typing import IO, NamedTuple, Protocol, TypeAlias, TypeVar

LINE_LIMIT = 1_048_576
"""Bytes of a line, without its end, beyond which it is refused."""

OPERATION_LIMIT = 64
"""Atoms of an operation, at most."""

TOLD_LIMIT = 1_000_000
"""Atoms that a node is told, at most."""

Atom: TypeAlias = tuple[str | int, ...]
"""A name and its arguments, whole numbers of 64 bits: `("path", 1, 2, 7)`."""

ProgramText: TypeAlias = str | bytes | Path | IO[str] | IO[bytes]
"""A program text, or a file that has one: by its path, or open."""

Weight: TypeAlias = tuple[int, ...]
"""One number, or two where weights of two numbers are declared."""

Summary: TypeAlias = tuple[tuple[int, tuple[tuple[int, int], ...]], ...]
"""Ids as ranges: `((origin, ((first, last), ..)), ..)`."""


class Id(NamedTuple):
    """What names an operation for ever: the node it comes from, and its number there."""

    origin: int
    number: int


class Operation(NamedTuple):
    """An id, and the 1 to 64 atoms that it tells."""

    id: Id
    atoms: tuple[Atom, ...]

    @classmethod
    def of(cls, id: Iterable[int], atoms: Iterable[Iterable[str | int]]) -> "Operation":
        """The operation of parts that may be lists, as JSON has them."""
        return cls(Id(*id), tuple(tuple(atom) for atom in atoms))


class OperationText(NamedTuple):
    """What is `Written` and nothing more."""

    id: Id
    atoms: str


class Change(NamedTuple):
    """Atoms that came into a store and that went from it, each as often as it did."""

    came: tuple[Atom, ...]
    went: tuple[Atom, ...]


class Difference(NamedTuple):
    """Where an atom begins from which on two texts of a store differ, and how long what follows is that is equal again:
    nothing, or a comma and whole atoms."""

    start: int
    same: int

    def end(self, text: str) -> int:
        """Where what differs ends in one of the two."""
        return len(text) - self.same


class Verdict(NamedTuple):
    """An accepted program: the number of its rules, of the cases that were tried, and whether these were the sorted
    ones, of `--wide`."""

    rules: int
    cases: int
    is_wide: bool = False


class Written(Protocol):
    """An operation whose atoms are written as compact JSON, of ASCII alone."""

    @property
    def id(self) -> Id: ...

    @property
    def atoms(self) -> str: ...


T = TypeVar("T")
W = TypeVar("W", bound=Written)

_ENCODE = json.JSONEncoder(separators=(",", ":")).encode
_ID_ROOM = 40
"""Bytes that the id and the brackets of an operation take in a line, at most."""

_ACCEPTED = re.compile(r"accepted: rules (\d+), cases (\d+)")
_ATOM = re.compile(r"\s*([a-z][A-Za-z0-9_]*)\s*(?:\(\s*(-?\d+(?:\s*,\s*-?\d+)*)\s*\)\s*)?(,|\Z)", re.ASCII)
_DIVIDER = re.compile(rb"^---(?=\r?$)", re.MULTILINE)


def verdict_of(answer: str, is_wide: bool = False) -> Verdict | None:
    """What a line of verdict, by sorted cases or not, says of an accepted program; None where it accepts nothing."""
    found = _ACCEPTED.fullmatch(answer)
    return Verdict(int(found[1]), int(found[2]), is_wide) if found else None


def numbers_of(text: str) -> tuple[int, ...]:
    """The numbers that stand between commas; none in an empty text."""
    return tuple(int(part) for part in text.split(",")) if text else ()


def atoms_of(text: str) -> tuple[Atom, ...]:
    """The atoms of a store's text, `path(1,2,7), coin`, in its order; `true` is the empty store. ValueError where the
    text is none."""
    if text.strip() == "true":
        return ()
    atoms: list[Atom] = []
    at, more = 0, ","
    while more:
        found = _ATOM.match(text, at)
        if not found:
            raise ValueError(f"no atom at byte {at} of {text[:80]!r}")
        atoms.append((found[1], *numbers_of(found[2] or "")))
        at, more = found.end(), found[3]
    return tuple(atoms)


def store_text(atoms: Iterable[Atom]) -> str:
    """The atoms as a store's text, in the order given."""
    shown = (f"{name}({','.join(map(str, rest))})" if rest else str(name) for name, *rest in atoms)
    return ", ".join(shown) or "true"


def found_in(store: str, symbol: str, *pattern: int | None) -> tuple[Atom, ...]:
    """The atoms of a store's text with this name and these arguments, of which None stands for any, in its order.

    With no pattern at all they are those of the name, with any number of arguments.
    """
    numbers = ",".join("-?[0-9]+" if value is None else str(int(value)) for value in pattern)
    arguments = rf"\({numbers}\)" if pattern else r"(?:\([-0-9,]+\))?"
    found = re.findall(rf"(?:^|(?<= )){re.escape(symbol)}{arguments}(?=,|$)", store)
    return atoms_of(", ".join(found)) if found else ()


def changes_between(before: str, after: str) -> Change:
    """What came and went from one store's text to another's, each in the order of its text."""
    differs = difference_of(before, after)
    parts = (text[differs.start:differs.end(text)] for text in (before, after))
    old, new = (Counter(part.split(", ")) - Counter(["true", ""]) for part in parts)
    came, went = (atoms_of(", ".join(more.elements()) or "true") for more in (new - old, old - new))
    return Change(came, went)


def difference_of(before: str, after: str) -> Difference:
    """Where two stores' texts differ, from the first atom on that does to the last. Most of a large one is equal."""
    start = _shared(len(before), len(after), lambda lo, hi: before[lo:hi] == after[lo:hi])
    start = before.rfind(", ", 0, start) + 2 if ", " in before[:start] else 0
    before, after = before[start:], after[start:]
    ends = len(before), len(after)
    same = _shared(*ends, lambda lo, hi: before[ends[0] - hi:ends[0] - lo] == after[ends[1] - hi:ends[1] - lo])
    # an atom whose end alone is equal is another
    cut = before.find(", ", ends[0] - same)
    return Difference(start, ends[0] - cut if cut >= 0 else 0)


def _shared(one: int, other: int, is_equal: Callable[[int, int], bool]) -> int:
    """How far two texts of these lengths are equal, by halves."""
    least, most = 0, min(one, other)
    while least < most:
        middle = (least + most + 1) // 2
        if is_equal(least, middle):
            least = middle
        else:
            most = middle - 1
    return least


def text_bytes(program: ProgramText) -> bytes:
    """The bytes of a program text, none of whose lines is taken for the one that ends it.

    A line `---` is a fault of the text. A space before it, which is layout, leaves it that and no more.
    """
    return _DIVIDER.sub(b" ---", program_bytes(program))


def program_bytes(program: ProgramText) -> bytes:
    """The bytes of a program text, or of a file of one, of which what follows a line `---` is no part."""
    if isinstance(program, (str, bytes)):
        return program.encode() if isinstance(program, str) else program
    read = program.read_bytes() if isinstance(program, Path) else program.read()
    text = read.encode() if isinstance(read, str) else read
    divider = _DIVIDER.search(text)
    return text[:divider.start()] if divider else text


def line_of(value: object) -> bytes:
    """The compact JSON of a command, on one line. TypeError where it has none."""
    return json.dumps(value, separators=(",", ":")).encode() + b"\n"


def summary_of(answer: str) -> Summary:
    """The summary that an answer writes."""
    return tuple((origin, tuple((lo, hi) for lo, hi in ranges)) for origin, ranges in json.loads(answer))


def delta_of(answer: str) -> tuple[Operation, ...]:
    """The operations that an answer writes as a delta of version 1."""
    return tuple(Operation.of(id, atoms) for id, atoms in json.loads(answer))


def atoms_text(atoms: Iterable[Atom]) -> str:
    """The atoms of an operation as compact JSON. TypeError where they have none."""
    return _ENCODE(list(atoms))


def delta_text(operations: Iterable[Written]) -> str:
    """The delta of these operations, of version 1."""
    return "[" + ",".join([f"[[{one.id[0]},{one.id[1]}],{one.atoms}]" for one in operations]) + "]"


def pieces(delta: Iterable[Operation], limit: int = LINE_LIMIT - 100) -> Iterator[list[Operation]]:
    """The delta in parts, each short enough for one line, in its order. An operation too long by itself is a part."""
    return _parts(delta, lambda operation: len(line_of(operation)), limit)


def text_pieces(delta: Iterable[W], limit: int = LINE_LIMIT - 100) -> Iterator[list[W]]:
    """The same of operations whose atoms are written."""
    return _parts(delta, lambda operation: len(operation.atoms) + _ID_ROOM, limit)


def _parts(items: Iterable[T], size_of: Callable[[T], int], limit: int) -> Iterator[list[T]]:
    part: list[T] = []
    length = 0
    for item in items:
        size = size_of(item)
        if part and length + size > limit:
            yield part
            part, length = [], 0
        part.append(item)
        length += size
    if part:
        yield part
