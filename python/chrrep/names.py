"""Names as arguments: text, for which a number stands.

The number is made of the name alone, so that nodes need not agree on anything first: 63 bits of the BLAKE2b hash of its
UTF-8 bytes. Names are equal where their numbers are. The order of the numbers says nothing of the names: where a rule
compares arguments by an order, tell numbers.
"""

import hashlib
import json
import re
from collections.abc import Iterable

from .refusals import ChrrepError, Refused
from .texts import Atom
from .typed import ANY, ARGUMENT, WORD, facts_of, pattern_in

_MOST_DIGITS = 19
"""Digits of a number of 64 bits, at most."""
_BARE = re.compile(WORD, re.ASCII)
_ARGUMENTS = re.compile(ARGUMENT, re.ASCII)
_ATOM = re.compile(
    rf"\s*({WORD})\s*(?:\(\s*((?:{ARGUMENT})(?:\s*,\s*(?:{ARGUMENT}))*)\s*\)\s*)?(,|\Z)", re.ASCII
)


class NameFault(ChrrepError, ValueError):
    """Text that can't be a name: at `place` it has a lone surrogate, and so no bytes of UTF-8. Nothing was told."""

    def __init__(self, fault: UnicodeEncodeError) -> None:
        self.name, self.place = fault.object, fault.start
        super().__init__(str(fault))


class NameClash(ChrrepError):
    """Two names have one number. What they stand in was not told."""

    def __init__(self, number: int, names: tuple[str, str]) -> None:
        self.number, self.names = number, names
        super().__init__(f"the names {names[0]!r} and {names[1]!r} have one number: change one of them")


class UnkeptName(Refused):
    """A name that the engine can't keep: PostgreSQL none with a character NUL. What it stands in was not told."""

    def __init__(self, name: str) -> None:
        self.name = name
        super().__init__(f"the engine can't keep the name {name[:80]!r}: it has a character NUL")


def check_name(number: int, name: str, other: str) -> None:
    """Raises `NameClash` where a number has another name."""
    if name != other:
        raise NameClash(number, (other, name))


def number_of(name: str) -> int:
    """The number that stands for a name. Raises `NameFault`."""
    try:
        text = name.encode()
    except UnicodeEncodeError as fault:
        raise NameFault(fault) from fault
    return int.from_bytes(hashlib.blake2b(text, digest_size=8).digest(), "big") >> 1


class Names:
    """The names that are known, each by its number."""

    def __init__(self) -> None:
        self._names: dict[int, str] = {}

    def __len__(self) -> int:
        return len(self._names)

    def learn(self, names: Iterable[tuple[int, str]]) -> None:
        """Takes in names. Raises `NameClash`."""
        for number, name in names:
            check_name(number, name, self._names.setdefault(number, name))

    def of(self, atoms: Iterable[Atom]) -> dict[int, str]:
        """The names among the arguments of atoms, each by its number. Raises `NameClash`."""
        found: dict[int, str] = {}
        for _, *arguments in atoms:
            for name in arguments:
                if isinstance(name, str):
                    number = number_of(name)
                    check_name(number, name, found.setdefault(number, self._names.get(number, name)))
        return found

    def named(self, atoms: Iterable[Atom]) -> tuple[Atom, ...]:
        """The atoms with names in the place of their numbers."""
        known = self._names
        if not known:
            return tuple(atoms)
        return tuple((symbol, *(known.get(int(value), value) for value in rest)) for symbol, *rest in atoms)


def numbered(atom: Atom) -> Atom:
    """The atom with numbers in the place of its names. What is no atom is left as it is."""
    if not isinstance(atom, (tuple, list)) or not atom:
        return atom
    symbol, *arguments = atom
    return (symbol, *(number_of(value) if isinstance(value, str) else value for value in arguments))


def named_atoms_of(text: str) -> tuple[Atom, ...]:
    """The atoms of a line: `path(berlin,"São Paulo",1050), coin`, in its order. ValueError where it has none, which
    says what is wrong and where."""
    atoms: list[Atom] = []
    at, more = 0, ","
    while more:
        found = _ATOM.match(text, at)
        if not found:
            raise _fault_of(text)
        try:
            atoms.append((found[1], *map(_argument_of, _ARGUMENTS.findall(found[2] or ""))))
        except json.JSONDecodeError:
            raise _fault_of(text) from None
        at, more = found.end(), found[3]
    return tuple(atoms)


def _fault_of(line: str) -> ValueError:
    """What is wrong with a line that has no atoms."""
    try:
        facts_of(line)
    except ValueError as fault:
        return fault
    return ValueError("these are no facts")


def pattern_of(line: str, at: int) -> tuple[str, tuple[str | int | None, ...]]:
    """What a line asks for from a place on: a symbol, and arguments, where None stands for any, or no arguments.
    ValueError where it asks for nothing."""
    symbol, arguments = pattern_in(line, at)
    return symbol, tuple(None if argument == ANY else _argument_of(argument) for argument in arguments)


def named_text(atoms: Iterable[Atom]) -> str:
    """The atoms as a line, which `named_atoms_of` reads back; `true` where there are none."""
    shown = (f"{symbol}({','.join(map(_argument_text, rest))})" if rest else str(symbol) for symbol, *rest in atoms)
    return ", ".join(shown) or "true"


def _argument_of(text: str) -> str | int:
    if text[0] == '"':
        name = str(json.loads(text))
        # a lone surrogate is no text, and has no number
        number_of(name)
        return name
    return text if text[0].isalpha() else _value_of(text)


def _value_of(text: str) -> int:
    digits = text.lstrip("-0")
    if len(digits) > _MOST_DIGITS:
        shown = text if len(text) <= 40 else f"{text[:38]}.."
        raise ValueError(f"the number {shown} does not fit 64 bits")
    value = int(digits or "0")
    return -value if text[0] == "-" else value


def _argument_text(argument: str | int) -> str:
    if isinstance(argument, int) or _BARE.fullmatch(argument):
        return str(argument)
    return json.dumps(argument, ensure_ascii=False)
