"""Operations as a node takes them, written without asking it."""

from array import array
from collections.abc import Iterable, Sequence
from itertools import chain, islice
from operator import itemgetter
from typing import Any

from ..texts import OPERATION_LIMIT, Atom

_LEAST, _GREATEST = -(2**63), 2**63 - 1
_LONGEST = 100_000
"""Bytes of an operation's atoms, far below what a line may have."""
_DIGITS = 20
"""Digits and sign of a number of 64 bits, at most."""
_SEQUENCES = frozenset((tuple, list))
_NUMBERS = frozenset((int,))
_name_of = itemgetter(0)
_arguments_of = itemgetter(slice(1, None))


class Writing:
    """Writes operations whose symbols the node has taken before. It takes these for sure, so it isn't asked again."""

    def __init__(self) -> None:
        self._forms: dict[tuple[str, int], str] = {}

    def learn(self, operations: Iterable[Sequence[Atom]]) -> None:
        """Takes notice of operations that the node has taken."""
        for atoms in operations:
            for atom in atoms:
                name = atom[0]
                # a name that the node takes needs no escapes
                if type(name) is str and name.isidentifier() and name.isascii():
                    self._forms[name, len(atom)] = f'["{name}"{",%d" * (len(atom) - 1)}]'

    def texts(self, operations: Sequence[Sequence[Any]]) -> list[str] | None:
        """The atoms of each operation as compact JSON; None where the node has to be asked of one."""
        if len(operations) == 1 and len(operations[0]) == 1:
            text = self._text(operations[0][0])
            return None if text is None else [text]
        texts = self._alike(operations)
        return self._many(operations) if texts is None else texts

    def _text(self, atom: Any) -> str | None:
        """An operation of this one atom."""
        # it may be anything, as users give it
        if type(atom) is not tuple and type(atom) is not list or not atom or type(atom[0]) is not str:
            return None
        form = self._forms.get((atom[0], len(atom)))
        if form is None:
            return None
        for value in (values := tuple(atom[1:])):
            # a bool is an int of Python
            if type(value) is not int or not _LEAST <= value <= _GREATEST:
                return None
        text = f"[{form}]" % values
        return text if len(text) <= _LONGEST else None

    def _alike(self, operations: Sequence[Sequence[Any]]) -> list[str] | None:
        """Operations of one atom each, all of one symbol, by the columns of their atoms; None where they are others."""
        try:
            atoms, = zip(*operations, strict=True)
            # they may be anything, as users give them
            if not _SEQUENCES.issuperset(map(type, atoms)):
                return None
            names, *columns = zip(*atoms, strict=True)
            name, = set(names)
            form = self._forms[name, len(columns) + 1]
            values = tuple(chain.from_iterable(zip(*columns)))
            # it takes numbers of 64 bits alone
            array("q", values)
        except (LookupError, TypeError, ValueError, OverflowError):
            return None
        if not _NUMBERS.issuperset(map(type, values)) or len(form) + _DIGITS * len(columns) > _LONGEST:
            return None
        # a text has no end of line
        written = "[" + "]\n[".join([form] * len(atoms)) + "]"
        return (written % values).split("\n")

    def _many(self, operations: Sequence[Sequence[Any]]) -> list[str] | None:
        """Many operations, written by few calls of which each goes through all of them."""
        sizes = list(map(len, operations))
        atoms = list(chain.from_iterable(operations))
        values = self._values_of(atoms)
        if values is None or not sizes or min(sizes) < 1 or max(sizes) > OPERATION_LIMIT:
            return None
        try:
            forms = list(map(self._forms.__getitem__, zip(map(_name_of, atoms), map(len, atoms))))
        except (KeyError, TypeError):
            return None
        if len(atoms) > len(sizes):
            left = iter(forms)
            forms = [",".join(islice(left, size)) for size in sizes]
        # a text has no end of line
        written = "[" + "]\n[".join(forms) + "]"
        texts = (written % values).split("\n")
        return texts if max(map(len, texts)) <= _LONGEST else None

    def _values_of(self, atoms: list[Any]) -> tuple[int, ...] | None:
        """All arguments of atoms; None where one is none, or something is no atom."""
        # they may be anything, as users give them
        if not _SEQUENCES.issuperset(map(type, atoms)) or not all(atoms):
            return None
        values = tuple(chain.from_iterable(map(_arguments_of, atoms)))
        if not _NUMBERS.issuperset(map(type, values)):
            return None
        return values if not values or _LEAST <= min(values) and max(values) <= _GREATEST else None
