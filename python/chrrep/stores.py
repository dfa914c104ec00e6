"""Texts of one store that are read one after another: what has not changed is not read again."""

from collections.abc import Callable, Iterable
from typing import NamedTuple

from .texts import Atom, atoms_of, difference_of

KEPT_LENGTH = 8_000_000
"""A text that is longer is not kept, nor are its atoms."""


class _Kept(NamedTuple):
    """A text that was read, its atoms, and how many names were known then."""

    text: str
    atoms: tuple[Atom, ...]
    names: int


_NONE = _Kept("true", (), 0)


class StoreReader:
    """Reads texts of a store, each beside the one before. Calls may come from any thread."""

    def __init__(self, named: Callable[[Iterable[Atom]], tuple[Atom, ...]] = tuple) -> None:
        """`named` gives atoms names for their numbers, each atom by itself."""
        self._named = named
        self._kept = _NONE

    def atoms_of(self, text: str, names: int = 0) -> tuple[Atom, ...]:
        """The named atoms of a store's text, in its order. `names` is the number of known names, which never change."""
        # another thread may keep another text meanwhile
        kept = self._kept
        if kept.names != names:
            kept = _NONE
        atoms = kept.atoms if text == kept.text else self._changed(kept, text)
        self._kept = _Kept(text, atoms, names) if len(text) <= KEPT_LENGTH else _NONE
        return atoms

    def _changed(self, kept: _Kept, text: str) -> tuple[Atom, ...]:
        differs = difference_of(kept.text, text)
        new = self._named(atoms_of(text[differs.start:differs.end(text)]))
        if not kept.atoms:
            return new
        before = kept.text.count(", ", 0, differs.start)
        after = kept.text.count(", ", differs.end(kept.text))
        return kept.atoms[:before] + new + kept.atoms[len(kept.atoms) - after:]
