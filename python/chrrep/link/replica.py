"""A node's process that goes on from a store, and is renewed before it is full."""

import json
import logging
import os
from collections.abc import Iterable, Iterator, Sequence
from typing import NamedTuple

from ..node import UNASKED, Node, Timeout
from ..refusals import Full, Refused
from ..texts import (
    LINE_LIMIT,
    OPERATION_LIMIT,
    TOLD_LIMIT,
    Atom,
    Id,
    OperationText,
    Written,
    atoms_of,
    atoms_text,
    text_pieces,
)
from .log import LAST_ORIGIN, Entry, Position, Program, SetAside
from .room import Counting
from .telling import Batch
from .writing import Writing

OWED_ATOMS = 2_000
"""Atoms that were told and that the node has yet to be given, at most: it is given many at once."""

_LOG = logging.getLogger("chrrep.link")
_STORE_ORIGIN = LAST_ORIGIN + 1
_BRACKETS = 3
"""Brackets that an operation in a delta opens beside those of its atoms."""
_LONGEST = LINE_LIMIT - 100
"""Bytes of a delta of one line, at most."""


class Taken(NamedTuple):
    """What became of entries: how many operations were taken, their atoms, and what was refused."""

    operations: int
    atoms: int
    refused: list[SetAside]


class Running(NamedTuple):
    """Which program is run as nodes, and how long these may take to answer."""

    chrrep: str | os.PathLike[str] | None = None
    timeout: Timeout = UNASKED


class Replica:
    """The store of all operations up to a position, by a node of its own.

    The node holds the operations that it was told, 1,000,000 atoms at most. Before they are too many it is ended, and
    another one goes on from its store at rest: resting parts of a store and merging them gives the store of the whole.
    That has no more atoms than the log has room for.
    """

    def __init__(self, program: Program, running: Running = Running()) -> None:
        self.program = program
        """How it is judged is known from its first node on, and the others judge so too."""
        self.position: dict[int, int] = {}
        self.told = 0
        self.writing = Writing()
        self.counting = Counting(program.text)
        self._owed: list[Batch] = []
        self._owed_atoms = 0
        self._begun_with = 0
        self._running = running
        self.node = self._new_node()
        self.program = program._replace(is_wide=self.node.verdict.is_wide)

    def begin(self, position: Position, store: str) -> None:
        """Goes on from a store, which stands for all operations up to a position."""
        self._go_on_from(store)
        self.position = dict(position)
        # what the store doesn't stand for is read again
        self._owed, self._owed_atoms = [], 0

    def admit(self, entries: Sequence[Entry]) -> None:
        """Raises what the program refuses of entries that are to be told; changes nothing."""
        for part in text_pieces(entries):
            self.node.admit_texts(part)

    def owe(self, batch: Batch) -> int:
        """Takes in operations that were admitted and are in the log, and says how many atoms they have. The node is
        given them before it is asked for anything."""
        texts, end = batch.texts, batch.end
        atoms = "".join(texts).count("[") - len(texts)
        # no call stands between these, so that an interrupt comes before all of them or after
        self.position[batch.first.origin] = end
        self._owed += (batch,)
        self._owed_atoms += atoms
        return atoms

    @property
    def is_due(self) -> bool:
        """Whether the node is to be given what it has yet to be given."""
        return self._owed_atoms >= OWED_ATOMS

    def give(self) -> None:
        """Gives the node what it has yet to be given."""
        while self._owed:
            count = len(self._owed)
            while len(text := ",".join([one.delta() for one in self._owed[:count]])) > _LONGEST and count > 1:
                count //= 2
            if len(text) > _LONGEST:
                # operations that were told at once need not fit a line
                self._owed[:1] = self._owed[0].halves
            else:
                self._give(text, count)

    def take(self, entries: Iterable[Entry]) -> Taken:
        """Takes in the entries that are beyond the position, each once; what can't be taken is passed over.

        They may come in any order, but none of an origin may be missing before the greatest.
        """
        self.give()
        operations = atoms = 0
        refused: list[SetAside] = []
        for part in text_pieces(self._beyond(entries)):
            bad = self._merge(part)
            refused += bad
            operations += len(part) - len(bad)
            atoms += _count_atoms(part) - _count_atoms(entry for entry, _ in bad)
            self.position |= {entry.id.origin: entry.id.number for entry in part}
        return Taken(operations, atoms, refused)

    def show(self) -> str:
        """The store at rest, as it is printed."""
        self.give()
        return self.node.show_text()

    def close(self) -> None:
        """Ends the node."""
        self.node.close()

    def _give(self, text: str, count: int) -> None:
        """Gives the node the first `count` batches that it has yet to be given, which have this text."""
        atoms = text.count("[") - _BRACKETS * sum(len(one.texts) for one in self._owed[:count])
        self._make_room(atoms)
        try:
            self.node.merge_text_soon(f"[{text}]")
            # no call stands between these: what was sent is not sent again
            self.told += atoms
            self._owed_atoms -= atoms
            del self._owed[:count]
        except Exception:
            raise
        except BaseException:
            # whether it was sent isn't known, and a node that is renewed would take it twice
            self.node.close()
            raise

    def _new_node(self) -> Node:
        chrrep, timeout = self._running
        return Node(self.program.text, _STORE_ORIGIN, chrrep=chrrep, wide=self.program.is_wide, timeout=timeout)

    def _beyond(self, entries: Iterable[Entry]) -> list[Entry]:
        """Those beyond the position, each once, by their ids."""
        new: dict[Id, Entry] = {}
        for entry in entries:
            if entry.id.number > self.position.get(entry.id.origin, 0):
                new.setdefault(entry.id, entry)
        return [new[id] for id in sorted(new)]

    def _merge(self, part: list[Entry]) -> list[SetAside]:
        """Has the node merge entries, and gives those that are no operations or that it refuses."""
        faults = [(entry, _fault_of(entry)) for entry in part]
        refused = [SetAside(entry, fault) for entry, fault in faults if fault]
        return refused + self._merge_readable([entry for entry, fault in faults if not fault])

    def _merge_readable(self, part: list[Entry]) -> list[SetAside]:
        count = _count_atoms(part)
        try:
            if self.told + count > TOLD_LIMIT:
                # what is refused needs no room
                self.node.admit_texts(part)
                self._make_room(count)
            self.node.merge_texts(part)
        except Refused as refusal:
            if len(part) > 1:
                half = len(part) // 2
                return self._merge_readable(part[:half]) + self._merge_readable(part[half:])
            if isinstance(refusal, Full):
                raise
            return [SetAside(part[0], str(refusal))]
        self.told += count
        return []

    def _make_room(self, atoms: int) -> None:
        """Renews the node where it has no room for `atoms` atoms more. `Full` where its store alone leaves none."""
        if self.told + atoms > TOLD_LIMIT and self.told > self._begun_with:
            self._go_on_from(self.node.show_text())
            _LOG.info("a node that was nearly full was renewed: %d atoms are told", self.told)
        if self.told + atoms > TOLD_LIMIT:
            raise Full(f"the store at rest has {self.told} atoms, and {atoms} more would pass {TOLD_LIMIT}")

    def _go_on_from(self, store: str) -> None:
        """Puts a node that was told just this store in the place of the node."""
        atoms = atoms_of(store)
        node = self._new_node()
        try:
            for part in text_pieces(_operations_of(atoms)):
                node.merge_texts(part)
        except BaseException:
            node.close()
            raise
        self.node.close()
        self.node = node
        self.told = self._begun_with = len(atoms)


def _fault_of(entry: Entry) -> str | None:
    """What keeps the text of an entry from being sent as a part of a line; None where nothing does."""
    if not 0 <= entry.id.origin <= LAST_ORIGIN:
        return f"no node has the origin {entry.id.origin}"
    try:
        json.loads(entry.atoms)
    except (ValueError, RecursionError) as fault:
        return f"no atoms: {fault}"
    return None if entry.atoms.isprintable() and entry.atoms.isascii() else "no atoms: not compact ASCII"


def _count_atoms(entries: Iterable[Written]) -> int:
    """The atoms of entries that a node takes: arrays within one array."""
    return sum(entry.atoms.count("[") - 1 for entry in entries)


def _operations_of(atoms: Sequence[Atom]) -> Iterator[OperationText]:
    """Operations that together tell the atoms of a store."""
    for number, start in enumerate(range(0, len(atoms), OPERATION_LIMIT), 1):
        yield OperationText(Id(_STORE_ORIGIN, number), atoms_text(atoms[start:start + OPERATION_LIMIT]))
