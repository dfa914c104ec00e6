"""A node whose operations go through a log."""

import logging
import os
import re
import threading
import weakref
from collections.abc import Callable, Iterable, Iterator, Mapping, Sequence
from contextlib import contextmanager, suppress
from functools import partial
from itertools import chain
from typing import NamedTuple, TypeVar, cast

from ..columns import Columns, ColumnsWarning, Orders, OrderWarning, warn
from ..names import NameClash, Names, named_text, number_of, numbered
from ..node import UNASKED, Timeout
from ..refusals import BadLine, Full, NodeDied, Refused, RefusedProgram, Shape, WrongProcess
from ..stores import StoreReader
from ..texts import (
    Atom,
    Change,
    Id,
    ProgramText,
    Verdict,
    atoms_of,
    atoms_text,
    changes_between,
    found_in,
    program_bytes,
)
from ..words import Wanted, check_pattern, shape_fault
from .any_member import AnyMember
from .faults import (
    Diverged,
    LinkLost,
    LogLost,
    LogUnusable,
    NoProgram,
    OriginShared,
    OtherProgram,
    ProgramChanged,
)
from .folder import PREFIX as FOLDER_PREFIX
from .folder import FolderMember, folder_of
from .following import Watch
from .log import (
    LOG_NAME,
    PATIENCE,
    SEAL_SECONDS,
    Count,
    Entry,
    Link,
    Position,
    Program,
    Rest,
    SetAside,
    State,
    connect,
    has_more,
    one_line,
)
from .replica import Replica, Running
from .telling import Batch, Journal, Operations, Tell, leave_as, tell_of

SNAPSHOT_AFTER = 100_000
"""Told atoms after which a snapshot is taken."""

BATCH = 1000
"""Operations that are appended at once, at most."""

T = TypeVar("T")

_LOG = logging.getLogger("chrrep.link")
_MOVES = 3
"""Origins that a call gives up for others, at most."""
_NUMBER = re.compile(r"-?\d+")
_NO_NAMES: Mapping[int, str] = {}
_NOTHING_APPENDED = (OriginShared, ProgramChanged, LogLost, LogUnusable, LinkLost, Refused, NameClash)
"""What a link raises of a batch, which says then whether it may be in the log all the same."""


class Admitted(NamedTuple):
    """Operations as they are appended, and these as they were told where they may have names."""

    texts: list[str]
    told: Operations | None = None

    def names(self, at: int, known: Names) -> Mapping[int, str]:
        """The names in one batch of them."""
        if self.told is None:
            return _NO_NAMES
        return known.of(chain.from_iterable(self.told[at:at + BATCH]))


class _Journals(threading.local):
    """The journal of each thread's tells."""

    open: Journal | None = None


class Member(AnyMember):
    """A node, and its link to the log that it shares with other nodes of one program.

    `program` is what a `Node` takes; left out, it is the log's. The first member gives the log its program, judged as
    `check` judges it, also with `wide`, and all members judge it so; one that brings another text, or asks by `wide`
    for another way, is `OtherProgram`. `chrrep` names the program to run, and
    `timeout` is how long the node may take to answer, `ANSWER_SECONDS` left out, as for a `Node`; how long the engine
    may is the link's.

    An operation is appended to the log before the node is told it. So what was told is in the log; a member that comes
    back begins with the log's snapshot, reads what came after it, and goes on with the number after its greatest. After
    each `snapshot_after` told atoms it takes a snapshot, with which others begin, and which the log needs no operations
    for. Calls may come from any thread. Leaving a `with` ends the node; the link is closed by whoever opened it.
    """

    _brought: Replica | None = None
    """A node of the program that is brought, where one was made before the link."""

    def __init__(
        self,
        link: Link,
        program: ProgramText | None = None,
        *,
        wide: bool | None = None,
        chrrep: str | os.PathLike[str] | None = None,
        timeout: Timeout = UNASKED,
        snapshot_after: int = SNAPSHOT_AFTER,
    ) -> None:
        self.link = link
        self._lock = threading.RLock()
        self._snapshot_after = snapshot_after
        self._told_since = 0
        self._last_told = 0
        self._is_sure = True
        self._unsettled: Tell | None = None
        self._late: Exception | None = None
        self._journals = _Journals()
        self._refused = 0
        self._unkept: list[SetAside] = []
        self._names = Names()
        self._place = 0
        self._kept_names: set[int] = set()
        self._store = StoreReader(self._names.named)
        self._running = Running(chrrep, timeout)
        self._listeners: list[Callable[[Sequence[Entry]], object]] = []
        self._epoch: int
        self._generation: int
        self._replica, state = _joined(link, program, wide, self._running, self._brought)
        link.position = _position_of(weakref.ref(self))
        try:
            self._take_up(self._replica, state)
            while not self._is_caught_up():
                # the log may have gone over to a program that is not the one brought
                self._replace(*_joined(link, program, wide, self._running))
        except BaseException:
            self.close()
            raise

    @property
    def origin(self) -> int:
        """The origin of the operations that this member tells."""
        return self.link.origin

    @property
    def program(self) -> Program:
        """The program of the log."""
        return self._replica.program

    @property
    def verdict(self) -> Verdict:
        """What was said of the program."""
        return self._replica.node.verdict

    @property
    def columns(self) -> Columns:
        """What the program's text tells of symbols and their columns."""
        return self._columns

    @property
    def pid(self) -> int:
        """The id of the node's process, which is another one after the node was renewed."""
        return self._replica.node.pid

    @property
    def refused(self) -> int:
        """How many entries of the log this member has met that the program refuses. They are set aside, and
        `link.refused()` gives all of them."""
        return self._refused

    def tell(self, *atoms: Atom, after: BaseException | None = None) -> Id:
        """Appends one operation to the log, has the node told it, and gives its id. Text as an argument is a name.

        Raises what the node would raise of the atoms (`Shape`, `UnknownSymbol`, ..), `Full`, `NameClash`,
        `OriginShared`, `ProgramChanged`, `LinkLost`, `LogUnusable` and `NodeDied`. Each says by `told` and `unsure`
        whether the operation is in the log. Told `after` what was raised, the same operation is not told twice.
        """
        return self._told([atoms], after)[0]

    def tell_many(self, tells: Iterable[Iterable[Atom]], *, after: BaseException | None = None) -> list[Id]:
        """Tells operations of 1 to 64 atoms each as `tell` does, many at once, and gives their ids.

        Where the node refuses one of them, none is told. They are appended by `BATCH`, each batch whole or not at all.
        What is raised has the ids of those that are `told`, the first ones, and of those that are `unsure`, which
        follow. `after` it the same operations are told on, and none of them twice.
        """
        return self._told([tuple(atoms) for atoms in tells], after)

    def follow(self, wait: float = 0.0) -> int:
        """Reads on in the log, and says how many operations were new. Where there are none it waits for one, up to so
        many seconds.

        Raises `OriginShared` where another node tells operations of the origin that this one asked for, and
        `ProgramChanged`. A member whose origin was allotted takes another.
        """
        self.link.check_process()
        after = self._held()
        entries, generation = self.link.read(after, wait)
        with self._lock:
            if generation != self._generation:
                self._meet_snapshot()
            # it may have gone on from a snapshot, and so from before what was asked for
            if has_more(after, self._replica.position):
                return 0
            if any(self._is_of_another(entry) for entry in entries):
                self._move()
            return self._read(entries)

    def catch_up(self) -> int:
        """Reads all that is in the log by now, and says how many operations were new. Raises `LinkLost` where the log
        has lost some."""
        self.link.check_process()
        held = self._held()
        newest = self.link.newest()
        if has_more(held, newest):
            raise LogLost("operations that were in the log are not there any more")
        count = 0
        while True:
            before = self._held()
            count += self.follow()
            if not has_more(newest, self._held()):
                return count
            if self._held() == before:
                raise LinkLost("operations that the log has are not read from it")

    def show(self, symbol: str | None = None, *pattern: str | int | None) -> tuple[Atom, ...]:
        """The store at rest of all that is in the log by now, or of it the atoms that a `Node` shows for a pattern. A
        number whose name was told is given as the name."""
        if symbol is None:
            return self._store.atoms_of(self._show(), len(self._names))
        check_pattern((symbol, *pattern), self.columns.symbols, self._wanted)
        numbers = (number_of(value) if isinstance(value, str) else value for value in pattern)
        return self._names.named(found_in(self._show(), symbol, *numbers))

    def show_text(self) -> str:
        """The store at rest of all that is in the log by now, as it is printed, with names."""
        text = self._show()
        return named_text(self._store.atoms_of(text, len(self._names))) if len(self._names) else text

    def count(self, symbol: str, *pattern: str | int | None) -> int:
        """How many atoms `show` gives."""
        return len(self.show(symbol, *pattern))

    def watch(self) -> Watch:
        """What looks at the store, again and again."""
        return Watch(self)

    def change_from(self, before: str) -> tuple[Change, str]:
        """What came and went since the store had this text, and the text that it has now; numbers for names there."""
        after = self._show()
        if after == before:
            return Change((), ()), after
        return Change(*map(self._names.named, changes_between(before, after))), after

    def snapshot(self) -> bool:
        """Takes a snapshot of all that is in the log by now, and says whether the log has it.

        It has not where another member was faster. Where the log has a snapshot of this position already, both are
        compared: a difference is `Diverged`.
        """
        self.link.check_process()
        with self._lock:
            self._told_since = 0
            # what was appended by then is read before the snapshot is taken
            count = self.link.count()
            self.catch_up()
            there = self.link.mark()
            if there.epoch != self._epoch:
                raise ProgramChanged
            if there.position == self._replica.position:
                self._compare(self.link.state())
                return True
            if there.generation != count.generation or has_more(there.position, self._replica.position):
                return False
            return self._keep(count)

    def upgrade(self, program: ProgramText, *, wide: bool | None = None) -> None:
        """Has the log go over to another program, which is told the store at rest of all that is in the log by now.

        Others wait until that is done, and are told `ProgramChanged` then; this member goes on. Nothing has changed
        where the program is refused, or lacks a symbol of the store (`UnknownSymbol`).
        """
        self.link.check_process()
        new = Replica(Program(program_bytes(program), wide), self._running)
        is_sealed = False
        try:
            with self._lock:
                while not self._go_over(new):
                    # others tell so fast that it was never done in between
                    self.link.seal(SEAL_SECONDS)
                    is_sealed = True
        finally:
            new.close()
            if is_sealed:
                self.link.seal(0.0)
        self.rejoin()

    def rejoin(self) -> bool:
        """Goes on with the program that the log has by now, and says whether that is another."""
        with self._lock:
            if self.link.mark().epoch == self._epoch:
                return False
            is_there = False
            while not is_there:
                self._replace(*_joined(self.link, None, None, self._running))
                self._told_since = 0
                self._is_sure = False
                is_there = self._is_caught_up()
            _LOG.info("the log went over to another program, of epoch %d", self._epoch)
            if self.when_rejoined:
                self.when_rejoined()
            return True

    def going_over(self, call: Callable[[], T]) -> T:
        """The call's result, after `rejoin` where the log went over to another program. The call is made again then,
        and what it told before isn't told again, where it tells the same operations in the same order."""
        with self._journal() as journal:
            begin = journal.place
            while True:
                try:
                    return call()
                except ProgramChanged as changed:
                    self._rejoin_after(changed)
                    journal.place = begin

    def listen(self, call: Callable[[Sequence[Entry]], object]) -> None:
        """From now on has the call made with entries that the node is told, as they come. It is not to take long, nor
        to call the member."""
        self._listeners.append(call)

    def named(self, atoms: Iterable[Atom]) -> tuple[Atom, ...]:
        """The atoms with names in the place of numbers, as far as this member knows them by now."""
        return self._names.named(atoms)

    def close(self) -> None:
        """Ends the node. To close twice is no fault. In a process that was forked nothing is done."""
        with suppress(WrongProcess):
            self.link.check_process()
            self._replica.close()

    def __repr__(self) -> str:
        return f"<chrrep.link.Member of origin {self.origin}: {self._replica.node!r}>"

    def _rejoin_after(self, changed: ProgramChanged) -> None:
        """Goes on with the log's program, if another thread was not faster. What is raised says what became of a tell
        that the change cut off."""
        try:
            self.rejoin()
        except BaseException as fault:
            leave_as(fault, changed)
            raise

    @contextmanager
    def _journal(self) -> Iterator[Journal]:
        """The journal of the tells that this thread makes."""
        outer = self._journals.open
        journal = self._journals.open = outer or Journal()
        try:
            yield journal
        finally:
            self._journals.open = outer

    def _told(self, operations: Operations, after: BaseException | None) -> list[Id]:
        """Tells operations, or goes on with them after what was raised, and gives their ids."""
        self.link.check_process()
        tell = self._begun(operations, after)
        try:
            with self._lock:
                self._go_on(tell)
                return list(tell.told)
        except BaseException as fault:
            tell.leave_by(fault)
            raise

    def _begun(self, operations: Operations, after: BaseException | None) -> Tell:
        """The tell of operations, or the one that goes on after what was raised."""
        if after is not None:
            return tell_of(after, operations, Tell)
        journal = self._journals.open
        return journal.next(operations) if journal else Tell(operations)

    def _go_over(self, new: Replica) -> bool:
        """Puts another program and its store into the log, and says whether nothing was appended in the meantime."""
        count = self.link.count()
        self.catch_up()
        new.begin(self._replica.position, self._replica.show())
        store = new.show()
        rest = self._rest(new, store, count)
        if rest.room > self.link.room_limit:
            most = self.link.room_limit
            raise Full(f"under the new program the store can come to {rest.room} atoms: the log holds {most}")
        state = State(self._epoch + 1, new.program, self.link.mark().generation + 1, self._held(), store)
        return self.link.keep(state, True, rest)

    def _keep(self, count: Count) -> bool:
        """Puts the store into the log as its snapshot, and says whether that was done."""
        store = self._replica.show()
        rest = self._rest(self._replica, store, count)
        state = State(self._epoch, self.program, count.generation + 1, self._held(), store)
        if not self.link.keep(state, False, rest):
            return False
        self._generation = state.generation
        if rest.unused:
            self._kept_names = {number for _, number, _ in self.link.names()}
        _LOG.info("snapshot %d of the log was taken", state.generation)
        return True

    def _rest(self, replica: Replica, store: str, count: Count) -> Rest:
        """What is known of a store at rest that is to be a snapshot."""
        self._learn_names()
        unused = self._kept_names.difference(map(int, _NUMBER.findall(store))) if self._kept_names else ()
        return Rest(replica.counting.of_store(store), sorted(unused), count)

    def _learn_names(self) -> None:
        """Takes in the names that have come into the log."""
        for place, number, name in self.link.names(self._place):
            self._names.learn([(number, name)])
            self._kept_names.add(number)
            self._place = place

    def _show(self) -> str:
        """The store at rest of all that is in the log by now, without names, which are known then."""
        self.catch_up()
        # not while another thread renews the node
        with self._lock:
            self._raise_late()
            text = self._replica.show()
            self._learn_names()
        return text

    def _admitted(self, operations: Operations) -> Admitted:
        """Operations that the node takes, as they are appended."""
        texts = self._replica.writing.texts(operations)
        if texts is not None:
            return Admitted(texts)
        # there are names, or what is to be refused
        with self._in_words(operations):
            texts = self._asked([[numbered(atom) for atom in atoms] for atoms in operations])
        for said in self._orders.found(atom for atoms in operations for atom in atoms):
            warn(said, OrderWarning)
        for name in self._names.of(atom for atoms in operations for atom in atoms).values():
            self.link.check_name(name)
        return Admitted(texts, operations)

    @contextmanager
    def _in_words(self, operations: Operations) -> Iterator[None]:
        """Says of operations that are refused what is wrong with the first of them, by their names."""
        try:
            yield
        except (BadLine, Shape) as refusal:
            faults = (shape_fault(atoms_text(atoms), self._wanted) for atoms in operations)
            refusal.say(next(filter(None, faults), None))
            raise

    @property
    def _wanted(self) -> Wanted:
        return Wanted(self._columns.argument, takes_names=True)

    def _asked(self, operations: list[list[Atom]]) -> list[str]:
        """Operations without names as they are appended, of which the node was asked where it has to be."""
        writing = self._replica.writing
        texts = writing.texts(operations)
        if texts is None:
            texts = list(map(atoms_text, operations))
            self._replica.admit(self._batch(texts, {}).entries)
            writing.learn(operations)
        return texts

    def _batch(self, texts: Sequence[str], names: Mapping[int, str]) -> Batch:
        """The batch that this member appends next."""
        link, replica = self.link, self._replica
        before = replica.position.get(link.origin, 0)
        room = replica.counting.of_written(texts)
        return Batch(Id(link.origin, before + 1), texts, link.writer, self._epoch, before, room, names)

    def _take_up(self, replica: Replica, state: State) -> None:
        self._replica, self._epoch, self._generation = replica, state.epoch, state.generation
        self._columns = replica.node.columns
        self._orders = Orders(self._columns)
        self._late = None
        for fault in self._columns.faults:
            warn(f"the program names columns in vain: {fault}", ColumnsWarning)

    def _replace(self, replica: Replica, state: State) -> None:
        """Goes on with another replica, of what the log has by now."""
        self._replica.close()
        self._take_up(replica, state)

    def _is_caught_up(self) -> bool:
        """Reads all that is in the log by now, and says whether its program is still this one."""
        try:
            self.catch_up()
        except ProgramChanged:
            return False
        return True

    def _held(self) -> dict[int, int]:
        with self._lock:
            return dict(self._replica.position)

    def _is_of_another(self, entry: Entry) -> bool:
        """Whether another node has told an entry of this origin since this one has told."""
        if entry.id.origin != self.origin or entry.writer == self.link.writer:
            return False
        # who had the origin before has told up to there, at most
        return 0 < self._last_told < entry.id.number

    def _go_on(self, tell: Tell) -> None:
        """Tells what is left of the operations of a call."""
        if not tell.rest:
            return
        if self._late:
            self._raise_late()
        if not self._is_sure or self._unsettled or tell.unsure:
            self._make_sure(tell)
        # nothing may be left by now
        if not (rest := tell.rest):
            return
        begin, operations = len(tell.told), self._admitted(rest)
        moves = 0
        while (at := len(tell.told) - begin) < len(rest):
            try:
                self._append(tell, operations.texts[at:at + BATCH], operations.names(at, self._names))
            except OriginShared:
                moves += 1
                if not self.link.is_allotted or moves > _MOVES:
                    raise
                self._leave_origin(tell)

    def _make_sure(self, tell: Tell) -> None:
        """Finds out what is in the log of what this member was appending, and reads it."""
        if self._unsettled and self._unsettled is not tell:
            # where nobody knows any more it stays unsure
            with suppress(OriginShared):
                self._settle(self._unsettled)
        self._settle(tell)
        self._unsettled = None
        if not self._is_sure:
            self.catch_up()
            self._is_sure = True

    def _settle(self, tell: Tell) -> None:
        """Finds out whether what is unsure is in the log; from then on it doesn't come there any more."""
        if tell.unsure:
            tell.settle(self.link.settle(tell.unsure.last))

    def _leave_origin(self, tell: Tell) -> None:
        """Goes on with another origin, and finds out first what came into the log under the one before."""
        self._settle(tell)
        self._move()
        self._is_sure = False
        self._make_sure(tell)

    def _append(self, tell: Tell, texts: Sequence[str], names: Mapping[int, str]) -> None:
        """Appends one batch, and makes room for it in the log where that has to be."""
        try:
            self._put(tell, texts, names)
        except Full as fault:
            self._make_room(fault)
            self._put(tell, texts, names)

    def _put(self, tell: Tell, texts: Sequence[str], names: Mapping[int, str]) -> None:
        """Has the link append a batch, and takes notice of what becomes of it."""
        batch = self._batch(texts, names)
        self._is_sure = False
        tell.unsure, self._unsettled = batch, tell
        try:
            self.link.append(batch)
        except _NOTHING_APPENDED:
            if not batch.is_unsure:
                tell.unsure, self._unsettled, self._is_sure = None, None, True
            raise
        self._take_in(tell, batch)

    def _take_in(self, tell: Tell, batch: Batch) -> None:
        """Takes notice that a batch is in the log. Nothing of what follows is raised: what was told stays told."""
        tell.settle(True)
        self._unsettled = None
        self._last_told = batch.end
        self._told_since += self._replica.owe(batch)
        self._is_sure = True
        try:
            if batch.names:
                self._names.learn(batch.names.items())
            if self._listeners:
                self._hear(batch.entries)
            if self._replica.is_due:
                self._replica.give()
            self._keep_where_due()
        except Exception as fault:
            self._late = fault
            _LOG.warning("what was told is in the log, but then: %s", one_line(fault))

    def _raise_late(self) -> None:
        """Raises what an earlier call found out after it had told its operations."""
        late = self._late
        if isinstance(late, NodeDied):
            raise NodeDied(late.what, late.status)
        self._late = None
        if late:
            raise late

    def _make_room(self, fault: Full) -> None:
        """Has a snapshot stand for what is in the log; raises the fault where it does that already."""
        self.catch_up()
        if self.link.mark().position == self._replica.position:
            raise fault
        self.snapshot()

    def _move(self) -> None:
        """Goes on with another origin. `OriginShared` where this one was asked for."""
        if not self.link.is_allotted:
            raise OriginShared(self.origin)
        self.link.take_another_origin()
        self._last_told = 0

    def _read(self, entries: list[Entry]) -> int:
        """Has the node told what is new of the entries, sets aside what it refuses, and says how many were told."""
        if self._listeners:
            held = self._held()
            self._hear([entry for entry in entries if entry.id.number > held.get(entry.id.origin, 0)])
        taken = self._replica.take(entries)
        self._unkept += taken.refused
        self._set_aside()
        self._told_since += taken.atoms
        self._keep_where_due()
        return taken.operations

    def _hear(self, entries: Sequence[Entry]) -> None:
        for call in self._listeners:
            call(entries)

    def _set_aside(self) -> None:
        while self._unkept:
            entry, reason = self._unkept[0]
            self.link.set_aside(self._unkept[0])
            del self._unkept[0]
            self._refused += 1
            _LOG.warning("entry %d:%d of the log is set aside: %s", *entry.id, reason)

    def _keep_where_due(self) -> None:
        """Takes a snapshot where so much was told since the last."""
        if self._told_since < self._snapshot_after:
            return
        try:
            self.snapshot()
        except (LinkLost, LogUnusable, OriginShared, ProgramChanged) as fault:
            # the next call finds out too
            _LOG.warning("no snapshot was taken: %s", fault)

    def _meet_snapshot(self) -> None:
        """Takes notice of the log's new snapshot, and goes on from it where it has what the node hasn't."""
        mark = self.link.mark()
        if mark.epoch != self._epoch:
            raise ProgramChanged
        if has_more(mark.position, self._replica.position):
            state = self.link.state()
            if state.epoch != self._epoch:
                raise ProgramChanged
            # the member's own may be beyond it, and are read again
            self._is_sure = False
            _begin(self._replica, state)
            self._generation = state.generation
            _LOG.info("the node goes on from snapshot %d of the log", state.generation)
        else:
            self._generation = mark.generation
            if mark.position == self._replica.position:
                self._compare(self.link.state())
        self._told_since = 0

    def _compare(self, there: State) -> None:
        """Raises `Diverged` where the snapshot of this position is another store."""
        if there.position == self._replica.position and there.store != (ours := self._replica.show()):
            raise Diverged(dict(there.position), self._with_names(ours), self._with_names(there.store))

    def _with_names(self, store: str) -> str:
        """A store's text as it is shown; as it is where it is none."""
        with suppress(ValueError):
            return named_text(self._names.named(atoms_of(store)))
        return store


class Joined(Member):
    """A member that closes its link too."""

    def __init__(
        self,
        connects: Callable[[], Link],
        program: bytes | None,
        brought: Replica | None,
        *,
        wide: bool | None,
        timeout: Timeout,
        snapshot_after: int,
    ) -> None:
        self._brought = brought
        link = connects()
        try:
            super().__init__(link, program, wide=wide, timeout=timeout, snapshot_after=snapshot_after)
        except BaseException:
            link.close()
            raise
        self._brought = None

    def close(self) -> None:
        """Ends the node, and closes the link."""
        super().close()
        self.link.close()


def join(
    url: str,
    program: ProgramText | None = None,
    *,
    origin: int | None = None,
    log: str = LOG_NAME,
    patience: float = PATIENCE,
    wide: bool | None = None,
    timeout: Timeout = UNASKED,
    snapshot_after: int = SNAPSHOT_AFTER,
) -> Member:
    """A member of the log in the engine that the address names, as `connect` and `Member` say. Its `close`, or leaving
    a `with`, closes all. Where the program is refused, or there is none, no file is made.

    The address `dir:///PATH` names a folder, and gives a `FolderMember`, which has the calls of a member but those of
    snapshots and of other programs. `patience` and `snapshot_after` are nothing to it."""
    text = None if program is None else program_bytes(program)
    if url.startswith(FOLDER_PREFIX):
        if log != LOG_NAME:
            raise ValueError(f"a folder has no log {log!r}: leave it out")
        folder = FolderMember(folder_of(url), text, origin=origin, wide=wide, timeout=timeout)
        # what it lacks of a member is what a log alone has
        return cast(Member, folder)
    brought = _brought(text, wide, Running(timeout=timeout)) if _makes_file(url) else None
    connects = partial(connect, url, origin, log=log, patience=patience)
    try:
        return Joined(connects, text, brought, wide=wide, timeout=timeout, snapshot_after=snapshot_after)
    except BaseException:
        if brought:
            brought.close()
        raise


def _makes_file(url: str) -> bool:
    """Whether to connect makes a file."""
    if not url.startswith("sqlite:"):
        return False
    from .sqlite import PREFIX

    path = url.removeprefix(PREFIX)
    is_file = path not in ("", url) and os.path.isdir(os.path.dirname(os.path.abspath(path)))
    return is_file and not os.path.exists(path)


def _brought(text: bytes | None, wide: bool | None, running: Running) -> Replica:
    """A node of a program that is brought to a log. What is refused is no log's program."""
    if text is None:
        raise NoProgram
    return Replica(Program(text, wide), running)


def _position_of(reference: "weakref.ref[Member]") -> Callable[[], Position]:
    """How a link asks its member for its position: without its lock, which a call holds while the engine is away, and
    without keeping it alive."""

    def position() -> Position:
        member = reference()
        return dict(member._replica.position) if member else {}

    return position


def _joined(
    link: Link, program: ProgramText | None, wide: bool | None, running: Running, replica: Replica | None = None
) -> tuple[Replica, State]:
    """A node of the log's program, which is the one brought where the log has none, and what the log and the node go on
    from. A node of the program that is brought may be there already."""
    text = None if program is None else program_bytes(program)
    state = link.state()
    try:
        if state.program is None:
            replica = replica or _brought(text, wide, running)
            link.begin(replica.program)
            state = link.state()
        assert state.program
        if text is not None and text != state.program.text or wide is not None and wide != state.program.is_wide:
            raise OtherProgram(state.program.text if text is None else text, state.program.text)
        if replica is None or replica.program != state.program:
            other, replica = replica, _replica_of(state.program, running)
            if other:
                other.close()
        _begin(replica, state)
        return replica, state
    except BaseException:
        if replica:
            replica.close()
        raise


def _replica_of(program: Program, running: Running) -> Replica:
    """A node of the program that a log has."""
    try:
        return Replica(program, running)
    except RefusedProgram as refusal:
        raise LogUnusable(f"the log's program is refused: {one_line(refusal)}") from refusal


def _begin(replica: Replica, state: State) -> None:
    """Has a node go on from the snapshot that a log has."""
    if not state.position:
        return
    try:
        replica.begin(state.position, state.store)
    except Full:
        raise
    except (ValueError, Refused) as fault:
        raise LogUnusable(f"the log's snapshot is damaged: {one_line(fault)}") from fault
