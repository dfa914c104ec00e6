"""A node that keeps its facts in a folder: `chrrep node` as a process of its own."""

import json
import logging
import os
import secrets
import tempfile
import threading
import weakref
from collections.abc import Callable, Iterable, Iterator, Sequence
from contextlib import contextmanager, suppress
from functools import cached_property
from itertools import takewhile
from pathlib import Path
from typing import IO, Any, TypeAlias, TypeVar

from ..columns import Columns, ColumnsWarning, Orders, OrderWarning, warn
from ..names import named_text, number_of, numbered
from ..node import ANSWER_SECONDS, Timeout, Unasked, UNASKED, check, program_path
from ..process import Late, Process, end_of
from ..refusals import BadLine, Clash, Full, NodeDied, Refused, Shape, UnknownSymbol, WrongProcess
from ..texts import Atom, Change, Id, ProgramText, Verdict, atoms_text, line_of, program_bytes
from ..words import Wanted, check_pattern, shape_fault, symbol_fault
from .any_member import AnyMember
from .faults import LogUnusable, NoProgram, OriginShared, OtherProgram
from .feeds import Looks, Tails, kept_ids, seen_ids
from .kept_names import KeptNames
from .log import Entry, Program
from .shown import FolderWatch, Shown
from .telling import FolderTell, Sent, tell_of

PREFIX = "dir:///"
"""What the address of a folder begins with."""

BATCH = 500
"""Lines that are sent at once, at most: their answers fit into a pipe."""
BATCH_BYTES = 48_000
"""Bytes of lines that are sent at once, unless one line alone has more."""
RENEWALS = 3
"""How often a call begins the node anew that was killed."""
LAST_ORIGIN = 2**32 - 1

_OF_LINES: dict[int, type[Refused]] = {
    30: BadLine, 31: Shape, 32: UnknownSymbol, 33: Clash, 34: Full, 43: Shape, 44: UnknownSymbol
}
_SAYS = "chrrep node: "
_LOG = logging.getLogger("chrrep.link")

Answer: TypeAlias = list[Any]
"""A line of the node: a word, and what it says."""

T = TypeVar("T")


def folder_of(url: str) -> Path:
    """The folder that an address names, as `sqlite:///PATH` names a file: beside where one is, unless PATH begins with
    a slash."""
    path = url.removeprefix(PREFIX)
    if not path:
        raise ValueError("the address dir:/// names no folder: dir:///PATH does")
    return Path(path)


class FolderMember(AnyMember):
    """A node over a folder, which keeps its facts there, and takes what others tell there.

    `program` is what a `Node` takes; left out, it is the folder's. A folder that isn't there yet is made with it; for
    one that is there another program is `OtherProgram`. What was told is on the disk. Any number of members may have
    one folder, and feeds may be copied into it from other folders of the program, by any means and at any time.

    A node that is killed, or whose answer is cut off by an interrupt, is begun anew: what it was being told is looked
    up in its feed, and told once more only where it isn't there. `origin` is that of the first of these nodes, and of
    no other run of the folder. Calls may come from any thread. Leaving a `with` ends the node.
    """

    _process: Process
    _dropped: Any
    """Ends the node's process, once."""
    _errors: IO[bytes]
    """What the nodes' processes have said of what goes wrong."""
    _origin: int
    _told: int
    """How many operations the node's process was told."""
    _is_up = False
    """Whether the node's process is there, and no exchange with it was cut off."""

    def __init__(
        self,
        path: str | os.PathLike[str],
        program: ProgramText | None = None,
        *,
        origin: int | None = None,
        wide: bool | None = None,
        chrrep: str | os.PathLike[str] | None = None,
        timeout: Timeout = UNASKED,
    ) -> None:
        if origin is not None and not 0 <= origin <= LAST_ORIGIN:
            raise ValueError(f"an origin is a number from 0 to {LAST_ORIGIN}")
        self.path = Path(path)
        self.feeds = self.path / "feeds"
        self.shown = Shown()
        self.tells = 0
        self._lock = threading.RLock()
        self._pid = os.getpid()
        self._wide = wide
        self._chrrep = chrrep
        self._first_limit, self._limit = (None, ANSWER_SECONDS) if isinstance(timeout, Unasked) else (timeout, timeout)
        self._names = KeptNames(self.path / "names")
        self._looks = Looks(self.feeds)
        self._tails: Tails | None = None
        self._listeners: list[Callable[[Sequence[Entry]], object]] = []
        self._ended: NodeDied | None = None
        self._brought = None if program is None else program_bytes(program)
        if self._brought is not None and wide is False:
            check(self._brought, chrrep, wide=False)
        self._errors = tempfile.TemporaryFile()
        try:
            self._begin(self._brought, origin)
            self._orders = Orders(self.columns)
            for fault in self.columns.faults:
                warn(f"the program names columns in vain: {fault}", ColumnsWarning)
        except BaseException:
            if self._is_up:
                self._dropped()
            self._errors.close()
            raise

    @property
    def origin(self) -> int:
        """The origin of the operations that this member tells, another one after its node was begun anew."""
        return self._origin

    @property
    def pid(self) -> int:
        """The id of the node's process, which is another one after it was begun anew."""
        return self._process.pid

    @cached_property
    def program(self) -> Program:
        """The program as it was brought, or else as the folder has it."""
        text = program_bytes(self.path / "program.chr") if self._brought is None else self._brought
        return Program(text, self._wide)

    @cached_property
    def verdict(self) -> Verdict:
        """What is said of the program, which is judged once more for that."""
        return check(self.program.text, self._chrrep, wide=self._wide)

    @cached_property
    def columns(self) -> Columns:
        """What the program's text tells of symbols and their columns."""
        return Columns(self.program.text)

    @property
    def refused(self) -> int:
        """How many files of the folder are left alone: `status` names them."""
        _, _, left, _, _ = self._ask(["status"])
        return len(left)

    def tell(self, *atoms: Atom, after: BaseException | None = None) -> Id:
        """Tells one operation of 1 to 64 atoms, and gives its id once the disk has it. Text as an argument is a name.

        Raises what refuses it (`Shape`, `UnknownSymbol`, ..), `Full`, `NameClash`, `LogUnusable` and `NodeDied`. Each
        says by `told` and `unsure` whether the operation is in the folder. Told `after` what was raised, the same
        operation is not told twice.
        """
        return self.tell_many([atoms], after=after)[0]

    def tell_many(self, tells: Iterable[Iterable[Atom]], *, after: BaseException | None = None) -> list[Id]:
        """Tells operations as `tell` does, many at once, and gives their ids. Where one is refused those before it are
        told, and the others are not.

        What is raised has the ids of those that are `told`, the first ones, and of those that are `unsure`, which
        follow. `after` it the same operations are told on, and none of them twice.
        """
        self._check_process()
        operations = [tuple(atoms) for atoms in tells]
        tell = FolderTell(operations) if after is None else tell_of(after, operations, FolderTell)
        try:
            with self._lock:
                self._go_on(tell)
                return list(tell.told)
        except BaseException as fault:
            tell.leave_by(fault)
            raise

    def show(self, symbol: str | None = None, *pattern: str | int | None) -> tuple[Atom, ...]:
        """The store at rest of all that is in the folder by now, or of it the atoms of a symbol, or those that have
        these arguments, None being any. A number whose name was told is given as the name."""
        with self._lock:
            return self.named(self._show(symbol, *pattern))

    def count(self, symbol: str, *pattern: str | int | None) -> int:
        """How many atoms `show` gives."""
        numbers = self._numbers(symbol, pattern)
        all_ = self.columns.symbols[symbol]
        if not pattern and len(all_) > 1:
            return len(self.show(symbol))
        answer = self._ask(["count", [symbol, *(numbers or [None] * all_[0])]])
        return int(answer[1])

    def show_text(self) -> str:
        """The store at rest of all that is in the folder by now, as it is printed, with names."""
        return named_text(self.show())

    def status(self) -> dict[str, object]:
        """How the node is: the files of the folder that it has read, with the bytes of their records, those that it has
        left alone, with the cause, and how many atoms were told and are at rest."""
        _, feeds, left, told, at_rest = self._ask(["status"])
        return {"feeds": dict(feeds), "left": dict(left), "told": told, "at_rest": at_rest}

    def follow(self, wait: float = 0.0) -> int:
        """Says by 1 that some file of the folder was written since this was asked last, or may have been, and by 0 that
        none was; waits for one, up to so many seconds. A question shows what is there anyway."""
        self._check_process()
        is_new = self._looks.wait(wait)
        if is_new:
            self._call_listeners()
        return int(is_new)

    def catch_up(self) -> int:
        """As `follow`, without waiting."""
        return self.follow()

    def watch(self) -> FolderWatch:
        """What looks at the store, again and again."""
        return FolderWatch(self)

    def hear(self) -> None:
        """Has the node say what came and went, for those that watch."""
        self._asked([b'["changes"]\n'], self._take_changes)
        self._call_listeners()

    def listen(self, call: Callable[[Sequence[Entry]], object]) -> None:
        """From now on has the call made with operations that are told in the folder, as they are seen by who follows
        or watches it. It is not to take long, nor to call the member."""
        with self._lock:
            self._tails = self._tails or Tails(self.feeds)
            self._listeners.append(call)

    def named(self, atoms: Iterable[Atom]) -> tuple[Atom, ...]:
        """The atoms with names in the place of numbers, as far as they were told by now."""
        self._names.learn()
        return self._names.named(atoms)

    def going_over(self, call: Callable[[], T]) -> T:
        """The call's result: a folder keeps its program."""
        return call()

    def rejoin(self) -> bool:
        """Says that the program is the same: a folder keeps its program."""
        return False

    def close(self) -> None:
        """Ends the node. To close twice is no fault. In a process that was forked nothing is done."""
        if os.getpid() != self._pid:
            return
        with self._lock:
            self._ended = self._ended or NodeDied("the node was closed")
            self._names.close()
            self._dropped()
            self._errors.close()

    def __repr__(self) -> str:
        state = "ended" if self._ended else f"process {self.pid}"
        return f"<chrrep.link.FolderMember of {str(self.path)!r}, {state}>"

    def _begin(self, text: bytes | None = None, origin: int | None = None) -> None:
        """Begins the node's process, under an origin that is drawn where none is given."""
        self._origin = secrets.randbits(32) if origin is None else origin
        self._told = 0
        words = [program_path(self._chrrep), "node", "--data", os.fspath(self.path), "--origin", str(self._origin)]
        words += ["--wide"] if self._wide else []
        self._errors.seek(0)
        self._errors.truncate()
        with _file_of(text) as named:
            self._process = Process([*words, *named], self._errors)
            # a member that is dropped ends its process too
            self._dropped = weakref.finalize(self, self._process.close)
            _MEMBERS.add(self)
            try:
                self._answers([b'["last"]\n'], self._first_limit)
            except NodeDied as died:
                self._dropped()
                self._raise_begun(died, text)
                raise
            except BaseException:
                self._dropped()
                raise
        self._is_new = self._is_up = True

    def _raise_begun(self, died: NodeDied, text: bytes | None) -> None:
        """Says why a node has not begun."""
        kept, said = self.path / "program.chr", self._said()
        if died.status == 1:
            check(kept.read_bytes() if text is None else text, self._chrrep, wide=self._wide)
        if died.status == 2 and said.startswith("origin "):
            raise OriginShared(self._origin) from died
        if died.status == 2:
            if not kept.is_file() and text is None:
                raise NoProgram("folder") from died
            if kept.is_file() and text is not None and kept.read_bytes() != text:
                raise OtherProgram(text, kept.read_bytes(), "folder") from died
        if died.status == 3:
            raise LogUnusable(f"the folder {self.path} can't be used: {said}") from died

    def _said(self) -> str:
        """What the node's process has said of what went wrong, once it has ended."""
        self._errors.seek(0)
        return self._errors.read(4096).decode(errors="replace").strip().removeprefix(_SAYS)

    def _go_on(self, tell: FolderTell) -> None:
        """Tells what is left of the operations of a call."""
        self._find_told(tell)
        rest = tell.rest
        texts = [atoms_text([numbered(atom) for atom in atoms]) for atoms in rest]
        self._keep_names([atom for atoms in rest for atom in atoms if self._is_declared(atom)])
        begin, deaths = len(tell.told), 0
        while (at := len(tell.told) - begin) < len(texts):
            try:
                self._tell_some(tell, texts[at:at + BATCH])
            except NodeDied as died:
                self._find_after(tell, died)
                deaths = deaths + 1 if len(tell.told) - begin == at else 0
                if not _is_killed(died) or deaths > RENEWALS:
                    raise

    def _keep_names(self, atoms: Sequence[Atom]) -> None:
        """Has the disk keep the names of atoms, and says where they stand and their order counts."""
        for said in self._orders.found(atoms):
            warn(said, OrderWarning)
        self._names.keep(atoms)

    def _is_declared(self, atom: object) -> bool:
        """Whether it is an atom of a symbol of the program."""
        if not isinstance(atom, (tuple, list)) or not atom or not isinstance(atom[0], str):
            return False
        return len(atom) - 1 in self.columns.symbols.get(atom[0], ())

    def _tell_some(self, tell: FolderTell, texts: Sequence[str]) -> None:
        """Tells some of these operations, and takes notice of those that are told."""
        self._up()
        lines = self._lines_of(texts)

        def take(answers: list[Answer]) -> Answer | None:
            ids = [Id(*answer[1]) for answer in takewhile(lambda answer: answer[0] != "refused", answers)]
            # no call stands between these, and so no interrupt
            self._told += len(ids)
            self.tells += len(ids)
            tell.settle(ids)
            return answers[len(ids)] if len(ids) < len(answers) else None

        tell.sent = Sent(self._origin, self._told)
        refused = self._exchange(lines, take)
        if refused:
            self._raise_refused(refused, tell.rest[0])

    def _lines_of(self, texts: Sequence[str]) -> list[bytes]:
        """The lines that tell the first of these operations, as many as are sent at once."""
        lines: list[bytes] = []
        size = 0
        for number, text in enumerate(texts, self._told + 1):
            line = f'["tell",{number},{text}]\n'.encode()
            size += len(line)
            if lines and size > BATCH_BYTES:
                break
            lines.append(line)
        return lines

    def _find_told(self, tell: FolderTell) -> None:
        """Finds out which of the operations that a call was telling are told, where it was cut off."""
        if not tell.sent:
            return
        if not self._is_up:
            # it may go on with what it was sent
            self._dropped()
        try:
            ids = kept_ids(self.feeds, tell.sent.origin)
        except OSError as fault:
            self._leave_unsure(tell)
            why = f"the feed of origin {tell.sent.origin} can't be synced and read: {fault.strerror}"
            raise LogUnusable(why) from fault
        tell.settle(ids[tell.sent.before:])

    def _find_after(self, tell: FolderTell, died: NodeDied) -> None:
        """Finds out which operations are told by a node that has ended. Of one whose disk failed its feed says only
        which may be."""
        if died.status is None or died.status < 0:
            self._find_told(tell)
        else:
            self._leave_unsure(tell)

    def _leave_unsure(self, tell: FolderTell) -> None:
        """Notes which operations of those that were sent may be told."""
        if tell.sent:
            with suppress(OSError):
                tell.unsure = tuple(seen_ids(self.feeds, tell.sent.origin)[tell.sent.before:])

    def _up(self) -> None:
        """Begins the node anew where it is needed."""
        self._check_process()
        if self._ended:
            raise NodeDied(self._ended.what, self._ended.status)
        if not self._is_up:
            self._dropped()
            self._begin()

    def _exchange(self, lines: Sequence[bytes], take: Callable[[list[Answer]], T]) -> T:
        """What is taken of the answers to lines. A node with which that was not seen through is ended."""
        self._is_up = False
        try:
            taken = take(self._answers(lines, self._limit))
        except NodeDied as died:
            self._dropped()
            if not _is_killed(died) and not isinstance(died.__cause__, Late):
                self._ended = died
            _LOG.warning("the node of %s has ended: %s", self.path, died)
            raise
        except BaseException:
            self._process.kill()
            raise
        self._is_up = True
        return taken

    def _answers(self, lines: Sequence[bytes], limit: float | None) -> list[Answer]:
        """The answers to lines, in time, or the node is ended."""
        end = end_of(limit)
        try:
            self._process.send(b"".join(lines), end, len(lines))
            return [json.loads(self._process.answer(end)) for _ in lines]
        except Late as late:
            raise NodeDied(f"the node gave no answer within {limit} seconds", self._process.kill()) from late
        except NodeDied as died:
            said = self._said()
            raise NodeDied(f"the node died: {said}" if said else died.what, died.status) from None

    def _asked(self, lines: Sequence[bytes], take: Callable[[list[Answer]], T]) -> T:
        """What is taken of the answers to lines, from a node that is begun anew where it was killed."""
        with self._lock:
            for left in reversed(range(RENEWALS)):
                try:
                    self._up()
                    return self._exchange(lines, take)
                except NodeDied as died:
                    if not left or not _is_killed(died):
                        raise
        raise AssertionError("the last try raises")

    def _ask(self, words: list[object]) -> Answer:
        """The answer to a line; raises what it refuses."""
        answer, = self._asked([line_of(words)], _as_they_are)
        if answer[0] == "refused":
            raise _refusal(answer)
        return answer

    def _take_changes(self, answers: list[Answer]) -> None:
        """Takes in what the node says that came and went; all that there is where it was begun anew."""
        (word, *parts), = answers
        if word == "refused":
            raise _refusal(answers[0])
        change = Change(*(tuple(tuple(atom) for atom in atoms) for atoms in parts))
        if self._is_new:
            self.shown.take_whole(change.came)
        else:
            self.shown.take(change)
        self._is_new = False

    def _call_listeners(self) -> None:
        with self._lock:
            entries = self._tails.read() if self._tails else []
            for call in self._listeners if entries else ():
                call(entries)

    def _show(self, symbol: str | None = None, *pattern: str | int | None) -> list[Atom]:
        """Atoms of the store, without names."""
        if symbol is None:
            answer = self._ask(["show"])
        elif pattern:
            answer = self._ask(["find", [symbol, *self._numbers(symbol, pattern)]])
        else:
            self._numbers(symbol, ())
            answer = self._ask(["show", symbol])
        return [tuple(atom) for atom in answer[1]]

    def _numbers(self, symbol: str, pattern: Sequence[str | int | None]) -> list[int | None]:
        """What a pattern wants, with numbers for names."""
        check_pattern((symbol, *pattern), self.columns.symbols, self._wanted)
        return [number_of(value) if isinstance(value, str) else value for value in pattern]

    @property
    def _wanted(self) -> Wanted:
        return Wanted(self.columns.argument, takes_names=True)

    def _raise_refused(self, answer: Answer, operation: Iterable[Atom]) -> None:
        """Raises what refuses an operation, and says what is wrong with it."""
        refusal, text = _refusal(answer), atoms_text(operation)
        if isinstance(refusal, UnknownSymbol):
            refusal.say(symbol_fault(text, self.columns.symbols))
        elif isinstance(refusal, (BadLine, Shape)):
            refusal.say(shape_fault(text, self._wanted))
        raise refusal

    def _check_process(self) -> None:
        if os.getpid() != self._pid:
            raise WrongProcess("member")

    def _leave(self) -> None:
        """In a fork, leaves the node to the process that made it, which alone holds its input open then."""
        # a thread that is not here may have held it
        self._lock = threading.RLock()
        self._dropped.detach()
        self._process.let_go()


def _is_killed(died: NodeDied) -> bool:
    """Whether a node was killed by something else, so that another one goes on."""
    return died.status is not None and died.status < 0 and not isinstance(died.__cause__, Late)


def _as_they_are(answers: list[Answer]) -> list[Answer]:
    return answers


def _refusal(answer: Answer) -> Refused:
    """What a reply refuses, as what is raised."""
    number = int(str(answer[1]))
    return _OF_LINES.get(number, Refused)(f"refused {number}: {answer[2]}", number)


@contextmanager
def _file_of(text: bytes | None) -> Iterator[list[str]]:
    """The words that name a file of this program, for as long as it is there; none where there is no program."""
    if text is None:
        yield []
        return
    with tempfile.NamedTemporaryFile(suffix=".chr") as file:
        file.write(text)
        file.flush()
        yield ["--program", file.name]


_MEMBERS: "weakref.WeakSet[FolderMember]" = weakref.WeakSet()


def _leave_members() -> None:
    for member in list(_MEMBERS):
        member._leave()


os.register_at_fork(after_in_child=_leave_members)
