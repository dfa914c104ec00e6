"""A node: `chrrep serve` as a process of its own, asked line by line."""

import logging
import os
import shutil
import subprocess
import sys
import threading
import weakref
from collections.abc import Callable, Iterable, Iterator, Sequence
from contextlib import contextmanager, suppress
from enum import Enum
from functools import cached_property, partial
from pathlib import Path
from typing import NoReturn, TypeAlias

from .closing import Closing
from .columns import Columns
from .process import Late, Process, end_of
from .refusals import (
    BadLine,
    NodeDied,
    NoReplica,
    Refused,
    RefusedProgram,
    Shape,
    TooManyTypes,
    UnknownSymbol,
    WrongProcess,
    raise_refusal,
    raise_verdict,
)
from .stores import StoreReader
from .texts import (
    Atom,
    Id,
    Operation,
    OperationText,
    ProgramText,
    Summary,
    Verdict,
    Written,
    atoms_text,
    delta_of,
    delta_text,
    found_in,
    line_of,
    summary_of,
    text_bytes,
    text_pieces,
    verdict_of,
)
from .words import Wanted, check_pattern, file_words, shape_fault, symbol_fault

_REPLICA = 1
_NO_REPLICA = 0
_DELTA_VERSION = 1
_AHEAD = 8
"""Lines that a node is sent for sure before it is waited for, at most."""
_LOG = logging.getLogger("chrrep.node")


ANSWER_SECONDS = 60.0
"""How long a node may take to answer where nobody asks for a limit. A store of a million atoms comes to rest in a
second or two."""


class Unasked(Enum):
    """Stands for a limit of time that nobody has asked for: `ANSWER_SECONDS` for answers, and none for the verdict,
    which may take minutes."""

    UNASKED = "unasked"


UNASKED = Unasked.UNASKED
Timeout: TypeAlias = float | None | Unasked
"""Seconds, or None for no limit."""


def program_path(chrrep: str | os.PathLike[str] | None = None) -> str:
    """The program to run: the one named, else the environment's CHRREP, else the one that was installed with this
    package, else `./chrrep` of the repository that it stands in, else `chrrep` on the PATH."""
    named = os.fspath(chrrep) if chrrep is not None else os.environ.get("CHRREP")
    if named:
        return named
    here = Path(__file__).resolve()
    ours = [here.parent / "bin" / "chrrep-x86_64-linux", here.parents[2] / "chrrep"]
    found = next((str(path) for path in ours if path.is_file()), None) or shutil.which("chrrep")
    if not found:
        raise FileNotFoundError("no program chrrep: name it by the environment's CHRREP")
    return found


def run_program() -> NoReturn:
    """Goes on as the program, with the words that this one was called with."""
    program = program_path()
    os.execv(program, ["chrrep", *sys.argv[1:]])


def check(
    program: ProgramText,
    chrrep: str | os.PathLike[str] | None = None,
    *,
    wide: bool | None = None,
    timeout: float | None = None,
) -> Verdict:
    """The verdict on a program text: by joint cases, and where these are too many by the columns that rules compare, by
    which more programs are decided. With `wide=True` it is by these at once, with `wide=False` by joint cases alone.

    Raises `TextFault`, `NotLowered`, `Overlap` or `TooManyTypes`, each with its case, where the program is refused,
    and `NodeDied` where no verdict came, each within `timeout` seconds if they are given.
    """
    text = text_bytes(program)

    def judge(is_wide: bool) -> Verdict:
        ended = _run([program_path(chrrep), "check", *_options(is_wide)], text, timeout)
        answer = ended.stdout.decode()
        if ended.returncode not in (0, 1) or not answer.endswith("\n"):
            raise NodeDied("chrrep check gave no verdict", ended.returncode)
        return _judged(answer.removesuffix("\n"), text, chrrep, is_wide)

    return _decided(judge, wide)


def explain(
    program: ProgramText,
    chrrep: str | os.PathLike[str] | None = None,
    *,
    wide: bool | None = None,
    timeout: float | None = None,
) -> str:
    """Why a program text is refused and where, or why it is accepted, in sentences: what `chrrep explain` writes, which
    judges as `check` does; with `wide=True` by the columns that rules compare at once. `NodeDied` where it takes longer
    than `timeout` seconds."""
    words = [program_path(chrrep), "explain", *_options(wide is True)]
    return _run(words, text_bytes(program), timeout).stdout.decode()


def _run(words: list[str], text: bytes, timeout: float | None) -> subprocess.CompletedProcess[bytes]:
    """What the program does with a text, in time."""
    try:
        return subprocess.run(words, input=text, stdout=subprocess.PIPE, check=False, timeout=timeout)
    except subprocess.TimeoutExpired as late:
        raise NodeDied(f"chrrep {words[1]} gave no answer within {timeout} seconds") from late


def _decided(judge: Callable[[bool], Verdict], wide: bool | None) -> Verdict:
    """The verdict by sorted cases or not, as `judge` is told; where nobody says which, by those that decide."""
    if wide is None:
        with suppress(TooManyTypes):
            return judge(False)
    return judge(wide is not False)


def _judged(answer: str, text: bytes, chrrep: str | os.PathLike[str] | None, wide: bool) -> Verdict:
    """What a line of verdict says of an accepted program; raises what it says of another."""
    try:
        return verdict_of(answer, wide) or raise_verdict(answer, wide)
    except RefusedProgram as refusal:
        refusal.explained_by(lambda: explain(text, chrrep, wide=wide))
        refusal.say(file_words(text))
        raise


def _options(wide: bool) -> list[str]:
    return ["--wide"] if wide else []


class Node(Closing):
    """A replica of one accepted program, which lives until it is closed.

    `program` is a program text, or a file of one, as a `Path` or open, of which what follows a line `---` is no part.
    `origin`, 0 to 4,294,967,295, is the node's own: ids are made of it, and no two nodes that exchange operations may
    share it. `chrrep` names the program, as `program_path` says. The program is judged as `check` judges it, also with
    `wide`; nodes of either kind exchange operations.

    Raises, as `check` does, what refuses the program. Each call raises `NodeDied` where the process has ended, and a
    `Refused` where the line is refused, which changes nothing. A call that has no answer after `timeout` seconds ends
    the node: left out they are `ANSWER_SECONDS`, and the verdict is waited for without a limit; None is no limit at
    all. What a call that is interrupted while it waits, as by Ctrl-C, was telling may be told, and the node goes on;
    interrupted while it sends or reads, it ends the node. Calls may come from any thread: one is made at a time. In a
    fork of the process that made the node they are `WrongProcess`. Leaving a `with` closes the node.
    """

    verdict: Verdict
    """What was said of the program."""

    def __init__(
        self,
        program: ProgramText,
        origin: int,
        *,
        chrrep: str | os.PathLike[str] | None = None,
        wide: bool | None = None,
        timeout: Timeout = UNASKED,
    ) -> None:
        self.origin = origin
        limit, self._timeout = (ANSWER_SECONDS, None) if isinstance(timeout, Unasked) else (timeout, timeout)
        self._next = 1
        self._lock = threading.RLock()
        self._ended: NodeDied | None = None
        self._is_forked = False
        self._sure = 0
        self._store = StoreReader()
        self._text = text_bytes(program)
        self.verdict = _decided(partial(self._begin, chrrep), wide)
        self._timeout = limit

    def _begin(self, chrrep: str | os.PathLike[str] | None, wide: bool) -> Verdict:
        """Begins the process, and gives its verdict on the program; ends it where that is refused."""
        end = b"---\n" if self._text.endswith(b"\n") or not self._text else b"\n---\n"
        self._ended = None
        self._process = Process([program_path(chrrep), "serve", *_options(wide)])
        # a node that is dropped ends its process too
        self._dropped = weakref.finalize(self, self._process.close)
        _NODES.add(self)
        _LOG.debug("process %d of origin %d begins", self.pid, self.origin)
        try:
            return _judged(self._exchange(self._text + end), self._text, chrrep, wide)
        except BaseException as fault:
            self._end(NodeDied("the node never came up"), by_force=not isinstance(fault, Refused))
            raise

    @property
    def pid(self) -> int:
        """The id of the node's process."""
        return self._process.pid

    @cached_property
    def columns(self) -> Columns:
        """What the program's text tells of symbols and their columns."""
        return Columns(self._text)

    @property
    def next_id(self) -> Id:
        """The id that the next told operation has: its number is beyond all of this origin that the node has held."""
        with self._lock:
            return Id(self.origin, self._next)

    def tell(self, *atoms: Atom) -> Id:
        """Tells one operation of 1 to 64 atoms, and gives the id that it got."""
        with self._lock:
            told = OperationText(self.next_id, atoms_text(atoms))
            with self._in_words([told]):
                line = f'["tell",{_REPLICA},[{told.id.origin},{told.id.number}],{told.atoms}]\n'
                self._ask_text(line, following=told.id.number + 1)
            return told.id

    def tell_many(self, tells: Iterable[Iterable[Atom]]) -> list[Id]:
        """Tells operations of 1 to 64 atoms each, a line for many, and gives their ids. Each line is taken in whole or
        not at all; where one is refused, those before it are told."""
        with self._lock:
            operations = [
                OperationText(Id(self.origin, number), atoms_text(atoms))
                for number, atoms in enumerate(tells, self._next)
            ]
            for part in text_pieces(operations):
                self.merge_texts(part)
            return [operation.id for operation in operations]

    def admit(self, *atoms: Atom) -> None:
        """Raises what `tell` would raise of these atoms as they are (`BadLine`, `Shape`, `UnknownSymbol`), and changes
        nothing."""
        self.admit_texts([OperationText(self.next_id, atoms_text(atoms))])

    def admit_texts(self, delta: Iterable[Written]) -> None:
        """Raises what `merge_texts` would raise of these operations as they are, and changes nothing."""
        operations = list(delta)
        # a missing replica is refused after all that is wrong with the operations
        with suppress(NoReplica), self._in_words(operations):
            self._ask_text(f'["merge",{_NO_REPLICA},{delta_text(operations)}]\n')

    def show(self, symbol: str | None = None, *pattern: int | None) -> tuple[Atom, ...]:
        """The store at rest, in the order in which it is printed. With a symbol only its atoms, and with a pattern of
        arguments only those that have them, None being any: `show("path", 1, None, None)`. Raises what `tell` raises
        of such an atom (`Shape`, `UnknownSymbol`)."""
        if symbol is None:
            return self._store.atoms_of(self.show_text())
        check_pattern((symbol, *pattern), self.columns.symbols, Wanted(self.columns.argument))
        return found_in(self.show_text(), symbol, *pattern)

    def count(self, symbol: str, *pattern: int | None) -> int:
        """How many atoms `show` gives."""
        return len(self.show(symbol, *pattern))

    def show_text(self) -> str:
        """The store at rest as it is printed: `path(1,2,7), coin`, or `true` where it is empty."""
        return self._ask("show", _REPLICA)

    def __repr__(self) -> str:
        state = "another process's" if self._is_forked else "ended" if self._ended else f"process {self.pid}"
        return f"<chrrep.Node of origin {self.origin}, {state}, rules {self.verdict.rules}>"

    def __iter__(self) -> Iterator[Atom]:
        return iter(self.show())

    def summary(self) -> Summary:
        """The ids of all operations that the node holds."""
        return summary_of(self._ask("summary", _REPLICA))

    def lacks(self, summary: Summary) -> tuple[Operation, ...]:
        """The operations that this node holds and the summary, of another node, doesn't cover, by their ids."""
        return delta_of(self._ask("lacks", _REPLICA, summary, _DELTA_VERSION))

    def merge(self, delta: Iterable[Operation]) -> int:
        """Takes in operations, all or none, and says how many were new. Raises `Clash` where an id stands for others.

        A delta is sent as one line. One that is longer than a line may be is `BadLine`, and is merged by its `pieces`.
        """
        operations = [Operation.of(id, atoms) for id, atoms in delta]
        return self.merge_texts([OperationText(id, atoms_text(atoms)) for id, atoms in operations])

    def merge_texts(self, delta: Sequence[Written]) -> int:
        """The same of operations whose atoms are written already. What isn't compact JSON there may end the node."""
        own = (one.id.number for one in delta if one.id.origin == self.origin)
        line = f'["merge",{_REPLICA},{delta_text(delta)}]\n'
        with self._in_words(delta):
            answer = self._ask_text(line, following=1 + max(own, default=0))
        return int(answer.removeprefix("merged "))

    def merge_soon(self, delta: Sequence[Written]) -> None:
        """Sends operations that the node takes for sure, and doesn't wait for the answer, which the next call takes. So
        the node works beside its user. Numbers of its own origin are not looked at."""
        self.merge_text_soon(delta_text(delta))

    def merge_text_soon(self, delta: str) -> None:
        """The same of a delta that is written already."""
        line = f'["merge",{_REPLICA},{delta}]\n'.encode()
        with self._lock, self._whole(), self._in_time() as end:
            self._settle(end, _AHEAD)
            self._sure += 1
            self._process.send(line, end)

    def close(self) -> None:
        """Ends the process, and waits for its end. To close twice is no fault."""
        with self._lock:
            self._end(NodeDied("the node was closed"))

    @contextmanager
    def _in_words(self, delta: Sequence[Written]) -> Iterator[None]:
        """Says of operations that are refused what is wrong with the first of them."""
        try:
            yield
        except (BadLine, Shape) as refusal:
            wanted = Wanted(self.columns.argument)
            refusal.say(next(filter(None, (shape_fault(one.atoms, wanted) for one in delta)), None))
            raise
        except UnknownSymbol as refusal:
            symbols = self.columns.symbols
            refusal.say(next(filter(None, (symbol_fault(one.atoms, symbols) for one in delta)), None))
            raise

    def _ask(self, *words: object, following: int = 0) -> str:
        """The answer to a line of these words, as `_ask_text` gives it."""
        return self._ask_text(line_of(words).decode(), following)

    def _ask_text(self, line: str, following: int = 0) -> str:
        """The answer to a line; raises what it refuses. From then on numbers are `following` at least."""
        with self._lock:
            # set before the question: an interrupt leaves a gap, and no number that is used twice
            before, self._next = self._next, max(self._next, following)
            with self._whole():
                answer = self._exchange(line.encode())
            try:
                raise_refusal(answer)
            except Refused:
                self._next = before
                raise
        return answer

    @contextmanager
    def _whole(self) -> Iterator[None]:
        """Ends the node where an exchange is not seen through."""
        if self._is_forked:
            raise WrongProcess("node")
        if self._ended:
            raise NodeDied(self._ended.what, self._ended.status)
        try:
            yield
        except NodeDied as died:
            self._end(died)
            raise
        except BaseException:
            # of what was being sent or read nobody knows how far that came
            if not self._process.is_waiting:
                self._end(NodeDied("a call was interrupted, and ended the node"), by_force=True)
            raise

    def _settle(self, end: float | None, ahead: int = 0) -> None:
        """Sees through what was sent without waiting for its answer, or was interrupted. So many answers, at most, may
        be left, where those are of what the node takes for sure."""
        self._process.flush(end)
        while self._process.owed > (0 if self._process.is_deaf else min(ahead, self._sure)):
            answer = self._process.answer(end)
            # those that the node takes for sure were sent last
            if self._sure > self._process.owed:
                self._sure -= 1
                if not answer.startswith("merged "):
                    raise NodeDied(f"the node didn't take what it was sent: {answer}")

    def _exchange(self, sent: bytes) -> str:
        """The answer to what is sent; in time, or the node is ended."""
        with self._in_time() as end:
            self._settle(end)
            self._process.send(sent, end)
            return self._process.answer(end)

    @contextmanager
    def _in_time(self) -> Iterator[float | None]:
        """Until when an exchange may go on; the process is ended where it takes longer."""
        try:
            yield end_of(self._timeout)
        except Late as late:
            what = f"the node gave no answer within {self._timeout} seconds"
            raise NodeDied(what, self._process.kill()) from late

    def _end(self, why: NodeDied, by_force: bool = False) -> None:
        self._ended = self._ended or why
        if by_force and not self._is_forked:
            self._process.kill()
        self._dropped()

    def _leave(self) -> None:
        """In a fork, leaves the node to the process that made it, which alone holds its input open then."""
        self._is_forked = True
        # a thread that is not here may have held it
        self._lock = threading.RLock()
        self._dropped.detach()
        self._process.let_go()


_NODES: "weakref.WeakSet[Node]" = weakref.WeakSet()


def _leave_nodes() -> None:
    for node in list(_NODES):
        node._leave()


os.register_at_fork(after_in_child=_leave_nodes)
