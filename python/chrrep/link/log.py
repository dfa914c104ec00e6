"""The log that nodes share, as a small interface with a body for each engine.

A log has one program, the operations that were appended, and a snapshot: a store at rest that stands for the first of
them. Those that a snapshot stands for are removed, but for the last of each origin, which tells how far that came.
"""

import itertools
import json
import logging
import os
import secrets
import threading
import time
import weakref
from abc import abstractmethod
from collections.abc import Callable, Iterable, Iterator, Mapping, Sequence
from contextlib import contextmanager, suppress
from functools import partial, wraps
from typing import TYPE_CHECKING, Any, NamedTuple, ParamSpec, TypeAlias, TypeVar
from urllib.parse import urlsplit

from ..closing import Closing
from ..refusals import Full, WrongProcess
from ..texts import Atom, Id, atoms_text
from .faults import LinkLost, LogLost, LogUnusable, NewerFormat, NoDriver, OriginShared
from .room import ROOM

if TYPE_CHECKING:
    from .telling import Batch

Position: TypeAlias = Mapping[int, int]
"""What has been read of a log: of each origin all operations up to a number. An origin that isn't there has none."""

FORMAT = 2
"""The format of logs that this version writes, and the last that it reads. Logs of the one before it, which have no id
and don't count their room, are changed when they are opened."""

FIRST_EPOCH = 1
LAST_ORIGIN = 2**32 - 2
"""The one beyond it stands for the operations of a store."""

READ_AT_ONCE = 1000
"""Operations of one origin, at most, that one reading gives."""

LOG_NAME = "chrrep"
LONGEST_LOG_NAME = 200
PATIENCE = 30.0
LEASE_SECONDS = 8.0
"""How long an origin is held from each heartbeat on."""

WATCH_SECONDS = 2.0
"""How long who asks for an origin whose lease is out looks whether it is renewed: its node may have been kept from
that by what kept all from writing."""

FORGOTTEN_SECONDS = 60.0
"""How long an allotted origin's lease has to be out before it is allotted again."""

SEAL_SECONDS = 20.0
"""How long a log is sealed while its program is changed; less than the patience of links."""

_LOG = logging.getLogger("chrrep.link")
_HEARTBEAT = LEASE_SECONDS / 4
_REPORT_SECONDS = 1.0
_FIRST_PAUSE = 0.05
_LONGEST_PAUSE = 1.0
PARTING_SECONDS = 1.0
"""How long a link that is closed waits for the engine to take its origin back, at most."""
_SLACK_SECONDS = 1.0
_TRIES = 8
"""New origins that are tried before it is asked again which there are."""
_OF_DAMAGED = (ValueError, TypeError, LookupError, AttributeError, ArithmeticError, RecursionError)

P = ParamSpec("P")
T = TypeVar("T")


class Program(NamedTuple):
    """A program text, and whether it is judged by sorted cases: None where that has yet to be found out."""

    text: bytes
    is_wide: bool | None = False


class Mark(NamedTuple):
    """Which snapshot a log has: how often its program was changed, how often the snapshot, and its position."""

    epoch: int
    generation: int
    position: Position


class State(NamedTuple):
    """What the operations of a log go on from: its program, and the store at rest of all operations up to a position.
    A new log has no program, and the empty store."""

    epoch: int
    program: Program | None
    generation: int
    position: Position
    store: str


class Entry(NamedTuple):
    """An operation as a log keeps it: its atoms as compact JSON, and the mark of the link that appended it."""

    id: Id
    atoms: str
    writer: str


class Named(NamedTuple):
    """A number that has a name, and the place of the name among those of its log."""

    place: int
    number: int
    name: str


class Count(NamedTuple):
    """How often something was appended to a log, the generation of its snapshot, and how much of its room is taken by
    the snapshot and by what was appended since."""

    appends: int = 0
    generation: int = 0
    room: int = 0


class Rest(NamedTuple):
    """What is known of a snapshot's store: what it takes of the log's room, and the numbers of names that it doesn't
    use. It stands for all that was appended up to the count `since`."""

    room: int = 0
    unused: Sequence[int] = ()
    since: Count = Count()


class Lease(NamedTuple):
    """How an origin is held: until when by the engine's clock, 0 where it was given back, and how many seconds that is
    from now on."""

    until: float
    left: float
    is_allotted: bool

    @classmethod
    def of(cls, until: float, now: float, is_allotted: bool, length: float = LEASE_SECONDS) -> "Lease":
        """One that ends further ahead than a lease is long was taken by a clock that was wrong, and counts for none."""
        left = until - now
        return cls(until, left if left <= length + _SLACK_SECONDS else 0.0, is_allotted)

    @property
    def is_free(self) -> bool:
        """Whether it was given back, or left so long ago that its node is gone."""
        return self.until == 0 or self.left < -FORGOTTEN_SECONDS


class Reading(NamedTuple):
    """Entries of a log, and the generation of the snapshot that it had when they were read, or later."""

    entries: list[Entry]
    generation: int


class Heard(NamedTuple):
    """What a member has told of itself: how far it has read, and how many seconds ago it said so."""

    origin: int
    position: Position
    seconds: float


class SetAside(NamedTuple):
    """An entry that the program of the log refuses, and why."""

    entry: Entry
    reason: str


def program_text(program: Program) -> str:
    """The program as a log keeps it: JSON, in ASCII whatever its bytes are."""
    text = program.text.decode(errors="surrogateescape")
    return json.dumps({"wide": program.is_wide, "text": text})


def program_of(kept: str) -> Program:
    """The program that a log keeps."""
    record = json.loads(kept)
    return Program(record["text"].encode(errors="surrogateescape"), record["wide"])


def known_format(kept: int, last: int = FORMAT) -> None:
    """Raises `NewerFormat` where the format of a log is none that this version reads."""
    if kept > last:
        raise NewerFormat(kept)


def check_log_name(log: str) -> None:
    """Raises ValueError where a log can't have this name."""
    if not log or not log.isprintable() or len(log.encode()) > LONGEST_LOG_NAME:
        raise ValueError(f"a log's name is 1 to {LONGEST_LOG_NAME} bytes that can be printed, not {log[:80]!r}")


def position_text(position: Position) -> str:
    """The position as a log keeps it: JSON."""
    return json.dumps(sorted(position.items()), separators=(",", ":"))


def position_of(kept: str) -> dict[int, int]:
    """The position that a log keeps."""
    return {int(origin): int(number) for origin, number in json.loads(kept)}


def new_log_id() -> str:
    """128 random bits for a new log."""
    return secrets.token_hex(16)


def whole(value: object) -> int:
    """The value, which is a whole number; TypeError where it isn't."""
    if type(value) is not int:
        raise TypeError(f"{value!r} is no whole number")
    return value


def is_among(entry: Entry, end: int, found: tuple[str, str] | None) -> bool:
    """Whether an entry is in a log that has this one, by atoms and writer, at its id, and as the greatest number of
    its origin this end. Raises `OriginShared` where the log doesn't tell any more."""
    if found is None and end >= entry.id.number:
        raise OriginShared(entry.id.origin)
    return found == (entry.atoms, entry.writer)


def one_line(fault: BaseException) -> str:
    """What a fault says, as one sentence on one line."""
    return " ".join(str(fault).split()) or type(fault).__name__


def has_more(one: Position, other: Position) -> bool:
    """Whether the one position has what the other hasn't."""
    return any(number > other.get(origin, 0) for origin, number in one.items())


class Sealed(Exception):
    """The log's program is being changed, and nothing is appended until that is done."""

    def __init__(self) -> None:
        super().__init__("its program is being changed")


def of_damaged(call: Callable[P, T]) -> Callable[P, T]:
    """What a call that reads a log raises of something that no link has written is `LogUnusable`."""

    @wraps(call)
    def reading(*values: P.args, **named: P.kwargs) -> T:
        try:
            return call(*values, **named)
        except _OF_DAMAGED as fault:
            raise LogUnusable(f"the log is damaged: {type(fault).__name__}: {one_line(fault)}") from fault

    return reading


class Busy(Exception):
    """Another thread took too long."""

    def __init__(self) -> None:
        super().__init__("another call has no answer yet")


def in_turn(lock: "threading._RLock", seconds: float, call: Callable[P, T], *values: P.args, **named: P.kwargs) -> T:
    """The call's result, made by one thread at a time; `Busy` where others take longer than `seconds`. Wherever an
    interrupt comes, as by Ctrl-C, the lock is free afterwards."""
    try:
        # an interrupt may come once it was taken, and before anything tells so; a lock that is free costs no timeout
        if not lock.acquire(False) and not lock.acquire(timeout=max(0.0, seconds)):
            raise Busy
        return call(*values, **named)
    finally:
        # nothing is called before this, so that no interrupt comes before it
        try:
            lock.release()
        except RuntimeError:
            # it was not taken
            pass


class Flag:
    """Something that is so from some moment on. An event of Python's may stay locked after an interrupt."""

    def __init__(self) -> None:
        self.is_set = False
        self._lock = threading.Lock()
        self._lock.acquire()

    def set(self) -> None:
        """Has it be so, and wakes who waits."""
        self.is_set = True
        self._open()

    def wait(self, seconds: float) -> bool:
        """Waits for so long until it is so, and says whether it is. An interrupt may have others wait to their end."""
        if not self.is_set and self._lock.acquire(timeout=seconds):
            self._open()
        return self.is_set

    def _open(self) -> None:
        try:
            self._lock.release()
        except RuntimeError:
            # it is open
            pass


class Link(Closing):
    """A node's way to the log.

    The link's origin is its own while it lives: another link that asks for it is refused. Left out, the engine allots
    one. A link that was killed keeps its origin for `LEASE_SECONDS` and `WATCH_SECONDS` at most.

    What was appended is as safe as the engine keeps what it has acknowledged, and its ids stand for it for ever. A lost
    connection is made again for `patience` seconds, and then `LinkLost` is raised. Calls may come from any thread, of
    the process that made the link (`WrongProcess`). Leaving a `with` closes the link, and so does dropping it.
    """

    origin: int
    log_id: str
    """What tells this log from others, also from one that stands in its place after the engine has lost it. It is drawn
    with the log's program; a log that has none has no id."""

    format = FORMAT
    lease_seconds = LEASE_SECONDS
    room_limit = ROOM
    position: Callable[[], Position]
    """How far the member has read, for others to know. It is told with each heartbeat."""

    def __init__(self, patience: float = PATIENCE, log: str = LOG_NAME) -> None:
        check_log_name(log)
        self.log = log
        self.log_id = ""
        self.patience = patience
        self.position = dict
        self.writer = secrets.token_hex(8)
        self.is_allotted = False
        self._process = os.getpid()
        self._closing = Flag()
        self._is_away = False
        self._is_closed = False
        self._renewed = time.monotonic()

    @abstractmethod
    def state(self) -> State:
        """What the log's operations go on from. Raises `NewerFormat`."""

    @abstractmethod
    def mark(self) -> Mark:
        """The same without its program and store. Raises `NewerFormat`."""

    @abstractmethod
    def count(self) -> Count:
        """How much was appended to the log by now."""

    @abstractmethod
    def begin(self, program: Program) -> None:
        """Gives the log this program where it has none, and an id, in one step."""

    @abstractmethod
    def append(self, batch: "Batch") -> None:
        """Puts a batch, of the link's own origin and mark, into the log, all or none: by numbers that are beyond all of
        that origin that are there. To append again what it appended last changes nothing.

        Raises `OriginShared` where another link has taken the origin or used a number, `ProgramChanged` where the log's
        epoch is another, `Full` where there is no room, `NameClash`, and `LogLost` where the log is not the one that
        was joined, or lacks operations of the origin. The batch's `is_unsure` then says whether it may be in the log.
        """

    @abstractmethod
    def settle(self, entry: Entry) -> bool:
        """Whether the last entry of a batch that may have been appended is in the log. Where it isn't it doesn't come
        there any more. Raises `OriginShared` where nobody knows."""

    @abstractmethod
    def read(self, after: Position, wait: float = 0.0) -> Reading:
        """Entries beyond the position, of each origin the first `READ_AT_ONCE` at most, by rising numbers. Where there
        are none it waits for one, up to `wait` seconds."""

    @abstractmethod
    def newest(self) -> dict[int, int]:
        """The position of the log's end: the greatest number of each origin."""

    @abstractmethod
    def keep(self, state: State, is_last: bool = False, rest: Rest = Rest()) -> bool:
        """Puts the state in the place of the one of the generation before it, and removes the entries that its snapshot
        stands for and the names that nothing uses, in one step. Nothing is done where the generation before is another;
        nor, with `is_last`, where the log has entries beyond the snapshot. Says whether it was done."""

    @abstractmethod
    def names(self, place: int = 0) -> list[Named]:
        """The names whose places are beyond this one, in their order."""

    @abstractmethod
    def seal(self, seconds: float) -> None:
        """Has others wait for so long, `SEAL_SECONDS` at most, before they append anything, or for no longer with
        0."""

    @abstractmethod
    def set_aside(self, refused: SetAside) -> None:
        """Keeps an entry that the log's program refuses, for whoever looks for it."""

    @abstractmethod
    def refused(self) -> list[SetAside]:
        """The entries that were set aside, by their ids."""

    @abstractmethod
    def members(self) -> list[Heard]:
        """The members that hold origins, or did when they were killed, by these, and how far each has read."""

    @abstractmethod
    def _leases(self) -> dict[int, Lease]:
        """The origins that links have had, and how each is held."""

    @abstractmethod
    def _hold(self, origin: int, is_allotted: bool, until: float | None) -> bool:
        """Takes the origin for this link where its lease ends at this time still, or is none, and says whether it is
        its own now."""

    def _wait_for_writing(self) -> None:
        """Comes back when the engine takes what is written."""
        self.count()

    @abstractmethod
    def _beat(self, position: str) -> None:
        """Holds the origin for some time more, if it is this link's, and tells the position."""

    @abstractmethod
    def _let_go(self) -> None:
        """Gives the origin back, and closes what is open."""

    def entry(self, number: int, atoms: Iterable[Atom]) -> Entry:
        """An entry of the link's own, to be appended."""
        return Entry(Id(self.origin, number), atoms_text(atoms), self.writer)

    def check_name(self, name: str) -> None:
        """Raises `UnkeptName` where the engine can't keep a name."""

    def check_process(self) -> None:
        """Raises `WrongProcess` in a process that was forked from the link's."""
        if os.getpid() != self._process:
            raise WrongProcess("link")

    def take_another_origin(self) -> None:
        """Goes on with another origin where the engine has allotted this one, which another link has by now."""
        self.origin = self._allotted()
        _LOG.warning("another node has the origin: this one goes on as origin %d", self.origin)

    def close(self) -> None:
        """Lets go of the engine. To close twice is no fault. In a process that was forked nothing is done."""
        self._closing.set()
        if not self._is_closed and os.getpid() == self._process:
            self.patience = min(self.patience, PARTING_SECONDS)
            self._let_go()
        self._is_closed = True

    def __del__(self) -> None:
        # one that never came up has nothing to let go of
        with suppress(Exception):
            self.close()

    def __repr__(self) -> str:
        return f"<chrrep.link.{type(self).__name__} of origin {self.origin}>"

    def _take_origin(self, origin: int | None) -> None:
        """Takes this origin, or the first that is free, and holds it until the link is closed."""
        self.mark()  # a log of a newer format is left as it is
        self.is_allotted = origin is None
        self.origin = self._allotted() if origin is None else self._own(origin)
        beat = partial(_hold_on, weakref.ref(self), self._closing)
        threading.Thread(target=beat, name=f"chrrep origin {self.origin}", daemon=True).start()

    def _own(self, origin: int) -> int:
        if not 0 <= origin <= LAST_ORIGIN:
            raise ValueError(f"an origin is 0 to {LAST_ORIGIN}, not {origin}")
        # a killed node's is free after a while
        end = time.monotonic() + self.lease_seconds + 2 * WATCH_SECONDS
        while True:
            lease = self._leases().get(origin)
            is_left = lease is None or lease.until == 0 or lease.left <= 0 and self._is_left(origin, lease.until)
            if is_left and self._hold(origin, False, lease.until if lease else None):
                return origin
            if time.monotonic() > end:
                raise OriginShared(origin)
            time.sleep(_FIRST_PAUSE)

    def _is_left(self, origin: int, until: float) -> bool:
        """Whether a lease that is out isn't renewed though it could be by now."""
        self._wait_for_writing()
        time.sleep(WATCH_SECONDS)
        lease = self._leases().get(origin)
        return lease is not None and lease.until == until

    def _allotted(self) -> int:
        """An origin that was given back or left long ago, or a new one."""
        while True:
            leases = self._leases()
            again = [(at, lease.until) for at, lease in sorted(leases.items()) if lease.is_allotted and lease.is_free]
            new = ((at, None) for at in itertools.count(1) if at not in leases)
            for origin, until in (*again, *itertools.islice(new, _TRIES)):
                if self._hold(origin, True, until):
                    return origin

    def _renew(self) -> None:
        """Holds the origin on where that is due: a thread that is late isn't waited for."""
        if time.monotonic() > self._renewed + _HEARTBEAT:
            with suppress(Exception):
                self._beat(position_text(self.position()))
                self._renewed = time.monotonic()

    def _check_id(self, found: str | None) -> None:
        """Raises `LogLost` where the log is not the one that was joined. One that had no program then has got its id
        since, with that."""
        self.log_id = self.log_id or found or ""
        if found != self.log_id:
            raise LogLost("what is there now is another log" if found else "nothing is there any more")

    def _full(self, batch: "Batch") -> Full:
        """What is raised where the log has no room for a batch."""
        return Full(f"the log has no room for what can come to {batch.room} atoms: it holds {self.room_limit}")

    def _check_end(self, end: int, batch: "Batch") -> None:
        """Raises where the origin ends elsewhere in the log than the member knows."""
        if end < batch.before:
            raise LogLost(f"operations {end + 1} to {batch.before} of origin {self.origin} are not there any more")
        if end > batch.before:
            raise OriginShared(self.origin)

    def _tell_away(self, error: Exception, left: float) -> None:
        """Tells at once that the engine is away, and once while it is. A change of the program takes a moment."""
        is_sealed = isinstance(error, Sealed)
        level = logging.DEBUG if self._is_away or is_sealed else logging.WARNING
        _LOG.log(level, "the engine doesn't answer, and is asked again for %.0f seconds: %s", left, one_line(error))
        self._is_away = self._is_away or not is_sealed

    def _patiently(self, call: Callable[[float], T], lost: tuple[type[Exception], ...]) -> T:
        """The call's result, tried again while the engine is away. It is told how many seconds are left."""
        self.check_process()
        left, pause = self.patience, _FIRST_PAUSE
        end = time.monotonic() + left
        while True:
            if self._is_closed:
                raise LinkLost("the link was closed")
            try:
                result = call(left if left > _FIRST_PAUSE else _FIRST_PAUSE)
            except (*lost, Sealed) as error:
                if time.monotonic() + pause > end or self._closing.is_set:
                    raise LinkLost(f"the engine doesn't answer: {one_line(error)}") from error
                self._tell_away(error, end - time.monotonic())
            else:
                self._is_away = False
                return result
            self._closing.wait(pause)
            left, pause = end - time.monotonic(), min(2 * pause, _LONGEST_PAUSE)


def _hold_on(reference: "weakref.ref[Link]", closing: Flag) -> None:
    """Has a link hold its origin until it is closed or dropped."""
    beaten, told = time.monotonic(), ""
    while not closing.wait(min(_HEARTBEAT, _REPORT_SECONDS)):
        link = reference()
        if link is None:
            return
        position = position_text(link.position())
        if position != told or time.monotonic() >= beaten + _HEARTBEAT:
            # an engine that is away is found out by the next call
            with suppress(Exception):
                link._beat(position)
                beaten, told = time.monotonic(), position
                link._renewed = beaten
        del link


def connect(url: str, origin: int | None = None, *, log: str = LOG_NAME, patience: float = PATIENCE) -> Link:
    """The link of a node to the log of this name, in the engine that the address names: `sqlite:///PATH`, a file that
    nodes of one machine share, `redis://..` or `postgresql://..`.

    Raises `NoDriver` where the engine's client for Python isn't installed, `LinkLost` where there is no answer,
    `LogUnusable` where the file can't be used, `OriginShared` where another node has the origin, and `NewerFormat`.
    """
    scheme = urlsplit(url).scheme
    if scheme == "sqlite":
        from .sqlite import SqliteLink

        return SqliteLink(url, origin, log, patience)
    if scheme in ("redis", "rediss", "unix"):
        with _driver("redis", "redis"):
            from .redis_streams import RedisLink

        return RedisLink(url, origin, log, patience)
    if scheme in ("postgresql", "postgres"):
        with _driver("psycopg2", "postgresql"):
            from .postgresql import PostgresLink

        return PostgresLink(url, origin, log, patience)
    raise ValueError(f"no engine is known by {scheme!r}: sqlite:///PATH, redis:// and postgresql:// are")


@contextmanager
def _driver(module: str, extra: str) -> Iterator[None]:
    """Says of a module that isn't there what to install."""
    try:
        yield
    except ImportError as fault:
        raise NoDriver(module, extra) from fault


def entries_of(rows: Iterable[tuple[Any, ...]]) -> Iterator[Entry]:
    """The entries of rows that have origin, number, atoms and writer. What is no text there is told as text, which no
    node takes."""
    for origin, number, atoms, writer in rows:
        if type(origin) is not int or type(number) is not int:
            raise ValueError(f"an entry has the id {origin!r}:{number!r}")
        yield Entry(Id(origin, number), _text_of(atoms), _text_of(writer))


def _text_of(kept: object) -> str:
    return kept if isinstance(kept, str) else repr(kept)
