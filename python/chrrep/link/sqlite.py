"""The log in a file, by SQLite, which comes with Python.

Nodes of one machine share the file. It has its write-ahead log beside it while it is open; what was acknowledged is on
disk. Who waits asks for the file's version until another connection has changed it.
"""

import json
import os
import sqlite3
import threading
import time
from collections.abc import Callable, Iterable, Iterator, Mapping, Sequence
from contextlib import contextmanager, suppress
from typing import Any, TypeAlias, TypeVar

from ..names import check_name
from ..texts import Id
from . import log
from .faults import LogUnusable, OriginShared, ProgramChanged
from .telling import Batch

PREFIX = "sqlite:///"
FORMAT = 3
"""The format of logs in files. In the one before it each operation had a row, and a log's store stood in the row that
each append changes."""

_PAUSE = 0.01
"""Seconds between two looks at the file's version."""
_BUSY_SECONDS = 1.0
_RENEWED_SECONDS = 1.0
"""Seconds that a lease has to have lost before an append renews it."""
_ROW_LENGTH = 16_384
"""Operations that are told at once share a row while their texts aren't longer."""
_ROWS_AT_ONCE = 16
"""Rows that are asked for at once, of which each may have a thousand operations."""
_WAL_BYTES = 16_777_216

# an append changes the row of a log, which is short therefore: program, position and store of a log stand in `states`,
# and nothing in these columns. Nodes of the formats before look for them, and for the format
_TABLES = """
    CREATE TABLE IF NOT EXISTS logs (
        log TEXT PRIMARY KEY, format INTEGER NOT NULL, epoch INTEGER NOT NULL, generation INTEGER NOT NULL,
        sealed_by TEXT NOT NULL, sealed_until REAL NOT NULL, position TEXT NOT NULL, program TEXT, store TEXT NOT NULL,
        id TEXT NOT NULL DEFAULT '', room INTEGER NOT NULL DEFAULT 0, appends INTEGER NOT NULL DEFAULT 0,
        place INTEGER NOT NULL DEFAULT 0) STRICT, WITHOUT ROWID;
    CREATE TABLE IF NOT EXISTS states (
        log TEXT PRIMARY KEY, program TEXT, position TEXT NOT NULL, store TEXT NOT NULL) STRICT, WITHOUT ROWID;
    CREATE TABLE IF NOT EXISTS origins (
        log TEXT, origin INTEGER, allotted INTEGER NOT NULL, writer TEXT NOT NULL, until REAL NOT NULL,
        PRIMARY KEY (log, origin)) STRICT, WITHOUT ROWID;
    CREATE TABLE IF NOT EXISTS members (
        log TEXT, origin INTEGER, position TEXT NOT NULL, at REAL NOT NULL,
        PRIMARY KEY (log, origin)) STRICT, WITHOUT ROWID;
    CREATE TABLE IF NOT EXISTS entries (
        log TEXT, origin INTEGER CHECK (origin BETWEEN 0 AND 4294967294), number INTEGER CHECK (number > 0),
        atoms TEXT NOT NULL, writer TEXT NOT NULL, count INTEGER NOT NULL DEFAULT 1 CHECK (count BETWEEN 1 AND number),
        PRIMARY KEY (log, origin, number)) STRICT, WITHOUT ROWID;
    CREATE TABLE IF NOT EXISTS refused (
        log TEXT, origin INTEGER, number INTEGER, atoms TEXT NOT NULL, writer TEXT NOT NULL, reason TEXT NOT NULL,
        PRIMARY KEY (log, origin, number)) STRICT, WITHOUT ROWID;
    CREATE TABLE IF NOT EXISTS names (
        log TEXT, number INTEGER, name TEXT NOT NULL, place INTEGER NOT NULL, used INTEGER NOT NULL DEFAULT 0,
        PRIMARY KEY (log, number), UNIQUE (log, place)) STRICT, WITHOUT ROWID"""
# what a file of the first format lacks
_SECOND = """
    ALTER TABLE logs ADD COLUMN id TEXT NOT NULL DEFAULT '';
    ALTER TABLE logs ADD COLUMN room INTEGER NOT NULL DEFAULT 0;
    ALTER TABLE logs ADD COLUMN appends INTEGER NOT NULL DEFAULT 0;
    ALTER TABLE logs ADD COLUMN place INTEGER NOT NULL DEFAULT 0;
    ALTER TABLE names ADD COLUMN used INTEGER NOT NULL DEFAULT 0;
    UPDATE logs SET id = lower(hex(randomblob(16))),
        place = coalesce((SELECT max(place) FROM names WHERE log = logs.log), 0),
        room = (
            SELECT coalesce(sum(length(atoms) - length(replace(atoms, '[', '')) - 1), 0)
            FROM entries WHERE log = logs.log)
            + CASE store WHEN 'true' THEN 0 ELSE 1 + (length(store) - length(replace(store, ', ', ''))) / 2 END
    WHERE format = 1"""
# what one of the second lacks
_THIRD = f"""
    ALTER TABLE entries ADD COLUMN count INTEGER NOT NULL DEFAULT 1;
    INSERT INTO states SELECT log, program, position, store FROM logs WHERE format < {FORMAT};
    UPDATE logs SET program = NULL, position = '[]', store = 'true', format = {FORMAT} WHERE format < {FORMAT}"""
# each origin is found from the one before it by the key, so that no more rows are looked at than are given
_NEWEST = """
    WITH RECURSIVE known(origin) AS (
        SELECT min(origin) FROM entries WHERE log = :log
        UNION ALL
        SELECT (SELECT min(origin) FROM entries WHERE log = :log AND origin > known.origin)
        FROM known WHERE origin IS NOT NULL)
    SELECT origin, (SELECT max(number) FROM entries WHERE log = :log AND entries.origin = known.origin)
    FROM known WHERE origin IS NOT NULL"""
_READ = """
    SELECT origin, number, atoms, writer, count FROM entries
    WHERE log = :log AND origin = :origin AND number > :number ORDER BY number LIMIT :limit"""
_END = "SELECT coalesce(max(number), 0) FROM entries WHERE log = :log AND origin = :origin"
_FIND = "SELECT atoms, writer, count FROM entries WHERE log = :log AND origin = :origin AND number = :number"
# an append is one statement and so one transaction, which asks all that there is to be asked; a link makes this view
# for itself, and the file doesn't have it
_APPENDING = f"""
    CREATE TEMP VIEW appending AS SELECT
        '' AS log, '' AS id, 0 AS origin, '' AS writer, 0 AS epoch, 0 AS room, 0 AS most, 0.0 AS now, 0.0 AS until,
        0 AS before, 0 AS number, 0 AS count, '' AS atoms;
    CREATE TEMP TRIGGER append INSTEAD OF INSERT ON appending BEGIN
        UPDATE logs SET room = room + new.room, appends = appends + 1
        WHERE log = new.log AND id = new.id AND epoch = new.epoch AND room + new.room <= new.most
        AND (sealed_by = new.writer OR sealed_until NOT BETWEEN new.now AND new.now + {log.SEAL_SECONDS})
        AND (SELECT writer FROM origins WHERE log = new.log AND origin = new.origin) = new.writer
        AND coalesce((SELECT max(number) FROM entries WHERE log = new.log AND origin = new.origin), 0) = new.before
        AND new.before <= new.number - new.count;
        SELECT RAISE(ABORT, 'the log is not as the link knows it') WHERE changes() = 0;
        UPDATE origins SET until = new.until WHERE log = new.log AND origin = new.origin
        AND until NOT BETWEEN new.until - {_RENEWED_SECONDS} AND new.until;
        INSERT INTO entries (log, origin, number, atoms, writer, count)
        VALUES (new.log, new.origin, new.number, new.atoms, new.writer, new.count);
    END"""
_APPEND = "INSERT INTO appending VALUES (?, ?, ?, ?, ?, ?, ?, ?, ?, ?, ?, ?, ?)"
_ADD = "INSERT INTO entries (log, origin, number, atoms, writer, count) VALUES (?, ?, ?, ?, ?, ?)"
# what keeps a link from appending, and the origin's greatest number
_STAND = """
    SELECT id, epoch, sealed_by, sealed_until, room,
        (SELECT writer FROM origins WHERE log = :log AND origin = :origin),
        coalesce((SELECT max(number) FROM entries WHERE log = :log AND origin = :origin), 0)
    FROM logs WHERE log = :log"""
_HOLD = """
    INSERT INTO origins VALUES (:log, :origin, :allotted, :writer, :until)
    ON CONFLICT DO UPDATE SET allotted = :allotted, writer = :writer, until = :until
    WHERE until = :before OR writer = :writer"""
_LEASE = "UPDATE origins SET until = :end WHERE log = :log AND origin = :origin AND writer = :writer"
_LEAVE = "DELETE FROM members WHERE log = :log AND origin = :origin"
_TELL = "INSERT OR REPLACE INTO members VALUES (:log, :origin, :position, :now)"
_NAME = """
    INSERT INTO names VALUES (:log, :number, :name, :place, :used)
    ON CONFLICT (log, number) DO UPDATE SET used = :used RETURNING name, place"""
_FORGET = "DELETE FROM names WHERE log = :log AND used <= :appends AND number IN (SELECT value FROM json_each(:unused))"
_NEW = """
    INSERT OR IGNORE INTO logs
        (log, format, epoch, generation, sealed_by, sealed_until, position, program, store)
    VALUES (:log, :format, :epoch, 0, '', 0.0, '[]', NULL, 'true')"""
_BEGIN = "UPDATE states SET program = :program WHERE log = :log AND program IS NULL"
_NEW_STATE = "INSERT OR IGNORE INTO states VALUES (:log, NULL, '[]', 'true')"
_KEEP = """
    UPDATE logs SET epoch = :epoch, generation = :generation,
        room = :room + CASE WHEN :is_last THEN 0 ELSE max(0, room - :counted) END
    WHERE log = :log AND generation = :generation - 1"""
_KEEP_STATE = "UPDATE states SET program = :program, position = :position, store = :store WHERE log = :log"
_CUT = """
    UPDATE entries SET atoms = :atoms, count = :count WHERE log = :log AND origin = :origin AND number = :number"""
_STATE = """
    SELECT id, format, epoch, states.program, generation, states.position, states.store
    FROM logs JOIN states USING (log) WHERE log = :log"""

T = TypeVar("T")


Row: TypeAlias = tuple[Any, ...]


class _Away(Exception):
    """The file is locked by others for now."""


_AWAY = (_Away, log.Busy)


class SqliteLink(log.Link):
    """A link over a file of SQLite."""

    format = FORMAT

    def __init__(self, url: str, origin: int | None, log: str, patience: float) -> None:
        super().__init__(patience, log)
        if not url.startswith(PREFIX) or url == PREFIX:
            raise ValueError(f"a log in a file is {PREFIX}PATH, not {url!r}")
        self.path = os.path.abspath(url.removeprefix(PREFIX))
        self._lock = threading.RLock()
        self._bell_lock = threading.RLock()
        self._engine = self._bell = self._patiently(self._opened, (_Away,))
        try:
            self._file = os.stat(self.path)
            self._bell = self._patiently(self._opened, (_Away,))
            self._use(self._check_row)
            self._take_origin(origin)
        except BaseException:
            self._let_go()
            raise

    @log.of_damaged
    def state(self) -> log.State:
        id, format, epoch, program, generation, position, store = self._row(_STATE)
        log.known_format(format, FORMAT)
        self._check_id(id)
        kept = log.program_of(program) if program else None
        return log.State(log.whole(epoch), kept, log.whole(generation), log.position_of(position), str(store))

    @log.of_damaged
    def mark(self) -> log.Mark:
        id, format, epoch, _, generation, position, _ = self._row(_STATE)
        log.known_format(format, FORMAT)
        self._check_id(id)
        return log.Mark(log.whole(epoch), log.whole(generation), log.position_of(position))

    @log.of_damaged
    def count(self) -> log.Count:
        id, *counts = self._row("SELECT id, appends, generation, room FROM logs WHERE log = :log")
        self._check_id(id)
        return log.Count(*map(log.whole, counts))

    def begin(self, program: log.Program) -> None:
        values = {"log": self.log, "program": log.program_text(program), "id": log.new_log_id()}

        def give(engine: sqlite3.Connection) -> None:
            self._check_row(engine)
            if engine.execute(_BEGIN, values).rowcount:
                engine.execute("UPDATE logs SET id = :id WHERE log = :log AND id = ''", values)

        self._write(give)

    def append(self, batch: Batch) -> None:
        first, *others = _rows_of(batch.first.number, batch.texts)
        is_one = not others and not batch.names

        def add(engine: sqlite3.Connection) -> None:
            # a statement that is all of a transaction commits it too
            batch.is_unsure = is_one
            now = time.time()
            # at each try: the log may have got its id in between
            asked = (self.log, self.log_id, self.origin, self.writer, batch.epoch, batch.room, self.room_limit, now)
            try:
                engine.execute(_APPEND, (*asked, now + self.lease_seconds, batch.before, *first))
            except sqlite3.IntegrityError:
                batch.is_unsure = False
                return self._raise_why(engine, batch)
            except sqlite3.Error as fault:
                batch.is_unsure = is_one and not _is_away(fault)
                raise
            if not is_one:
                rows = [(self.log, self.origin, number, text, self.writer, count) for number, count, text in others]
                engine.executemany(_ADD, rows)
                self._keep_names(engine, batch.names)
            # what follows is the commit
            batch.is_unsure = True

        (self._use if is_one else self._write)(add)
        batch.is_unsure = False

    @log.of_damaged
    def settle(self, entry: log.Entry) -> bool:
        def look(engine: sqlite3.Connection) -> bool:
            end = self._rows(engine, _END, origin=entry.id.origin)[0][0]
            return log.is_among(entry, end, self._found(engine, entry.id))

        return self._use(look)

    @log.of_damaged
    def read(self, after: log.Position, wait: float = 0.0) -> log.Reading:
        end = time.monotonic() + wait
        self._renew()
        while True:
            version = self._version()
            entries = self._entries(after)
            left = end - time.monotonic()
            if entries or left <= 0 or self._closing.is_set:
                # asked for after the entries: those that were missed were removed by a generation that is told
                id, generation = self._row("SELECT id, generation FROM logs WHERE log = :log")
                self._check_id(id)
                return log.Reading(entries, log.whole(generation))
            while self._version() == version and time.monotonic() < end and not self._closing.is_set:
                time.sleep(_PAUSE)

    @log.of_damaged
    def newest(self) -> dict[int, int]:
        return {log.whole(origin): log.whole(number) for origin, number in self._ask(_NEWEST)}

    @log.of_damaged
    def keep(self, state: log.State, is_last: bool = False, rest: log.Rest = log.Rest()) -> bool:
        assert state.program
        values: dict[str, object] = {
            "log": self.log,
            "epoch": state.epoch,
            "program": log.program_text(state.program),
            "generation": state.generation,
            "position": log.position_text(state.position),
            "store": state.store,
            "room": rest.room,
            "counted": rest.since.room,
            "is_last": is_last,
        }

        def put(engine: sqlite3.Connection) -> bool:
            self._check_row(engine)
            newest = {origin: number for origin, number in self._rows(engine, _NEWEST)}
            if is_last and log.has_more(newest, state.position):
                return False
            if not engine.execute(_KEEP, values).rowcount:
                return False
            engine.execute(_KEEP_STATE, values)
            ends = [(self.log, *end) for end in state.position.items()]
            engine.executemany("DELETE FROM entries WHERE log = ? AND origin = ? AND number < ?", ends)
            for origin, end in state.position.items():
                self._cut(engine, origin, end)
            self._rows(engine, _FORGET, unused=json.dumps(list(rest.unused)), appends=rest.since.appends)
            return True

        return self._write(put)

    @log.of_damaged
    def names(self, place: int = 0) -> list[log.Named]:
        query = "SELECT place, number, name FROM names WHERE log = :log AND place > :place ORDER BY place"
        rows = self._ask(query, place=place)
        return [log.Named(log.whole(at), log.whole(number), str(name)) for at, number, name in rows]

    def seal(self, seconds: float) -> None:
        query = "UPDATE logs SET sealed_by = :writer, sealed_until = :end WHERE log = :log"
        self._ask(query, writer=self.writer, end=time.time() + seconds)

    def set_aside(self, refused: log.SetAside) -> None:
        row = (self.log, *refused.entry.id, refused.entry.atoms, refused.entry.writer, refused.reason)
        self._write(lambda engine: engine.execute("INSERT OR IGNORE INTO refused VALUES (?, ?, ?, ?, ?, ?)", row))

    @log.of_damaged
    def refused(self) -> list[log.SetAside]:
        columns = "origin, number, atoms, writer, reason"
        rows = self._ask(f"SELECT {columns} FROM refused WHERE log = :log ORDER BY origin, number")
        return [log.SetAside(entry, row[-1]) for entry, row in zip(log.entries_of(row[:-1] for row in rows), rows)]

    @log.of_damaged
    def members(self) -> list[log.Heard]:
        rows = self._ask("SELECT origin, position, at FROM members WHERE log = :log ORDER BY origin")
        now = time.time()
        return [
            log.Heard(log.whole(origin), log.position_of(position), max(0.0, now - at)) for origin, position, at in rows
        ]

    @log.of_damaged
    def _leases(self) -> dict[int, log.Lease]:
        rows = self._ask("SELECT origin, until, allotted FROM origins WHERE log = :log")
        now = time.time()
        return {log.whole(origin): log.Lease.of(float(until), now, bool(allotted)) for origin, until, allotted in rows}

    def _hold(self, origin: int, is_allotted: bool, until: float | None) -> bool:
        values: dict[str, object] = {"origin": origin, "allotted": is_allotted, "writer": self.writer, "log": self.log}
        values |= {"before": until, "until": time.time() + self.lease_seconds}
        return self._write(lambda engine: engine.execute(_HOLD, values).rowcount > 0)

    def _wait_for_writing(self) -> None:
        self._write(lambda engine: None)

    def _beat(self, position: str) -> None:
        now = time.time()
        values: dict[str, object] = {"log": self.log, "origin": self.origin, "position": position, "now": now}

        def beat(engine: sqlite3.Connection) -> None:
            if self._lease_until(engine, now + self.lease_seconds):
                engine.execute(_TELL, values)

        self._write(beat)

    def _lease_until(self, engine: sqlite3.Connection, end: float) -> bool:
        """Sets the end of the link's lease, and says whether the origin is its own."""
        values: dict[str, object] = {"log": self.log, "origin": self.origin, "writer": self.writer, "end": end}
        return engine.execute(_LEASE, values).rowcount > 0

    def _let_go(self) -> None:
        def leave(engine: sqlite3.Connection) -> None:
            if self._lease_until(engine, 0.0):
                engine.execute(_LEAVE, {"log": self.log, "origin": self.origin})

        # an origin that was never taken is no attribute
        with suppress(Exception):
            self._write(leave)
        with self._bell_lock:
            self._bell.close()
        with self._lock:
            self._engine.close()

    def _opened(self, left: float) -> sqlite3.Connection:
        """A connection to the file, which has all tables."""
        with self._faults():
            engine = sqlite3.connect(
                self.path, timeout=min(_BUSY_SECONDS, left), isolation_level=None, check_same_thread=False
            )
            try:
                engine.execute("PRAGMA journal_mode = WAL")
                engine.execute("PRAGMA synchronous = FULL")
                engine.execute("PRAGMA temp_store = MEMORY")
                engine.execute(f"PRAGMA journal_size_limit = {_WAL_BYTES}")
                _in_transaction(engine, self._make_tables)
                engine.executescript(_APPENDING)
            except BaseException:
                engine.close()
                raise
        return engine

    def _make_tables(self, engine: sqlite3.Connection) -> None:
        logs, entries = (
            [name for _, name, *_ in engine.execute(f"PRAGMA table_info({table})")] for table in ("logs", "entries")
        )
        is_first, is_second = logs and "id" not in logs, entries and "count" not in entries
        changes = [_SECOND] * bool(is_first) + [_TABLES] + [_THIRD] * bool(is_second)
        for change in ";".join(changes).split(";"):
            engine.execute(change)
        values = {"log": self.log, "format": FORMAT, "epoch": log.FIRST_EPOCH}
        for query in (_NEW, _NEW_STATE):
            engine.execute(query, values)

    @log.of_damaged
    def _raise_why(self, engine: sqlite3.Connection, batch: Batch) -> None:
        """Raises what keeps the batch from the log, unless it is there already."""
        rows = self._rows(engine, _STAND, origin=self.origin)
        id, epoch, sealed_by, sealed_until, room, holder, end = rows[0] if rows else (None,) * 7
        self._check_id(id)
        last = batch.last
        if end == last.id.number and self._found(engine, last.id) == (last.atoms, last.writer):
            return
        if end >= batch.first.number or holder != self.writer:
            raise OriginShared(self.origin)
        if epoch != batch.epoch:
            raise ProgramChanged
        # a seal that ends further ahead than one is long was made by a clock that was wrong
        if sealed_by != self.writer and 0 < sealed_until - time.time() <= log.SEAL_SECONDS:
            raise log.Sealed
        self._check_end(end, batch)
        if room + batch.room > self.room_limit:
            raise self._full(batch)
        # what kept it is over by now
        raise log.Sealed

    def _found(self, engine: sqlite3.Connection, id: Id) -> tuple[str, str] | None:
        """Atoms and writer of the operation that is the last of its row."""
        for atoms, writer, count in self._rows(engine, _FIND, origin=id.origin, number=id.number):
            return _lines_of(atoms, count)[-1], writer
        return None

    def _cut(self, engine: sqlite3.Connection, origin: int, end: int) -> None:
        """Removes operations before this one from the row that it is in."""
        for _, number, atoms, _, count in self._rows(engine, _READ, origin=origin, number=end - 1, limit=1):
            if number - count < end - 1:
                left = _lines_of(atoms, count)[end - 1 - number:]
                self._rows(engine, _CUT, origin=origin, number=number, atoms="\n".join(left), count=len(left))

    @log.of_damaged
    def _keep_names(self, engine: sqlite3.Connection, names: Mapping[int, str]) -> None:
        """Has the log keep these names, as used by now. Raises `NameClash`."""
        if not names:
            return
        used, place = self._rows(engine, "SELECT appends, place FROM logs WHERE log = :log")[0]
        for number, name in names.items():
            values = {"number": number, "name": name, "place": place + 1, "used": used}
            kept, at = self._rows(engine, _NAME, **values)[0]
            check_name(number, name, kept)
            place = max(place, at)
        self._rows(engine, "UPDATE logs SET place = :place WHERE log = :log", place=place)

    def _entries(self, after: log.Position) -> list[log.Entry]:
        def read(engine: sqlite3.Connection) -> list[log.Entry]:
            entries: list[log.Entry] = []
            for origin, number in self._rows(engine, _NEWEST):
                if number > (held := after.get(origin, 0)):
                    entries += self._of_origin(engine, origin, held)
            return entries

        return self._use(read)

    def _of_origin(self, engine: sqlite3.Connection, origin: int, held: int) -> list[log.Entry]:
        """The first entries of an origin beyond this number."""
        found: list[log.Entry] = []
        after, is_more = held, True
        while is_more and len(found) < log.READ_AT_ONCE:
            rows = self._rows(engine, _READ, origin=origin, number=after, limit=_ROWS_AT_ONCE)
            found += [entry for entry in log.entries_of(_operations_of(rows)) if entry.id.number > held]
            is_more = len(rows) == _ROWS_AT_ONCE
            after = found[-1].id.number if found else after
        return found[:log.READ_AT_ONCE]

    def _check_row(self, engine: sqlite3.Connection) -> None:
        """Raises `LogLost` where the file has the log no more, or another one."""
        rows = self._rows(engine, "SELECT id FROM logs WHERE log = :log")
        self._check_id(rows[0][0] if rows else None)

    def _row(self, query: str) -> Row:
        """The one row of a query for the log's state."""
        rows = self._ask(query)
        if not rows:
            self._check_id(None)
        return rows[0]

    def _rows(self, engine: sqlite3.Connection, query: str, **values: object) -> list[Row]:
        named: dict[str, object] = {"log": self.log, **values}
        try:
            return engine.execute(query, named).fetchall()
        except sqlite3.OperationalError as fault:
            if "decode" not in str(fault):
                raise
            return _as_texts(engine, query, named)

    def _ask(self, query: str, **values: object) -> list[Row]:
        return self._use(lambda engine: self._rows(engine, query, **values))

    def _write(self, call: Callable[[sqlite3.Connection], T]) -> T:
        """The result of a call whose changes are made all at once or not at all."""

        return self._use(lambda engine: _in_transaction(engine, call))

    def _use(self, call: Callable[[sqlite3.Connection], T]) -> T:
        return self._patiently(lambda left: self._called(self._lock, self._engine, call, left), _AWAY)

    def _version(self) -> int:
        return self._patiently(lambda left: self._called(self._bell_lock, self._bell, _version_of, left), _AWAY)

    def _called(
        self, lock: threading._RLock, engine: sqlite3.Connection, call: Callable[[sqlite3.Connection], T], left: float
    ) -> T:
        """The result of a call over a connection, which makes one at a time."""
        self._check_file()
        try:
            return log.in_turn(lock, left, call, engine)
        except sqlite3.Error as fault:
            raise self._fault_of(fault) from fault

    def _check_file(self) -> None:
        """Raises where the path leads to another file by now, or to none: nodes that come would share nothing."""
        try:
            now = os.stat(self.path)
        except OSError as fault:
            raise LogUnusable(f"the log's file is gone: {fault}") from fault
        if now.st_ino != self._file.st_ino or now.st_dev != self._file.st_dev:
            raise LogUnusable(f"the log's file was put in the place of another: {self.path}")

    @contextmanager
    def _faults(self) -> Iterator[None]:
        """What SQLite raises, as this package does."""
        try:
            yield
        except sqlite3.Error as fault:
            raise self._fault_of(fault) from fault

    def _fault_of(self, fault: sqlite3.Error) -> Exception:
        if _is_away(fault) or self._closing.is_set:
            return _Away(str(fault))
        return LogUnusable(f"the log in {self.path} can't be used: {log.one_line(fault)}")


def _version_of(engine: sqlite3.Connection) -> int:
    """What changes where another connection changes the file."""
    return int(engine.execute("PRAGMA data_version").fetchone()[0])


def _is_away(fault: sqlite3.Error) -> bool:
    """Whether others lock the file."""
    return getattr(fault, "sqlite_errorname", "").startswith(("SQLITE_BUSY", "SQLITE_LOCKED"))


def _rows_of(first: int, texts: Sequence[str]) -> list[tuple[int, int, str]]:
    """The rows that operations of numbers from the first on have: the number of the last, how many, and their texts."""
    if len(texts) == 1:
        return [(first, 1, texts[0])]
    text, count = "\n".join(texts), len(texts)
    # a link writes no text with an end of line, but others may have it do so
    if len(text) <= _ROW_LENGTH and text.count("\n") == count - 1:
        return [(first + count - 1, count, text)]
    half = count // 2
    return _rows_of(first, texts[:half]) + _rows_of(first + half, texts[half:])


def _lines_of(atoms: str, count: int) -> list[str]:
    """The texts of the operations of a row."""
    lines = atoms.split("\n") if count != 1 else [atoms]
    if len(lines) != count:
        raise ValueError(f"a row has {len(lines)} operations, and not {count}")
    return lines


def _operations_of(rows: Iterable[Row]) -> Iterator[Row]:
    """A row for each operation of rows that have origin, number, atoms, writer and count."""
    for origin, number, atoms, writer, count in rows:
        for at, text in enumerate(_lines_of(atoms, count), log.whole(number) - count + 1):
            yield origin, at, text, writer


def _as_texts(engine: sqlite3.Connection, query: str, values: dict[str, object]) -> list[Row]:
    """The rows of a query where something else has written what is no text."""
    engine.text_factory = _text_of
    try:
        return engine.execute(query, values).fetchall()
    finally:
        engine.text_factory = str


def _text_of(kept: bytes) -> str:
    return kept.decode(errors="replace")


def _in_transaction(engine: sqlite3.Connection, call: Callable[[sqlite3.Connection], T]) -> T:
    """The result of a call whose changes are made all at once or not at all."""
    try:
        # an interrupt that comes once it has begun ends it
        engine.execute("BEGIN IMMEDIATE")
        result = call(engine)
        engine.execute("COMMIT")
    except BaseException:
        if engine.in_transaction:
            engine.execute("ROLLBACK")
        raise
    return result
