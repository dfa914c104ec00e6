"""The log in PostgreSQL.

The table LOG has a row for each entry; its key is the id, so that no number is used twice. `LOG:state` has what they go
on from and how much of the log's room is taken, `LOG:origins` whose an origin is, `LOG:refused` what was set aside,
`LOG:names` names. Who appends changes the state's row, so that it is done by one after the other; and holds its origin
by an advisory lock too, so that nothing of a connection that was lost comes late. A row of the table LOG that is no
entry has the log's id: where that is gone, so are entries. Who appends notifies the channel of the log's name, to which
who waits listens.

Connections are asynchronous ones, since psycopg2 waits for an answer without an end else.
"""

import select
import threading
import time
from collections.abc import Callable, Iterator
from contextlib import contextmanager, suppress
from typing import Any, TypeVar

import psycopg2
from psycopg2 import errors, extensions, sql

from ..names import NameClash, UnkeptName, check_name
from ..refusals import ChrrepError
from . import log
from .faults import LogUnusable, OriginShared, ProgramChanged
from .telling import Batch

_LOST = (psycopg2.OperationalError, psycopg2.InterfaceError, OSError)
_AWAY = (*_LOST, log.Busy)
_UNDONE = (errors.LockNotAvailable, errors.QueryCanceled)
"""What a statement ends by that was not carried out, on a connection that goes on."""
_CONNECTING: dict[str, Any] = {"connect_timeout": 5, "keepalives_idle": 5, "tcp_user_timeout": 10_000}
_CONNECT_SECONDS = 5.0
_LEAST_SECONDS = 1.0
"""How long a call has for itself, however long it waited for its turn."""
_LOOK_SECONDS = 0.5
"""How long it is waited for an answer before it is looked whether the link is closed."""
_TURNS = 2
"""Statements that wait for a lock in vain before a link's patience is at its end, at least."""
_HALF = 2**31
_NAMED = ("state", "origins", "members", "refused", "names")
_LONGEST_TABLE = 63

# the first of a log's links makes them
_TABLES = f"""
    SELECT pg_advisory_xact_lock(hashtext({{name}}));
    CREATE TABLE IF NOT EXISTS {{log}} (
        origin bigint, number bigint, writer text NOT NULL, atoms text NOT NULL, PRIMARY KEY (origin, number));
    CREATE TABLE IF NOT EXISTS {{state}} (
        one boolean PRIMARY KEY CHECK (one), format bigint NOT NULL, epoch bigint NOT NULL, program text,
        generation bigint NOT NULL, position text NOT NULL, store text NOT NULL,
        sealed_by text NOT NULL, sealed_until timestamptz NOT NULL);
    CREATE TABLE IF NOT EXISTS {{origins}} (origin bigint PRIMARY KEY, allotted boolean NOT NULL);
    CREATE TABLE IF NOT EXISTS {{members}} (origin bigint PRIMARY KEY, position text NOT NULL, at timestamptz NOT NULL);
    CREATE TABLE IF NOT EXISTS {{refused}} (
        origin bigint, number bigint, atoms text NOT NULL, writer text NOT NULL, reason text NOT NULL,
        PRIMARY KEY (origin, number));
    CREATE TABLE IF NOT EXISTS {{names}} (number bigint PRIMARY KEY, name text NOT NULL, place bigint NOT NULL UNIQUE);
    ALTER TABLE {{state}}
        ADD COLUMN IF NOT EXISTS id text NOT NULL DEFAULT '', ADD COLUMN IF NOT EXISTS room bigint NOT NULL DEFAULT 0,
        ADD COLUMN IF NOT EXISTS appends bigint NOT NULL DEFAULT 0,
        ADD COLUMN IF NOT EXISTS place bigint NOT NULL DEFAULT 0;
    ALTER TABLE {{origins}}
        ADD COLUMN IF NOT EXISTS writer text NOT NULL DEFAULT '',
        ADD COLUMN IF NOT EXISTS until float8 NOT NULL DEFAULT 0;
    ALTER TABLE {{names}} ADD COLUMN IF NOT EXISTS used bigint NOT NULL DEFAULT 0;
    INSERT INTO {{state}} VALUES (true, {log.FORMAT - 1}, {log.FIRST_EPOCH}, NULL, 0, '[]', 'true', '', now())
    ON CONFLICT DO NOTHING;
    UPDATE {{state}} SET format = {log.FORMAT}, id = CASE WHEN program IS NULL THEN '' ELSE %(id)s END,
        place = coalesce((SELECT max(place) FROM {{names}}), 0),
        room = coalesce((
            SELECT sum(greatest(0, length(atoms) - length(replace(atoms, '[', '')) - 1)) FROM {{log}}), 0)
            + CASE store WHEN 'true' THEN 0 ELSE 1 + (length(store) - length(replace(store, ', ', ''))) / 2 END
    WHERE format < {log.FORMAT};
    INSERT INTO {{log}} (origin, number, writer, atoms) SELECT {{mark}}, 0, '', id FROM {{state}}
    ON CONFLICT DO NOTHING"""
_ID = "CASE WHEN EXISTS (SELECT FROM {log} WHERE origin = {mark} AND atoms = id) THEN id END"
_BEGIN = f"""
    WITH begun AS (
        UPDATE {{state}} SET program = %(program)s, id = CASE id WHEN '' THEN %(new)s ELSE id END
        WHERE program IS NULL AND {_ID} = %(id)s RETURNING id)
    UPDATE {{log}} SET atoms = begun.id FROM begun WHERE origin = {{mark}}"""
# each origin is found from the one before it by the key, so that no more rows are looked at than are given
_ORIGINS = """
    WITH RECURSIVE origins(origin) AS (
        SELECT min(origin) FROM {log} WHERE origin > {mark}
        UNION ALL
        SELECT (SELECT min(origin) FROM {log} WHERE origin > origins.origin) FROM origins WHERE origin IS NOT NULL)"""
_READ = _ORIGINS + """
    SELECT more.origin, more.number, more.atoms, more.writer
    FROM origins
    LEFT JOIN unnest(%(origins)s::bigint[], %(numbers)s::bigint[]) AS held(origin, number) USING (origin)
    CROSS JOIN LATERAL (
        SELECT * FROM {log} AS entry
        WHERE entry.origin = origins.origin AND entry.number > coalesce(held.number, 0)
        ORDER BY entry.number LIMIT %(limit)s) AS more
    ORDER BY more.origin, more.number"""
_NEWEST = _ORIGINS + """
    SELECT origin, (SELECT max(number) FROM {log} AS entry WHERE entry.origin = origins.origin)
    FROM origins WHERE origin IS NOT NULL"""
_NOW = "extract(epoch FROM clock_timestamp())::float8"
_LOCK = "SELECT pg_try_advisory_lock(hashtext({name}), %(key)s)"
_UNLOCK = "SELECT pg_advisory_unlock(hashtext({name}), %(key)s)"
_LEASES = f"SELECT origin, until, allotted, {_NOW} FROM {{origins}}"
_HOLD = f"""
    INSERT INTO {{origins}} AS held (origin, allotted, writer, until)
    VALUES (%(origin)s, %(allotted)s, %(writer)s, {_NOW} + %(seconds)s)
    ON CONFLICT (origin) DO UPDATE SET allotted = EXCLUDED.allotted, writer = EXCLUDED.writer, until = EXCLUDED.until
    WHERE held.until = %(before)s OR held.writer = EXCLUDED.writer RETURNING true"""
_RENEW = f"""
    UPDATE {{origins}} SET until = {_NOW} + %(seconds)s WHERE origin = %(origin)s AND writer = %(writer)s"""
_TELL = """
    INSERT INTO {members} VALUES (%(origin)s, %(position)s, clock_timestamp())
    ON CONFLICT (origin) DO UPDATE SET position = EXCLUDED.position, at = EXCLUDED.at"""
_LEAVE = """
    UPDATE {origins} SET until = 0 WHERE origin = %(origin)s AND writer = %(writer)s;
    DELETE FROM {members} WHERE origin = %(origin)s"""
_MEMBERS = "SELECT origin, position, extract(epoch FROM clock_timestamp() - at)::float8 FROM {members} ORDER BY origin"
_IS_SEALED = f"""
    sealed_by <> %(writer)s AND sealed_until > clock_timestamp()
    AND sealed_until <= clock_timestamp() + {log.SEAL_SECONDS} * interval '1 second'"""
_END = "coalesce((SELECT max(number) FROM {log} WHERE origin = %(origin)s), 0)"
_APPEND = f"""
    WITH stand AS (
        UPDATE {{state}} SET room = room + %(room)s, appends = appends + 1
        WHERE {_ID} = %(id)s AND epoch = %(epoch)s AND room + %(room)s <= %(limit)s AND NOT ({_IS_SEALED})
        AND EXISTS (SELECT FROM {{origins}} WHERE origin = %(origin)s AND writer = %(writer)s)
        AND {_END} = %(before)s AND %(first)s > %(before)s
        RETURNING one),
    renewed AS ({_RENEW} AND until < {_NOW} + %(seconds)s - 1 AND EXISTS (SELECT FROM stand)),
    added AS (
        INSERT INTO {{log}} (origin, number, writer, atoms)
        SELECT %(origin)s, new.number, %(writer)s, new.atoms
        FROM stand, unnest(%(numbers)s::bigint[], %(atoms)s::text[]) AS new(number, atoms)
        RETURNING number)
    SELECT pg_notify({{name}}, '') FROM added LIMIT 1"""
# what keeps a link from appending, and the origin's greatest number
_STAND = f"""
    SELECT {_ID}, epoch, {_IS_SEALED}, room, (SELECT writer FROM {{origins}} WHERE origin = %(origin)s), {_END}
    FROM {{state}}"""
_FIND = "SELECT atoms, writer FROM {log} WHERE origin = %(origin)s AND number = %(number)s"
_KEEP = f"""
    UPDATE {{state}} SET epoch = %(epoch)s, program = %(program)s, generation = %(generation)s,
        position = %(position)s, store = %(store)s,
        room = %(room)s + CASE WHEN %(is_last)s THEN 0 ELSE greatest(0, room - %(counted)s) END
    WHERE generation = %(generation)s - 1 AND {_ID} = %(id)s RETURNING one"""
_TRIM = """
    DELETE FROM {log} AS entry USING unnest(%(origins)s::bigint[], %(numbers)s::bigint[]) AS held(origin, number)
    WHERE entry.origin = held.origin AND entry.number < held.number"""
_FORGET = "DELETE FROM {names} WHERE used <= %(appends)s AND number = ANY(%(unused)s::bigint[])"
_NAME = """
    WITH new AS (
        UPDATE {state} SET place = place + %(count)s RETURNING place - %(count)s AS place, appends + 1 AS used)
    INSERT INTO {names} AS kept (number, name, place, used)
    SELECT named.number, named.name, new.place + named.at, new.used
    FROM new, unnest(%(numbers)s::bigint[], %(texts)s::text[]) WITH ORDINALITY AS named(number, name, at)
    ON CONFLICT (number) DO UPDATE SET used = EXCLUDED.used
    RETURNING number, name"""
_SEAL = """
    UPDATE {state} SET sealed_by = %(writer)s, sealed_until = clock_timestamp() + %(seconds)s * interval '1 second'"""
_SET_ASIDE = """
    INSERT INTO {refused} VALUES (%(origin)s, %(number)s, %(atoms)s, %(writer)s, %(reason)s)
    ON CONFLICT DO NOTHING"""

T = TypeVar("T")
Row = tuple[Any, ...]


class _Held(psycopg2.OperationalError):  # type: ignore[misc]
    """The origin is still held by the connection before this one."""


class _Late(psycopg2.OperationalError):  # type: ignore[misc]
    """PostgreSQL gives no answer in time."""


class _Connection:
    """A connection for one call at a time, which is made again after it was lost."""

    def __init__(self, url: str, prepare: Callable[[], None]) -> None:
        self._url = url
        self._prepare = prepare
        self._lock = threading.RLock()
        self._is_over = False
        self._made: extensions.connection | None = None
        self._end = 0.0

    def use(self, call: Callable[[], T], seconds: float) -> T:
        """The call's result, within `seconds`; OperationalError where the connection is lost."""
        end = time.monotonic() + seconds

        def used() -> T:
            # who had it before may have left hardly any time
            self._end = max(end, time.monotonic() + _LEAST_SECONDS)
            return self._used(call)

        return log.in_turn(self._lock, seconds, used)

    def rows(self, query: sql.Composed, values: dict[str, object]) -> list[Row]:
        """The rows of a query, of which there may be none."""
        assert self._made
        with self._made.cursor() as cursor:
            cursor.execute(query, values)
            self._wait()
            return list(cursor.fetchall()) if cursor.description else []

    def hush(self) -> None:
        """Forgets the notices that have come."""
        assert self._made
        self._made.poll()
        self._made.notifies.clear()

    def listen(self, seconds: float) -> None:
        """Waits for a notice, for `seconds` at most."""
        assert self._made
        end = time.monotonic() + seconds
        self._made.poll()
        while not self._made.notifies and not self._is_over and time.monotonic() < end:
            if _is_ready(self._made, select.POLLIN, min(_LOOK_SECONDS, end - time.monotonic())):
                self._made.poll()

    def close(self) -> None:
        """Lets go of it; a call that waits for an answer is given up."""
        self._is_over = True
        with self._lock:
            self._let_go()

    def _used(self, call: Callable[[], T]) -> T:
        try:
            if self._made is None:
                self._made = psycopg2.connect(self._url, async_=True, **_CONNECTING)
                self._wait(_CONNECT_SECONDS)
                self._prepare()
            return call()
        except _UNDONE:
            raise
        except (psycopg2.Error, OSError) as error:
            if self._made and not isinstance(error, _LOST) and not self._made.closed:
                raise
            self._let_go()
            if isinstance(error, _LOST):
                raise
            raise psycopg2.OperationalError(str(error)) from error
        except (log.Sealed, ChrrepError):
            raise
        except BaseException:
            # interrupted in the middle of an exchange
            self._let_go()
            raise

    def _wait(self, seconds: float = float("inf")) -> None:
        """Waits until what was begun is done."""
        assert self._made
        end = min(self._end, time.monotonic() + seconds)
        while (state := self._made.poll()) != extensions.POLL_OK:
            event = select.POLLIN if state == extensions.POLL_READ else select.POLLOUT
            self._wait_for(event, end)

    def _wait_for(self, event: int, end: float) -> None:
        """Waits until the socket is ready; `_Late` where that is not in time, or the connection is closed."""
        assert self._made
        while not _is_ready(self._made, event, min(_LOOK_SECONDS, end - time.monotonic())):
            if self._is_over or time.monotonic() >= end:
                raise _Late("there is no answer in time")

    def _let_go(self) -> None:
        if self._made:
            with suppress(psycopg2.Error):
                self._made.close()
        self._made = None


class PostgresLink(log.Link):
    """A link over PostgreSQL, which has what it acknowledges on disk unless `fsync` or `synchronous_commit` is off."""

    def __init__(self, url: str, origin: int | None, log: str, patience: float) -> None:
        super().__init__(patience, log)
        _check_tables(log)
        tables = {name: sql.Identifier(f"{log}:{name}") for name in _NAMED}
        self._words = {"log": sql.Identifier(log), "name": sql.Literal(log), "mark": sql.Literal(-1), **tables}
        self._held: int | None = None
        self._engine = _Connection(url, self._prepare)
        self._bell = _Connection(url, lambda: self._listen())
        try:
            self._open()
            self._take_origin(origin)
        except BaseException:
            self._let_go()
            raise

    @log.of_damaged
    def state(self) -> log.State:
        columns = "format, epoch, program, generation, position, store"
        id, format, epoch, program, generation, position, store = self._state_row(columns)
        log.known_format(format)
        self._check_id(id)
        kept = log.program_of(program) if program else None
        return log.State(epoch, kept, generation, log.position_of(position), store)

    @log.of_damaged
    def mark(self) -> log.Mark:
        id, format, epoch, generation, position = self._state_row("format, epoch, generation, position")
        log.known_format(format)
        self._check_id(id)
        return log.Mark(epoch, generation, log.position_of(position))

    @log.of_damaged
    def count(self) -> log.Count:
        id, *counts = self._state_row("appends, generation, room")
        self._check_id(id)
        return log.Count(*map(log.whole, counts))

    def begin(self, program: log.Program) -> None:
        self._ask(_BEGIN, program=log.program_text(program), id=self.log_id, new=log.new_log_id())

    def append(self, batch: Batch) -> None:
        values = {
            "origin": self.origin,
            "writer": self.writer,
            "numbers": list(range(batch.first.number, batch.end + 1)),
            "atoms": list(batch.texts),
            "first": batch.first.number,
            "before": batch.before,
            "epoch": batch.epoch,
            "room": batch.room,
            "limit": self.room_limit,
            "seconds": self.lease_seconds,
        }
        batch.is_unsure = False

        def add() -> None:
            before, batch.is_unsure = batch.is_unsure, True
            try:
                is_added = self._add(batch, {"id": self.log_id, **values})
            except (*_UNDONE, NameClash, errors.UniqueViolation):
                batch.is_unsure = before
                raise
            batch.is_unsure = before
            if not is_added:
                self._raise_why(batch)

        try:
            self._use(add)
        except errors.UniqueViolation as fault:
            raise OriginShared(self.origin) from fault
        batch.is_unsure = False

    @log.of_damaged
    def settle(self, entry: log.Entry) -> bool:
        # the connection that was lost has ended, or else this one is not had
        def look() -> bool:
            values = {"origin": entry.id.origin, "number": entry.id.number}
            rows = self._rows(f"SELECT {_ID}, {_END} FROM {{state}}", **values)
            id, end = rows[0] if rows else (None, 0)
            self._check_id(id)
            found = self._rows(_FIND, **values)
            return log.is_among(entry, end, (found[0][0], found[0][1]) if found else None)

        return self._use(look)

    @log.of_damaged
    def read(self, after: log.Position, wait: float = 0.0) -> log.Reading:
        end = time.monotonic() + wait
        self._renew()
        while True:
            if wait > 0:
                # notices that have come tell of what is read next
                self._patiently(lambda left: self._bell.use(self._bell.hush, left), _AWAY)
            entries = list(log.entries_of(self._ask(_READ, **_arrays(after), limit=log.READ_AT_ONCE)))
            left = end - time.monotonic()
            if entries or left <= 0 or self._closing.is_set:
                # asked for after the entries: those that were missed were removed by a generation that is told
                id, generation = self._state_row("generation")
                self._check_id(id)
                return log.Reading(entries, generation)
            self._patiently(lambda most: self._bell.use(lambda: self._bell.listen(left), most), _AWAY)

    @log.of_damaged
    def newest(self) -> dict[int, int]:
        return {origin: number for origin, number in self._ask(_NEWEST)}

    def keep(self, state: log.State, is_last: bool = False, rest: log.Rest = log.Rest()) -> bool:
        assert state.program
        values = {
            "id": self.log_id,
            "epoch": state.epoch,
            "program": log.program_text(state.program),
            "generation": state.generation,
            "position": log.position_text(state.position),
            "store": state.store,
            "room": rest.room,
            "counted": rest.since.room,
            "is_last": is_last,
        }

        def put() -> bool:
            with self._transaction():
                # nothing is appended from here on
                self._rows("SELECT FROM {state} FOR UPDATE")
                if is_last and log.has_more({origin: number for origin, number in self._rows(_NEWEST)}, state.position):
                    return False
                if not self._rows(_KEEP, **values):
                    return False
                self._rows(_TRIM, **_arrays(state.position))
                self._rows(_FORGET, unused=list(rest.unused), appends=rest.since.appends)
                return True

        return self._use(put)

    @log.of_damaged
    def names(self, place: int = 0) -> list[log.Named]:
        query = "SELECT place, number, name FROM {names} WHERE place > %(place)s ORDER BY place"
        return [log.Named(*row) for row in self._ask(query, place=place)]

    def check_name(self, name: str) -> None:
        if "\0" in name:
            raise UnkeptName(name)

    def seal(self, seconds: float) -> None:
        self._ask(_SEAL, writer=self.writer, seconds=seconds)

    def set_aside(self, refused: log.SetAside) -> None:
        id, atoms, writer = refused.entry
        values = {"origin": id.origin, "number": id.number, "atoms": atoms, "writer": writer, "reason": refused.reason}
        self._ask(_SET_ASIDE, **values)

    @log.of_damaged
    def refused(self) -> list[log.SetAside]:
        rows = self._ask("SELECT origin, number, atoms, writer, reason FROM {refused} ORDER BY origin, number")
        return [log.SetAside(entry, row[-1]) for entry, row in zip(log.entries_of(row[:-1] for row in rows), rows)]

    @log.of_damaged
    def members(self) -> list[log.Heard]:
        rows = self._ask(_MEMBERS)
        return [log.Heard(origin, log.position_of(position), seconds) for origin, position, seconds in rows]

    def _open(self) -> None:
        """Sees to it that the log's tables are there, as this version has them."""
        is_there, = self._ask("SELECT to_regclass(%(table)s) IS NOT NULL", table=_quoted(f"{self.log}:state"))[0]
        formats = self._ask("SELECT format FROM {state}") if is_there else []
        if not formats or formats[0][0] < log.FORMAT:
            self._ask(_TABLES, id=log.new_log_id())
        log.known_format(self._ask("SELECT format FROM {state}")[0][0])
        # the lock is had when what a dead node was appending is in the log, or never will be
        self._ask("BEGIN; LOCK TABLE {log} IN SHARE MODE; COMMIT")
        self.log_id = ""
        self._check_id(self._state_row("generation")[0])

    @log.of_damaged
    def _leases(self) -> dict[int, log.Lease]:
        return {
            origin: log.Lease.of(until, now, is_allotted) for origin, until, is_allotted, now in self._ask(_LEASES)
        }

    def _hold(self, origin: int, is_allotted: bool, until: float | None) -> bool:
        values = {"origin": origin, "allotted": is_allotted, "writer": self.writer, "seconds": self.lease_seconds}

        def hold() -> bool:
            if not self._lock(origin):
                return False
            if not self._rows(_HOLD, before=until, **values):
                self._rows(_UNLOCK, key=origin - _HALF)
                return False
            self._held = origin
            return True

        return self._use(hold)

    def _beat(self, position: str) -> None:
        values = {"origin": self.origin, "writer": self.writer, "seconds": self.lease_seconds}

        def beat() -> None:
            if self._rows(f"{_RENEW} RETURNING true", **values):
                self._rows(_TELL, origin=self.origin, position=position)

        self._use(beat)

    def _let_go(self) -> None:
        if self._held is not None:
            with suppress(Exception):
                self._ask(_LEAVE, origin=self._held, writer=self.writer)
                # PostgreSQL may take a while to end the connection, which holds the lock
                self._ask(_UNLOCK, key=self._held - _HALF)
        self._engine.close()
        self._bell.close()

    def _prepare(self) -> None:
        """Makes a new connection ready, and takes the origin that the one before held."""
        milliseconds = int(self.patience / _TURNS * 1000) + 1
        self._rows("SET lock_timeout = %(time)s; SET statement_timeout = %(longest)s", time=milliseconds,
                   longest=_TURNS * milliseconds)  # fmt: skip
        if self._held is None:
            return
        writers = self._rows("SELECT writer FROM {origins} WHERE origin = %(origin)s", origin=self._held)
        if writers and writers[0][0] != self.writer:
            # the next append finds out too
            self._held = None
        elif not self._lock(self._held):
            raise _Held(f"origin {self._held} is still held by a connection that was lost")

    def _listen(self) -> None:
        self._bell.rows(self._query("LISTEN {log}"), {})

    def _lock(self, origin: int) -> bool:
        return bool(self._rows(_LOCK, key=origin - _HALF)[0][0])

    def _add(self, batch: Batch, values: dict[str, object]) -> bool:
        """Appends the batch, and says whether it was done."""
        if not batch.names:
            return bool(self._rows(_APPEND, **values))
        with self._transaction() as transaction:
            numbers, texts = list(batch.names.keys()), list(batch.names.values())
            for number, name in self._rows(_NAME, count=len(numbers), numbers=numbers, texts=texts):
                check_name(number, batch.names[number], name)
            transaction.is_kept = bool(self._rows(_APPEND, **values))
            return transaction.is_kept

    def _raise_why(self, batch: Batch) -> None:
        """Raises what keeps the batch from the log, unless it is there already."""
        rows = self._rows(_STAND, origin=self.origin, writer=self.writer)
        id, epoch, is_sealed, room, holder, end = rows[0] if rows else (None,) * 6
        self._check_id(id)
        last = batch.last
        if end == last.id.number and self._rows(_FIND, origin=self.origin, number=end) == [last[1:]]:
            return
        if end >= batch.first.number or holder != self.writer:
            raise OriginShared(self.origin)
        if epoch != batch.epoch:
            raise ProgramChanged
        if is_sealed:
            raise log.Sealed
        self._check_end(end, batch)
        if room + batch.room > self.room_limit:
            raise self._full(batch)
        # what kept it is over by now
        raise log.Sealed

    def _state_row(self, columns: str) -> Row:
        """The log's id, and what its state has in these columns."""
        rows = self._ask(f"SELECT {_ID}, {columns} FROM {{state}}")
        if not rows:
            self._check_id(None)
        return rows[0]

    def _query(self, query: str) -> sql.Composed:
        return sql.SQL(query).format(**self._words)

    def _rows(self, query: str, **values: object) -> list[Row]:
        return self._engine.rows(self._query(query), values)

    def _ask(self, query: str, **values: object) -> list[Row]:
        return self._use(lambda: self._rows(query, **values))

    def _use(self, call: Callable[[], T]) -> T:
        try:
            return self._patiently(lambda left: self._engine.use(call, left), _AWAY)
        except errors.UniqueViolation:
            raise
        except psycopg2.Error as fault:
            raise LogUnusable(f"the log in PostgreSQL can't be used: {log.one_line(fault)}") from fault

    @contextmanager
    def _transaction(self) -> Iterator["_Transaction"]:
        """What is done within is done all at once, or not at all."""
        transaction = _Transaction()
        self._rows("BEGIN")
        try:
            yield transaction
            self._rows("COMMIT" if transaction.is_kept else "ROLLBACK")
        except BaseException:
            with suppress(psycopg2.Error, AssertionError):
                self._rows("ROLLBACK")
            raise


class _Transaction:
    """Whether what is done is kept."""

    is_kept = True


def _check_tables(log: str) -> None:
    """Raises ValueError where no table can be named by a log, or one of another log is."""
    longest = max(map(len, _NAMED)) + 1
    if len(log.encode()) + longest > _LONGEST_TABLE:
        raise ValueError(f"over PostgreSQL a log's name has {_LONGEST_TABLE - longest} bytes at most, not {log!r}")
    if log.rpartition(":")[2] in _NAMED and ":" in log:
        raise ValueError(f"{log!r} is the name of a table of another log")


def _quoted(table: str) -> str:
    return '"' + table.replace('"', '""') + '"'


def _arrays(position: log.Position) -> dict[str, list[int]]:
    return {"origins": list(position.keys()), "numbers": list(position.values())}


def _is_ready(connection: extensions.connection, event: int, seconds: float) -> bool:
    """Waits until the connection's socket is ready; says whether it is."""
    poll = select.poll()
    poll.register(connection.fileno(), event)
    return bool(poll.poll(max(0.0, seconds) * 1000))
