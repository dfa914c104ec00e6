"""The log in Redis Streams.

Each origin has a stream `LOG:ORIGIN`, whose entry `NUMBER-0` is the operation of that number. Redis takes no entry
whose id isn't beyond the last, so that no number is used twice. The stream `LOG:origins` tells which origins there are,
the hash `LOG:state` what they go on from, how much of the log's room is taken and who has others wait, `LOG:leases`
whose an origin is, `LOG:members` how far members have read, `LOG:refused` what was set aside, and `LOG:names`,
`LOG:places` and `LOG:used` names. What changes more than one of them is a script, which Redis runs as a whole.
"""

import json
from collections.abc import Callable, Sequence
from contextlib import suppress
from typing import Any, TypeVar

import redis
from redis.backoff import NoBackoff
from redis.retry import Retry

from ..names import NameClash
from ..refusals import ChrrepError
from ..texts import Id
from . import log
from .faults import LogUnusable, OriginShared, ProgramChanged
from .telling import Batch

_LOST = (redis.exceptions.ConnectionError, redis.exceptions.TimeoutError, OSError)
_ANSWER_SECONDS = 10.0
_LEAST_SECONDS = 0.5
_TURNS = 4
"""Answers that a link waits for in vain before its patience is at its end, at least."""
_DISCONNECTS = 100
"""Times that connections are ended, at most: each may be one that another thread ends, too."""
_ALL = 2**64 - 1
"""Beyond each number."""

T = TypeVar("T")

_NEW: dict[str, str | int] = {
    "epoch": log.FIRST_EPOCH,
    "generation": 0,
    "position": "[]",
    "store": "true",
    "room": 0,
    "appends": 0,
    "place": 0,
    "sealed_by": "",
    "sealed_until": 0,
}

_NOW = """
    local time = redis.call('TIME')
    local now = time[1] * 1000 + math.floor(time[2] / 1000)
    local function milliseconds(number) return string.format('%.0f', number) end"""
_FIELDS = """
    local function fields(item)
        local held = {}
        for at = 1, #item[2], 2 do held[item[2][at]] = item[2][at + 1] end
        return held
    end"""
_LEASE = """
    local function lease(key, origin)
        local holder, last, allotted, fence =
            string.match(redis.call('HGET', key, origin) or '', '^(%S+) (%d+) (%d) (%d+)$')
        return holder, last, allotted, tonumber(fence or 0)
    end"""
# KEYS: state, origins, named, places, leases, allotted. ARGV: name of the log, id, fields of a new state
_OPEN = _FIELDS + f"""
    local format = tonumber(redis.call('HGET', KEYS[1], 'format') or '1')
    if format >= {log.FORMAT} then return end
    for at = 3, #ARGV, 2 do redis.call('HSETNX', KEYS[1], ARGV[at], ARGV[at + 1]) end
    local function count(text, sign) return select(2, string.gsub(text, sign, '')) end
    local store = redis.call('HGET', KEYS[1], 'store')
    local room = store == 'true' and 0 or count(store, ', ') + 1
    for _, item in ipairs(redis.call('XRANGE', KEYS[2], '-', '+')) do
        local origin = fields(item).origin or ''
        if string.match(origin, '^%d+$') then
            local allotted = redis.call('SISMEMBER', KEYS[6], origin)
            redis.call('HSETNX', KEYS[5], origin, '- 0 ' .. allotted .. ' 0')
            for _, entry in ipairs(redis.call('XRANGE', ARGV[1] .. ':' .. origin, '-', '+')) do
                room = room + math.max(0, count(fields(entry).atoms or '', '%[') - 1)
            end
        end
    end
    local named = redis.call('LRANGE', KEYS[3], 0, -1)
    for place, number in ipairs(named) do redis.call('ZADD', KEYS[4], place, number) end
    local id = redis.call('HGET', KEYS[1], 'program') and ARGV[2] or ''
    redis.call('HSET', KEYS[1], 'format', {log.FORMAT}, 'id', id, 'room', room, 'place', #named)
    redis.call('DEL', KEYS[3], KEYS[6])"""
# KEYS: state, leases, stream, names, places, used. ARGV: id, origin, writer, fence, milliseconds of a lease and of a
# seal, epoch, number before, room, its limit, number of names, number and text of each name, number and atoms of each
# entry
_APPEND = _NOW + _FIELDS + _LEASE + """
    local state = redis.call('HMGET', KEYS[1], 'id', 'epoch', 'sealed_by', 'sealed_until', 'room', 'appends', 'place')
    if state[1] ~= ARGV[1] then return {'lost', state[1] or ''} end
    local newest = redis.call('XREVRANGE', KEYS[3], '+', '-', 'COUNT', 1)[1]
    local last = newest and newest[1] or '0-0'
    if last == ARGV[#ARGV - 1] .. '-0' then
        local held = fields(newest)
        return {held.atoms == ARGV[#ARGV] and held.writer == ARGV[3] and 'done' or 'shared'}
    end
    local holder, _, allotted, fence = lease(KEYS[2], ARGV[2])
    local entries = 12 + 2 * ARGV[11]
    if holder ~= ARGV[3] or fence ~= tonumber(ARGV[4]) then return {'shared'} end
    if state[2] ~= ARGV[7] then return {'changed'} end
    local sealed = tonumber(state[4]) - now
    if state[3] ~= ARGV[3] and sealed > 0 and sealed <= tonumber(ARGV[6]) then return {'sealed'} end
    if last ~= ARGV[8] .. '-0' then return {'end', last} end
    if tonumber(ARGV[entries]) <= tonumber(ARGV[8]) then return {'shared'} end
    if state[5] + ARGV[9] > tonumber(ARGV[10]) then return {'full'} end
    local known = {}
    for at = 12, entries - 1, 2 do
        known[at] = redis.call('HGET', KEYS[4], ARGV[at])
        if known[at] and known[at] ~= ARGV[at + 1] then return {'clash', ARGV[at], ARGV[at + 1], known[at]} end
    end
    local place = tonumber(state[7])
    for at = 12, entries - 1, 2 do
        if not known[at] then
            place = place + 1
            redis.call('HSET', KEYS[4], ARGV[at], ARGV[at + 1])
            redis.call('ZADD', KEYS[5], place, ARGV[at])
        end
        redis.call('HSET', KEYS[6], ARGV[at], state[6] + 1)
    end
    for at = entries, #ARGV, 2 do
        redis.call('XADD', KEYS[3], ARGV[at] .. '-0', 'atoms', ARGV[at + 1], 'writer', ARGV[3])
    end
    redis.call('HSET', KEYS[1], 'room', state[5] + ARGV[9], 'appends', state[6] + 1, 'place', place)
    local held = table.concat({ARGV[3], milliseconds(now + ARGV[5]), allotted, fence}, ' ')
    redis.call('HSET', KEYS[2], ARGV[2], held)
    return {'done'}"""
# KEYS: state, leases, stream. ARGV: id, origin, writer, number. The link's appends that are on their way are refused
_SETTLE = _FIELDS + _LEASE + """
    local id = redis.call('HGET', KEYS[1], 'id')
    if id ~= ARGV[1] then return {'lost', id or ''} end
    local holder, last, allotted, fence = lease(KEYS[2], ARGV[2])
    if holder == ARGV[3] then
        fence = fence + 1
        redis.call('HSET', KEYS[2], ARGV[2], table.concat({holder, last, allotted, fence}, ' '))
    end
    local newest = redis.call('XREVRANGE', KEYS[3], '+', '-', 'COUNT', 1)[1]
    local found = redis.call('XRANGE', KEYS[3], ARGV[4] .. '-0', ARGV[4] .. '-0')[1]
    local held = found and fields(found) or {}
    return {'found', fence, newest and newest[1] or '0-0', held.atoms or false, held.writer or false}"""
# KEYS: state, origins, names, places, used. ARGV: name of the log, id, generation before, whether it is the last, room,
# room that was counted, appends that were, number of the words of the state, number of unused names, then these words,
# these names' numbers, and origin and end of the snapshot's position
_KEEP = _FIELDS + """
    local state = redis.call('HMGET', KEYS[1], 'id', 'generation', 'room')
    if state[1] ~= ARGV[2] then return {'lost', state[1] or ''} end
    if state[2] ~= ARGV[3] then return {'other'} end
    local names, words = 10 + ARGV[8], tonumber(ARGV[8])
    local position = names + ARGV[9]
    local ends = {}
    for at = position, #ARGV, 2 do ends[ARGV[at]] = ARGV[at + 1] end
    local room = ARGV[5] + math.max(0, state[3] - ARGV[6])
    if ARGV[4] == '1' then
        room = ARGV[5]
        for _, item in ipairs(redis.call('XRANGE', KEYS[2], '-', '+')) do
            local origin = fields(item).origin or ''
            local last = redis.call('XREVRANGE', ARGV[1] .. ':' .. origin, '+', '-', 'COUNT', 1)[1]
            if last and last[1] ~= (ends[origin] or '') .. '-0' then return {'other'} end
        end
    end
    redis.call('HSET', KEYS[1], 'room', room, unpack(ARGV, 10, 9 + words))
    for origin, last in pairs(ends) do
        redis.call('XTRIM', ARGV[1] .. ':' .. origin, 'MINID', last .. '-0')
    end
    for at = names, position - 1 do
        if tonumber(redis.call('HGET', KEYS[5], ARGV[at]) or '0') <= tonumber(ARGV[7]) then
            redis.call('HDEL', KEYS[3], ARGV[at])
            redis.call('HDEL', KEYS[5], ARGV[at])
            redis.call('ZREM', KEYS[4], ARGV[at])
        end
    end
    return {'done'}"""
# KEYS: state. ARGV: id, program, id of a log that has none
_BEGIN = """
    local id = redis.call('HGET', KEYS[1], 'id')
    if id ~= ARGV[1] then return {'lost', id or ''} end
    if redis.call('HSETNX', KEYS[1], 'program', ARGV[2]) == 1 and id == '' then
        redis.call('HSET', KEYS[1], 'id', ARGV[3])
    end
    return {'done'}"""
# KEYS: state. ARGV: writer, milliseconds
_SEAL = _NOW + """
    redis.call('HSET', KEYS[1], 'sealed_by', ARGV[1], 'sealed_until', milliseconds(now + ARGV[2]))"""
# KEYS: leases. ARGV: origin, writer, whether it is allotted, end of the lease before, milliseconds
_HOLD = _NOW + _LEASE + """
    local holder, last, _, fence = lease(KEYS[1], ARGV[1])
    if holder and holder ~= ARGV[2] and last ~= ARGV[4] then return 0 end
    local held = table.concat({ARGV[2], milliseconds(now + ARGV[5]), ARGV[3], fence + 1}, ' ')
    redis.call('HSET', KEYS[1], ARGV[1], held)
    return fence + 1"""
# KEYS: leases, members. ARGV: writer, milliseconds, origin, position
_BEAT = _NOW + _LEASE + """
    local holder, _, allotted, fence = lease(KEYS[1], ARGV[3])
    if holder ~= ARGV[1] then return 0 end
    redis.call('HSET', KEYS[1], ARGV[3], table.concat({holder, milliseconds(now + ARGV[2]), allotted, fence}, ' '))
    redis.call('HSET', KEYS[2], ARGV[3], time[1] .. ' ' .. ARGV[4])
    return 1"""
# KEYS: leases, members. ARGV: writer, origin
_LET_GO = _LEASE + """
    local holder, _, allotted, fence = lease(KEYS[1], ARGV[2])
    if holder == ARGV[1] then
        redis.call('HSET', KEYS[1], ARGV[2], table.concat({holder, 0, allotted, fence}, ' '))
        redis.call('HDEL', KEYS[2], ARGV[2])
    end"""

_SCRIPTS = (_OPEN, _APPEND, _SETTLE, _KEEP, _BEGIN, _SEAL, _HOLD, _BEAT, _LET_GO)
_SEAL_MILLISECONDS = int(log.SEAL_SECONDS * 1000)


class RedisLink(log.Link):
    """A link over Redis. What it acknowledges outlives the engine where that keeps its log on disk: `appendonly yes`,
    and against a loss of power `appendfsync always`."""

    def __init__(self, url: str, origin: int | None, log: str, patience: float) -> None:
        super().__init__(patience, log)
        self._known: set[int] = set()
        self._known_until = "0-0"
        self._fence = 0
        self._answer_seconds = min(_ANSWER_SECONDS, max(_LEAST_SECONDS, patience / _TURNS))
        self._url = url
        self._engine = self._client(self._answer_seconds)
        self._scripts = {script: self._engine.register_script(script) for script in _SCRIPTS}
        try:
            self._open()
            self._take_origin(origin)
            self._announce()
        except BaseException:
            self._let_go()
            raise

    @log.of_damaged
    def state(self) -> log.State:
        id, format, epoch, program, generation, position, store = self._fields(
            "id", "format", "epoch", "program", "generation", "position", "store"
        )
        log.known_format(int(format or 0))
        self._check_id(id)
        kept = log.program_of(program) if program else None
        return log.State(_int(epoch), kept, _int(generation), log.position_of(_text(position)), _text(store))

    @log.of_damaged
    def mark(self) -> log.Mark:
        id, format, epoch, generation, position = self._fields("id", "format", "epoch", "generation", "position")
        log.known_format(int(format or 0))
        self._check_id(id)
        return log.Mark(_int(epoch), _int(generation), log.position_of(_text(position)))

    @log.of_damaged
    def count(self) -> log.Count:
        id, *counts = self._fields("id", "appends", "generation", "room")
        self._check_id(id)
        return log.Count(*map(_int, counts))

    def begin(self, program: log.Program) -> None:
        words = [log.program_text(program), log.new_log_id()]
        self._said(lambda: self._run(_BEGIN, [self._key("state")], [self.log_id, *words]))

    @log.of_damaged
    def append(self, batch: Batch) -> None:
        keys = self._keys("state", "leases", self.origin, "names", "places", "used")
        fixed = [self.origin, self.writer, self._fence, self._lease_milliseconds, _SEAL_MILLISECONDS]
        needed = [batch.epoch, batch.before, batch.room, self.room_limit, len(batch.names)]
        names = [word for pair in batch.names.items() for word in pair]
        words = [word for operation in enumerate(batch.texts, batch.first.number) for word in operation]
        batch.is_unsure = False

        def add() -> list[str]:
            before, batch.is_unsure = batch.is_unsure, True
            said: list[str] = self._run(_APPEND, keys, [self.log_id, *fixed, *needed, *names, *words])
            batch.is_unsure = before
            if said[0] == "sealed":
                raise log.Sealed
            return said

        said, *more = self._said(add)
        if said != "done":
            self._raise_why(batch, said, more)
        batch.is_unsure = False

    @log.of_damaged
    def settle(self, entry: log.Entry) -> bool:
        keys = self._keys("state", "leases", entry.id.origin)
        words = [entry.id.origin, self.writer, entry.id.number]
        _, fence, last, atoms, writer = self._said(lambda: self._run(_SETTLE, keys, [self.log_id, *words]))
        if entry.id.origin == self.origin:
            self._fence = int(fence)
        found = None if atoms is None or writer is None else (atoms, writer)
        return log.is_among(entry, _number_of(last), found)

    @log.of_damaged
    def read(self, after: log.Position, wait: float = 0.0) -> log.Reading:
        self._renew()

        def read() -> tuple[list[log.Entry], list[str | None]]:
            entries = self._read(after, min(wait, self._answer_seconds / 2))
            # asked for after the entries: those that were missed were removed by a generation that is told
            return entries, self._engine.hmget(self._key("state"), "id", "generation")

        entries, (id, generation) = self._ask(read)
        self._check_id(id)
        return log.Reading(entries, _int(generation))

    @log.of_damaged
    def newest(self) -> dict[int, int]:
        return self._ask(self._newest)

    def keep(self, state: log.State, is_last: bool = False, rest: log.Rest = log.Rest()) -> bool:
        assert state.program
        fields: dict[str, Any] = {
            "epoch": state.epoch,
            "program": log.program_text(state.program),
            "generation": state.generation,
            "position": log.position_text(state.position),
            "store": state.store,
        }
        words = [word for field in fields.items() for word in field]
        ends = [word for end in state.position.items() for word in end]
        keys = self._keys("state", "origins", "names", "places", "used")
        counted = [rest.room, rest.since.room, rest.since.appends, len(words), len(rest.unused)]
        values = [state.generation - 1, int(is_last), *counted, *words, *rest.unused, *ends]
        said: str = self._said(lambda: self._run(_KEEP, keys, [self.log, self.log_id, *values]))[0]
        return said == "done"

    @log.of_damaged
    def names(self, place: int = 0) -> list[log.Named]:
        def ask() -> list[log.Named]:
            found = self._engine.zrangebyscore(self._key("places"), f"({place}", "+inf", withscores=True)
            names = self._engine.hmget(self._key("names"), [number for number, _ in found]) if found else []
            # one that was removed in between is used by nothing
            named = zip(found, names)
            return [log.Named(int(at), int(number), name) for (number, at), name in named if name is not None]

        return self._ask(ask)

    def seal(self, seconds: float) -> None:
        self._ask(lambda: self._run(_SEAL, [self._key("state")], [self.writer, int(seconds * 1000)]))

    def set_aside(self, refused: log.SetAside) -> None:
        id, atoms, writer = refused.entry
        value = json.dumps([atoms, writer, refused.reason])
        self._ask(lambda: self._engine.hsetnx(self._key("refused"), f"{id.origin}:{id.number}", value))

    @log.of_damaged
    def refused(self) -> list[log.SetAside]:
        kept = self._ask(lambda: self._engine.hgetall(self._key("refused")))
        found = []
        for key, value in kept.items():
            origin, _, number = key.partition(":")
            atoms, writer, reason = json.loads(value)
            found.append(log.SetAside(log.Entry(Id(int(origin), int(number)), atoms, writer), reason))
        return sorted(found)

    @log.of_damaged
    def members(self) -> list[log.Heard]:
        def ask() -> list[log.Heard]:
            told, now = self._engine.hgetall(self._key("members")), self._engine.time()[0]
            parts = ((origin, *value.partition(" ")) for origin, value in told.items())
            return sorted(
                log.Heard(int(at), log.position_of(kept), max(0.0, now - int(then))) for at, then, _, kept in parts
            )

        return self._ask(ask)

    @property
    def _lease_milliseconds(self) -> int:
        return int(self.lease_seconds * 1000)

    def _client(self, seconds: float) -> "redis.Redis[str]":
        """A client that waits for so long for a connection, and for an answer."""
        return redis.Redis.from_url(
            self._url,
            decode_responses=True,
            encoding_errors="replace",
            socket_timeout=seconds,
            socket_connect_timeout=seconds,
            retry=Retry(NoBackoff(), 0),
        )

    def _open(self) -> None:
        """Makes the log's state, or what it lacks where it is of the format before."""
        keys = self._keys("state", "origins", "named", "places", "leases", "allotted")
        words = [self.log, log.new_log_id(), *(word for pair in _NEW.items() for word in pair)]
        self._ask(lambda: self._run(_OPEN, keys, words))
        self.log_id = self._fields("id")[0] or ""

    @log.of_damaged
    def _leases(self) -> dict[int, log.Lease]:
        def ask() -> tuple[dict[str, str], tuple[int, int]]:
            return self._engine.hgetall(self._key("leases")), self._engine.time()

        kept, (seconds, microseconds) = self._ask(ask)
        leases = {}
        for origin, value in kept.items():
            _, until, is_allotted, _ = value.split(" ")
            now = seconds + microseconds / 1_000_000
            leases[int(origin)] = log.Lease.of(int(until) / 1000, now, is_allotted == "1")
        return leases

    def _hold(self, origin: int, is_allotted: bool, until: float | None) -> bool:
        before = "" if until is None else round(until * 1000)
        words = [origin, self.writer, int(is_allotted), before, self._lease_milliseconds]
        fence = int(self._ask(lambda: self._run(_HOLD, self._keys("leases"), words)))
        if fence:
            self._fence = fence
        return fence > 0

    def _beat(self, position: str) -> None:
        self._run(_BEAT, self._keys("leases", "members"), [
            self.writer, self._lease_milliseconds, self.origin, position
        ])  # fmt: skip

    def _let_go(self) -> None:
        with suppress(Exception), self._client(log.PARTING_SECONDS) as engine:
            self._scripts[_LET_GO](self._keys("leases", "members"), [self.writer, self.origin], engine)
        self._engine.close()
        self._disconnect()

    def _disconnect(self) -> None:
        """Ends all connections, also those on which other threads wait for an answer."""
        for _ in range(_DISCONNECTS):
            # redis fails where another thread gives up the same connection at this moment
            with suppress(AttributeError, OSError):
                self._engine.connection_pool.disconnect()
                return

    def take_another_origin(self) -> None:
        super().take_another_origin()
        self._announce()

    def _key(self, name: str | int) -> str:
        return f"{self.log}:{name}"

    def _keys(self, *names: str | int) -> list[str]:
        return [self._key(name) for name in names]

    def _run(self, script: str, keys: list[str], words: Sequence[object]) -> Any:
        return self._scripts[script](keys, words, self._engine)

    def _ask(self, call: Callable[[], T]) -> T:
        """The call's result, tried again while Redis is away."""
        try:
            return self._patiently(lambda left: call(), _LOST)
        except redis.exceptions.RedisError as fault:
            raise LogUnusable(f"the log {self.log!r} in Redis can't be used: {log.one_line(fault)}") from fault
        except ChrrepError:
            raise
        except BaseException:
            # interrupted between a question and its answer, which the next would be given: others go on by other
            # connections, and those that were in use end with their calls
            self._engine = self._client(self._answer_seconds)
            raise

    def _said(self, call: Callable[[], Any]) -> Any:
        """What a script says that looks at the log's id."""
        said = self._ask(call)
        if said[0] == "lost":
            self._check_id(said[1] or None)
            # the log has got its id since
            said = self._ask(call)
        return said

    def _raise_why(self, batch: Batch, said: str, more: list[str]) -> None:
        """Raises what keeps a batch from coming into the log."""
        if said == "end":
            self._check_end(_number_of(more[0]), batch)
        elif said == "changed":
            raise ProgramChanged
        elif said == "full":
            raise self._full(batch)
        elif said == "clash":
            raise NameClash(int(more[0]), (more[2], more[1]))
        raise OriginShared(self.origin)

    def _fields(self, *names: str) -> list[str | None]:
        return self._ask(lambda: self._engine.hmget(self._key("state"), names))

    def _announce(self) -> None:
        """Tells the origin to others, who read its stream then."""
        self._ask(lambda: self._read({}, 0.0))
        if self.origin not in self._known:
            self._ask(lambda: self._engine.xadd(self._key("origins"), {"origin": self.origin}))

    def _read(self, after: log.Position, wait: float) -> list[log.Entry]:
        origins = self._key("origins")
        known = sorted(self._known)
        places = {self._key(origin): f"{after.get(origin, 0)}-{_ALL}" for origin in known}
        streams = {origins: self._known_until, **places}
        block = max(1, int(wait * 1000)) if wait > 0 else None
        found = self._engine.xread(streams, count=log.READ_AT_ONCE, block=block)
        entries: list[log.Entry] = []
        for key, items in found:
            if key == origins:
                self._known_until = items[-1][0]
                self._known.update(int(fields["origin"]) for _, fields in items if _is_number(fields.get("origin", "")))
                continue
            origin = int(key.removeprefix(f"{self.log}:"))
            for place, fields in items:
                id = Id(origin, _number_of(place))
                entries.append(log.Entry(id, fields.get("atoms", ""), fields.get("writer", "")))
        if self._known > set(known):
            # those of new origins may be there already
            entries += self._read({**after, **dict.fromkeys(known, _ALL)}, 0.0)
        return entries

    def _newest(self) -> dict[int, int]:
        self._read({origin: _ALL for origin in self._known}, 0.0)
        known = sorted(self._known)
        with self._engine.pipeline(transaction=False) as pipeline:
            for origin in known:
                pipeline.xrevrange(self._key(origin), count=1)
            lasts = pipeline.execute()
        return {origin: _number_of(last[0][0]) for origin, last in zip(known, lasts) if last}


def _is_number(text: str) -> bool:
    return text.isascii() and text.isdecimal()


def _number_of(place: str) -> int:
    """The number of an entry, of its id in a stream."""
    return int(place.partition("-")[0])


def _int(kept: str | None) -> int:
    """The whole number of a field; TypeError where it isn't there."""
    return int(_text(kept))


def _text(kept: str | None) -> str:
    if kept is None:
        raise TypeError("a field of the state is missing")
    return kept
