"""The feeds of a folder: what is told in them, and when they grow."""

import json
import os
import time
from collections.abc import Iterator
from contextlib import suppress
from pathlib import Path

from ..texts import Id, atoms_text
from .log import Entry

LOOK_SECONDS = 0.015
"""How long a folder isn't looked at again, at least."""
SELDOM = 100
"""How many times over a look's own time there is none behind it, at least: so it takes a hundredth of a processor."""
AGAIN_SECONDS = (0.05, 2.5)
"""When what was written is looked at again: a file may be written twice within a tick of its clock, which is coarse in
some file systems."""
MOST_TOLD = 500
"""Operations that are told of one feed at once, at most: the last ones."""

_CHECKSUM = 9
"""The bytes of a record's text before its operations: eight digits and a space."""
_BESIDE = 2
"""The bytes of a record beside its text: its gate, and a line feed."""


def records_in(feed: bytes) -> Iterator[bytes]:
    """The texts of the whole records of a feed."""
    for line in feed.split(b"\n")[:-1]:
        if not line.startswith(b"=") or b"\0" in line:
            return
        yield line[1:]


def entries_in(record: bytes) -> list[Entry]:
    """The operations of a record's text; none where it has no delta of version 2."""
    try:
        _, origins = json.loads(record[_CHECKSUM:])
        return [
            Entry(Id(origin, number), atoms_text(atoms), "")
            for origin, operations in origins
            for number, atoms in operations
        ]
    except (ValueError, TypeError, RecursionError):
        return []


def ids_in(feed: bytes, origin: int) -> list[Id]:
    """The ids of an origin that a feed tells, in their order."""
    return [entry.id for record in records_in(feed) for entry in entries_in(record) if entry.id.origin == origin]


def kept_ids(feeds: Path, origin: int) -> list[Id]:
    """The ids that a folder's feeds of an origin tell, once the disk has them too. OSError where it hasn't."""
    for path in _feeds_of(feeds, origin):
        with path.open("rb") as file:
            # who was ended before its sync has left them in memory alone
            os.fsync(file.fileno())
    return seen_ids(feeds, origin)


def seen_ids(feeds: Path, origin: int) -> list[Id]:
    """The ids that a folder's feeds of an origin tell, whether or not the disk has them."""
    return [id for path in _feeds_of(feeds, origin) for id in ids_in(path.read_bytes(), origin)]


def _feeds_of(feeds: Path, origin: int) -> list[Path]:
    return sorted(feeds.glob(f"*-{origin:08x}-*.feed"))


class Looks:
    """Looks at the files of a folder, with pauses in between."""

    def __init__(self, feeds: Path) -> None:
        self._feeds = feeds
        self._seen: object = None
        self._due: list[float] = []

    def wait(self, seconds: float) -> bool:
        """Whether a file was written since the last look, or may have been; waits for that, up to so many seconds. At
        first that is so."""
        end = time.monotonic() + seconds
        while True:
            begin = time.monotonic()
            if self._is_new():
                return True
            now = time.monotonic()
            pause = max(LOOK_SECONDS, SELDOM * (now - begin))
            if now >= end:
                return False
            time.sleep(min(pause, end - now))

    def _is_new(self) -> bool:
        now, found = time.monotonic(), times_of(self._feeds)
        if found != self._seen:
            self._seen = found
            self._due = [now + seconds for seconds in AGAIN_SECONDS]
            return True
        if self._due and now >= self._due[0]:
            del self._due[0]
            return True
        return False


def times_of(feeds: Path) -> dict[str, tuple[int, int]]:
    """The files of a folder, with their sizes and the times of their last writes in nanoseconds."""
    found: dict[str, tuple[int, int]] = {}
    with suppress(FileNotFoundError), os.scandir(feeds) as entries:
        for entry in entries:
            with suppress(FileNotFoundError):
                told = entry.stat()
                found[entry.name] = (told.st_size, told.st_mtime_ns)
    return found


class Tails:
    """What the feeds of a folder tell from now on, whoever tells it."""

    def __init__(self, feeds: Path) -> None:
        self._feeds = feeds
        self._seen = times_of(feeds)
        self._ends = {name: self._end_of(name) for name in self._seen}

    def read(self) -> list[Entry]:
        """The operations that were told since the last reading, of many the last ones."""
        seen = times_of(self._feeds)
        written = [name for name, told in seen.items() if self._seen.get(name) != told]
        # a file that was written lately may be written again within a tick of its clock
        late = time.time_ns() - int(1e9 * AGAIN_SECONDS[0])
        self._seen = {name: told for name, told in seen.items() if told[1] < late}
        return [entry for name in written if name.endswith(".feed") for entry in self._behind(name)]

    def _behind(self, name: str) -> list[Entry]:
        """The operations behind the end of a feed, which is moved behind them."""
        at = self._ends.get(name, 0)
        with suppress(OSError), open(self._feeds / name, "rb") as file:
            file.seek(at)
            records = list(records_in(file.read()))
            self._ends[name] = at + sum(len(record) + _BESIDE for record in records)
            return [entry for record in records[-MOST_TOLD:] for entry in entries_in(record)]
        return []

    def _end_of(self, name: str) -> int:
        """The bytes of the records of a feed."""
        with suppress(OSError):
            front, _, _ = (self._feeds / name).read_bytes().partition(b"\0")
            return front.rfind(b"\n") + 1
        return 0
