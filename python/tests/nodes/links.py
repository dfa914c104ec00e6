"""What the tests of links and members share, over whatever engine: a class for each engine takes over what holds."""

import tempfile
import time
import unittest
from collections.abc import Callable, Mapping, Sequence
from contextlib import ExitStack
from pathlib import Path

from chrrep import Id
from chrrep.link import Batch, Entry, Link, Member, connect
from engines import Engine
from kills import SECONDS, Command
from programs import PATHS


class Links(unittest.TestCase):
    """What holds over each engine."""

    kind: type[Engine]
    engine: Engine
    logs = 0

    @classmethod
    def setUpClass(cls) -> None:  # noqa: N802
        cls.engine = cls.kind()

    @classmethod
    def tearDownClass(cls) -> None:  # noqa: N802
        cls.engine.close()

    def setUp(self) -> None:  # noqa: N802
        Links.logs += 1
        self.log = f"log{Links.logs}"
        self.stack = ExitStack()
        self.addCleanup(self.stack.close)
        room = self.stack.enter_context(tempfile.TemporaryDirectory())
        self.program = Path(room) / "program.chr"
        self.program.write_text(PATHS)

    def link(self, origin: int | None = None, patience: float = SECONDS) -> Link:
        return self.stack.enter_context(connect(self.engine.url, origin, log=self.log, patience=patience))

    def member(self, program: str | None = None, origin: int | None = None, snapshot_after: int = 100_000) -> Member:
        return self.stack.enter_context(Member(self.link(origin), program, snapshot_after=snapshot_after))

    def put(self, link: Link, entries: Sequence[Entry], epoch: int = 1, names: Mapping[int, str] = {}) -> None:
        """Appends entries, of numbers that follow each other, after what the log has of their origin."""
        before = link.newest().get(link.origin, 0)
        texts = [entry.atoms for entry in entries]
        link.append(Batch(entries[0].id, texts, entries[0].writer, epoch, before, len(entries), names))

    def wait_for(self, holds: Callable[[], bool]) -> None:
        """Waits until it holds."""
        end = time.monotonic() + SECONDS
        while not holds():
            self.assertLess(time.monotonic(), end)
            time.sleep(0.02)

    def command(self, *options: str) -> Command:
        command = Command(self.engine, self.log, self.program, *options)
        self.stack.callback(command.kill)
        return command

    def entries(self) -> list[Entry]:
        """All entries of the log, by their ids."""
        found: list[Entry] = []
        position: dict[int, int] = {}
        with connect(self.engine.url, log=self.log) as link:
            while entries := link.read(position).entries:
                found += entries
                for entry in entries:
                    position[entry.id.origin] = max(entry.id.number, position.get(entry.id.origin, 0))
        return sorted(found)

    def ids(self) -> list[Id]:
        return [entry.id for entry in self.entries()]
