"""Nodes as processes, which are killed."""

import os
import random
import select
import signal
import subprocess
import sys
import threading
import time
from collections import Counter
from collections.abc import Callable, Sequence
from contextlib import suppress
from functools import partial
from pathlib import Path
from typing import TypeVar

import chrrep
from chrrep import Atom, Id, NodeDied, Operation, atoms_of, store_text
from chrrep.link import LinkLost, Member, OriginShared, connect
from engines import Embedded, Engine, Server
from programs import COUNTED, counted, store_of
from wounded import STEPS

T = TypeVar("T")

SECONDS = 60.0
"""Longer than anything here takes, when the machine is busy."""

KILLS = int(os.environ.get("CHRREP_KILLS", "12"))
"""Nodes that are killed at random moments."""

HERE = Path(__file__).resolve().parent
PACKAGE = Path(chrrep.__file__).resolve().parents[1]


class Command:
    """A node as a process: `python -m chrrep.link`."""

    def __init__(
        self, engine: Engine, log: str, program: Path | None, *options: str, wounded: Sequence[str] = ()
    ) -> None:
        words = ["--engine", engine.url, "--log", log, "--patience", str(SECONDS), *options]
        words += [str(program)] if program else []
        self._start([sys.executable, *(wounded or ("-m", "chrrep.link")), *words])

    @classmethod
    def of(cls, words: Sequence[str]) -> "Command":
        """The node that these words start."""
        command = cls.__new__(cls)
        command._start(words)
        return command

    def _start(self, words: Sequence[str]) -> None:
        self.process = subprocess.Popen(
            words,
            stdin=subprocess.PIPE,
            stdout=subprocess.PIPE,
            stderr=subprocess.PIPE,
            env={**os.environ, "PYTHONPATH": str(PACKAGE), "PYTHONDONTWRITEBYTECODE": "1"},
        )
        self._read = b""

    def send(self, line: str) -> None:
        assert self.process.stdin
        self.process.stdin.write(line.encode() + b"\n")
        self.process.stdin.flush()

    def answer(self, seconds: float = SECONDS) -> str | None:
        """The next line of its output; None where it ended or was too slow."""
        assert self.process.stdout
        end = time.monotonic() + seconds
        while b"\n" not in self._read:
            if not select.select([self.process.stdout], [], [], max(0.0, end - time.monotonic()))[0]:
                return None
            part = os.read(self.process.stdout.fileno(), 65_536)
            if not part:
                return None
            self._read += part
        line, _, self._read = self._read.partition(b"\n")
        return line.decode()

    def ask(self, line: str) -> str | None:
        self.send(line)
        return self.answer()

    def kill(self) -> None:
        self.process.kill()
        self.end()

    def end(self) -> tuple[int, str]:
        """Closes its input, waits for it, and gives its status and what it said of faults."""
        process = self.process
        try:
            _, said = process.communicate(timeout=SECONDS)
        except subprocess.TimeoutExpired:
            process.kill()
            _, said = process.communicate()
        except ValueError:  # it was ended before
            said = b""
        return process.returncode, said.decode()


class Teller:
    """A member here that is not killed, but its node is: it tells on after each exception, so that all that it tells
    is in the log, each once."""

    PATIENCE = 0.3
    FIRST = 10**6
    AT_ONCE = 10

    def __init__(self, engine: Engine, log: str) -> None:
        self.engine, self.log = engine, log
        self.sent: list[tuple[Atom, ...]] = []
        self.raised: Counter[str] = Counter()
        self.failure: BaseException | None = None
        self._asked = threading.Semaphore(0)
        self._over = threading.Event()
        self._link = self.patiently(lambda: connect(engine.url, log=log, patience=self.PATIENCE))
        self.member = self.patiently(lambda: Member(self._link, snapshot_after=200))
        self._thread = threading.Thread(target=self._run)
        self._thread.start()

    def patiently(self, call: Callable[[], T]) -> T:
        """The call's result, once the engine is there."""
        while True:
            try:
                return call()
            except LinkLost:
                self.raised["joining"] += 1

    def _run(self) -> None:
        try:
            while self._asked.acquire() and not self._over.is_set():
                self.tell([operation(self.FIRST + len(self.sent) + at) for at in range(self.AT_ONCE)])
        except BaseException as failure:
            self.failure = failure

    def tell(self, operations: list[tuple[Atom, ...]]) -> None:
        """Tells operations, and after each exception the same ones on."""
        self.sent += operations
        tell = partial(self.member.tell_many, operations)
        while True:
            try:
                self.member.going_over(tell)
                return
            except (LinkLost, OriginShared, NodeDied) as fault:
                self.raised[type(fault).__name__] += 1
                if isinstance(fault, NodeDied):
                    self.member.close()
                    self.member = self.patiently(lambda: Member(self._link, snapshot_after=200))
                tell = partial(self.member.tell_many, operations, after=fault)

    def ask(self) -> None:
        """Has it tell some operations more, while others go on."""
        self._asked.release()

    def kill_node(self) -> None:
        """Ends the member's node in the middle of what it does."""
        with suppress(ProcessLookupError):
            os.kill(self.member.pid, signal.SIGKILL)

    def end(self) -> None:
        """Stops after what is being told."""
        self._over.set()
        self._asked.release()
        self._thread.join()
        self.member.close()
        self._link.close()
        if self.failure:
            raise self.failure


def operation(mark: int) -> tuple[Atom, ...]:
    """One of a mark of its own, which is counted."""
    return (("path", mark % 6, mark % 5, mark * 7919 % 1000), ("mark", mark), ("b0",))


class Kills:
    """Three nodes that tell marked operations and are killed, by others or in the middle of what they do; so are those
    that have the log go over to another program, and the engine where it is a server. A file is locked for a while.

    Each operation has a mark of its own, and is counted. At the end the marks in the store say which operations it has:
    each that was acknowledged, and of those that a member told on after each exception all; others once or not at all.
    The count is their number, and the store is that of one run of just these.
    """

    TOLD = 20
    """Operations that are told between two kills."""

    def __init__(self, engine: Engine, log: str, program: Path, chance: random.Random) -> None:
        self.engine, self.log, self.program, self.chance = engine, log, program, chance
        self.sent: list[tuple[Atom, ...]] = []
        self.acknowledged: set[int] = set()
        self.ids: set[str] = set()
        self.killed: Counter[str] = Counter()
        self.upgrades = 0
        self.commands: list[Command] = []
        self.asked: list[list[int]] = [[] for _ in range(3)]

    def run(self, kills: int) -> None:
        # the log has its program when others come, who bring none
        self.commands.append(self.start("none", self.program))
        assert self.commands[0].ask("?") == "true"
        self.commands += [self.start() for _ in range(2)]
        teller = Teller(self.engine, self.log)
        try:
            turn = 0
            while self.killed.total() < kills:
                teller.ask()
                self.turn(turn)
                if turn % 6 == 3:
                    teller.kill_node()
                turn += 1
            teller.end()
            self.check(teller.sent)
        finally:
            with suppress(Exception):
                teller.end()
            for command in self.commands:
                command.kill()
        told, raised = (", ".join(f"{count} {what}" for what, count in sorted(counts.items()))
                        for counts in (self.killed, teller.raised))  # fmt: skip
        said = f"{len(self.sent)} and {len(teller.sent)} operations, killed: {told}, raised: {raised}"
        print(f"({said})", end=" ", flush=True)

    def start(self, step: str | None = None, program: Path | None = None) -> Command:
        """A node, which dies of the step or of one by chance, unless something else kills it before."""
        wound = (step or self.chance.choice(STEPS), str(self.chance.randint(1, 3)))
        wounded = (str(HERE / "wounded.py"), *wound)
        return Command(self.engine, self.log, program, "--snapshot-after", "40", wounded=wounded)

    def turn(self, turn: int) -> None:
        self.tell(self.TOLD)
        at = self.chance.randrange(3)
        # not before it is up, or it would hardly ever be killed at work
        if self.asked[at]:
            self.hear(at, self.chance.choice((1, self.TOLD)))
        if turn % 8 == 7:
            self.upgrade()
        time.sleep(self.chance.random() / 50)
        if turn % 5 == 4:
            self.take_away(turn)
        self.commands[at].process.kill()
        for dead in range(3):
            # others may have died in the middle of a step
            if dead == at or self.commands[dead].process.poll() is not None:
                self.bury(dead)

    def take_away(self, turn: int) -> None:
        """Has the engine away for a while."""
        if isinstance(self.engine, Server):
            self.engine.stop(chance_of_stop(turn))
            self.engine.start()
            self.killed["engine"] += 1
        elif isinstance(self.engine, Embedded):
            with self.engine.locked():
                time.sleep(3 * Teller.PATIENCE)

    def bury(self, at: int) -> None:
        """Takes in what a dead node has said, and starts another."""
        self.hear(at)
        status, said = self.commands[at].end()
        assert status == -signal.SIGKILL, (status, said)
        self.count(said)
        self.asked[at] = []
        self.commands[at] = self.start()

    def count(self, said: str) -> None:
        step = said.rpartition("wounded: ")[2].strip() if "wounded: " in said else "node"
        self.killed[step] += 1

    def upgrade(self) -> None:
        """Has the log go over to another program of the same rules, by a process that dies of it or is done."""
        self.upgrades += 1
        other = self.program.with_name("other.chr")
        other.write_text(f"{COUNTED}% program {self.upgrades}\n")
        wounded = (str(HERE / "wounded.py"), self.chance.choice(("upgrade", "upgrade", "snapshot", "none")), "1")
        command = Command(self.engine, self.log, None, "--upgrade", str(other), wounded=wounded)
        status, said = command.end()
        assert status in (0, -signal.SIGKILL), (status, said)
        if status:
            self.count(said)

    def tell(self, count: int) -> None:
        for _ in range(count):
            at, mark = self.chance.randrange(3), len(self.sent)
            self.sent.append(operation(mark))
            self.asked[at].append(mark)
            # it may be dead by now
            with suppress(BrokenPipeError):
                self.commands[at].send(store_text(self.sent[-1]))

    def hear(self, at: int, most: int = sys.maxsize) -> None:
        """Takes the answers to what was asked, until there are no more."""
        while self.asked[at] and most > 0 and (answer := self.commands[at].answer()):
            verb, _, id = answer.partition(" ")
            assert verb == "told", answer
            assert id not in self.ids, id
            self.ids.add(id)
            self.acknowledged.add(self.asked[at].pop(0))
            most -= 1

    def settle(self) -> None:
        """Has in the place of each node one that is not killed any more."""
        for at, command in enumerate(self.commands):
            command.process.kill()
            self.hear(at)
            command.end()
            self.asked[at] = []
            self.commands[at] = self.start("none")

    def check(self, told: Sequence[tuple[Atom, ...]]) -> None:
        """Holds the stores to what was acknowledged, and to all that was told on."""
        self.settle()
        texts = [command.ask("?") for command in self.commands]
        store = atoms_of(texts[0] or "")
        marks = Counter(int(atom[1]) for atom in store if atom[0] == "mark")
        assert set(marks.values()) == {1}, [mark for mark, count in marks.items() if count > 1]
        wanted = self.acknowledged | {int(mark) for _, (_, mark), _ in told}
        assert wanted <= set(marks), wanted - set(marks)
        assert set(marks) <= wanted | set(range(len(self.sent))), set(marks) - wanted
        assert counted(store) == len(marks), (counted(store), len(marks))
        run = store_text(store_of(COUNTED, [Operation(Id(1, at), operation(mark)) for at, mark in enumerate(marks, 1)]))
        assert texts == [run] * 3, texts
        with connect(self.engine.url, log=self.log) as link:
            assert not link.refused()
        for command in self.commands:
            assert command.end() == (0, "")


def chance_of_stop(turn: int) -> signal.Signals:
    """Asked to stop, or at once."""
    return signal.SIGKILL if turn % 2 else signal.SIGTERM
