"""Several workers where memory is short: under each limit of address space a run by them ends as by one worker, takes
little more processor time than that, and little more memory for each of them."""

import json
import random
import subprocess
import sys
import tempfile
import unittest
from collections.abc import Iterator, Sequence
from dataclasses import dataclass
from pathlib import Path

from chrrep.node import program_path
from test_costs import PATHS, PLAIN, SAME, links_of_one_node, shown

SECONDS = 60
"""The seconds of a clock after which a run is ended. It takes a tenth of one."""

ROOMS = (40, 110, 200, 600, None)
"""Limits of a run's address space in MiB. A thread's stack and heap take much of it, and of memory little."""

WORKERS = (2, 4, 16)
RUNS, MORE_RUNS = 2, 6
"""How many runs are made of each kind, and how many more at most, in turns with runs by one worker, until one takes no
longer than it may: the machine does other work, which takes time of some runs."""

TIMES, MORE_SECONDS = 1.5, 0.1
"""How many times as long as by one worker a run may take, and how many seconds of processor time more."""

MOST_FOR_A_WORKER = 10_000
"""How many KiB more than one worker a run may take for each of its workers."""

METER = """
import os, resource, signal, sys
room, seconds, *command = sys.argv[1:]
pid = os.fork()
if not pid:
    os.dup2(os.open(os.devnull, os.O_WRONLY), 2)
    signal.alarm(int(seconds))
    if int(room):
        resource.setrlimit(resource.RLIMIT_AS, (int(room), int(room)))
    os.execv(command[0], command)
_, status, used = os.wait4(pid, 0)
print(os.waitstatus_to_exitcode(status), used.ru_utime + used.ru_stime, used.ru_maxrss, file=sys.stderr)
"""
"""Runs a command from a process that has loaded next to nothing: what that takes counts for the command, too. It tells
how the command ended on standard error, in place of what the command writes there."""


@dataclass(frozen=True)
class End:
    """How a run ended, its processor time, its most memory in KiB, and what it wrote."""

    status: int
    seconds: float
    peak: int
    output: bytes


def run_of(given: Path, workers: int, room: int | None) -> End:
    command = [program_path(), "run", "--workers", str(workers)]
    meter = [sys.executable, "-I", "-S", "-c", METER, str((room or 0) << 20), str(SECONDS)]
    with given.open("rb") as file, tempfile.TemporaryFile() as told:
        end = subprocess.run(
            [*meter, *command], stdin=file, stdout=told, stderr=subprocess.PIPE, timeout=2 * SECONDS, check=True
        )
        told.seek(0)
        status, seconds, peak = end.stderr.split()
        return End(int(status), float(seconds), int(peak), told.read())


def merges(count: int, each: int) -> Iterator[str]:
    """Lines that merge `count` operations, `each` in a line."""
    for start in range(0, count, each):
        delta = [[[1, number], [["a", number % 7]]] for number in range(start, min(count, start + each))]
        yield json.dumps(["merge", 1, delta], separators=(",", ":"))


def few_stay(count: int) -> str:
    """Routes between few towns, so that most are rested as they are read."""
    rng = random.Random(count)
    return shown(PATHS, [("path", (rng.randrange(12), rng.randrange(12), rng.randrange(10**9))) for _ in range(count)])


def half_stay(count: int) -> str:
    rng = random.Random(count)
    towns = int((2 * count) ** 0.5)
    return shown(
        PATHS, [("path", (rng.randrange(towns), rng.randrange(towns), rng.randrange(10**9))) for _ in range(count)]
    )


def all_stay(count: int) -> str:
    """In no order, and written at the end."""
    keys = random.Random(count).sample(range(-(10**9), 10**9), count)
    return shown(SAME, [("a", (key,)) for key in keys])


def one_by_one(count: int) -> str:
    """An operation has one atom, so that there are many lines."""
    rng = random.Random(count)
    atoms = (["path", rng.randrange(300), rng.randrange(300), rng.randrange(10**9)] for _ in range(count))
    lines = (json.dumps(["tell", 1, [1, number], [atom]], separators=(",", ":")) for number, atom in enumerate(atoms))
    return "\n".join([PATHS, "---", *lines, '["show",1]', ""])


def shown_between(count: int) -> str:
    text, lines, told = half_stay(count).partition("---\n")
    rows = told.splitlines()
    for place in (len(rows) // 4, len(rows) // 2):
        rows.insert(place, '["show",1]')
    return text + lines + "\n".join(rows) + "\n"


def long_lines(count: int) -> str:
    """Deltas of nearly a megabyte."""
    return "\n".join([PLAIN, "---", *merges(count, 46_000), ""])


def values_in_lines(count: int) -> str:
    """Refused lines of nearly a megabyte, of as many values as can be."""
    return "\n".join([PLAIN, "---", *[f"[{','.join(['[]'] * 340_000)}]"] * count, ""])


@dataclass(frozen=True)
class Measured:
    """An input, what has to be written for it, and what one worker does under a limit."""

    given: Path
    wanted: bytes
    room: int | None
    ends: Sequence[End]

    def most_memory(self, workers: int) -> int:
        return max(end.peak for end in self.ends) + workers * MOST_FOR_A_WORKER

    def slowness(self, workers: int, least: float) -> str | None:
        """That each run by several workers takes longer than it may, with the seconds of the least so far."""
        most = TIMES * max(end.seconds for end in self.ends) + MORE_SECONDS
        for _ in range(MORE_RUNS):
            if least <= most:
                return None
            most = max(most, TIMES * run_of(self.given, 1, self.room).seconds + MORE_SECONDS)
            least = min(least, run_of(self.given, workers, self.room).seconds)
        return None if least <= most else f"{least:.2f} s and more in each run, and {most:.2f} may be"

    def faults(self, workers: int) -> Iterator[str]:
        """What is wrong with how several workers do it."""
        ends = [run_of(self.given, workers, self.room) for _ in range(RUNS)]
        right = {(0, self.wanted)} | {(end.status, end.output) for end in self.ends}
        if any((end.status, end.output) not in right for end in ends):
            statuses = [end.status for end in ends]
            yield f"statuses {statuses} where one worker ends with {self.ends[0].status}, or another output"
        slowness = self.slowness(workers, min(end.seconds for end in ends))
        if slowness:
            yield slowness
        peak = max(end.peak for end in ends)
        if peak > self.most_memory(workers):
            yield f"{peak} KiB, and {self.most_memory(workers)} may be"


class WorkersUnderLimits(unittest.TestCase):
    """Each input has some 4 MB."""

    def check(self, given: str) -> None:
        with tempfile.TemporaryDirectory() as folder:
            path = Path(folder) / "given.chr"
            path.write_text(given)
            free = run_of(path, 1, None)
            self.assertEqual(free.status, 0)
            for room in ROOMS:
                one = Measured(path, free.output, room, [run_of(path, 1, room) for _ in range(RUNS)])
                for workers in WORKERS:
                    with self.subTest(room=room, workers=workers):
                        faults = "; ".join(one.faults(workers))
                        self.assertFalse(faults, faults)

    def test_few_stay(self) -> None:
        self.check(few_stay(160_000))

    def test_half_stay(self) -> None:
        self.check(half_stay(160_000))

    def test_all_stay(self) -> None:
        self.check(all_stay(200_000))

    def test_one_by_one(self) -> None:
        self.check(one_by_one(80_000))

    def test_shown_between(self) -> None:
        self.check(shown_between(120_000))

    def test_stores_in_one_pool(self) -> None:
        self.check(links_of_one_node(100_000))

    def test_long_lines(self) -> None:
        self.check(long_lines(184_000))

    def test_values_in_lines(self) -> None:
        self.check(values_in_lines(4))


if __name__ == "__main__":
    unittest.main()
