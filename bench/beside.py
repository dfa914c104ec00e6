#!/usr/bin/env python3
"""Times `PROGRAM run` and another program that reads the same lines, in turns, and writes a table of it.

    beside.py PROGRAM OTHER [NAME[=COUNT] ..] [--times 5] [--growth] [--phases]
    beside.py PROGRAM OTHER [NAME[=COUNT] ..] [--times 5] --reading

OTHER is a command line; for an input of several replicas `--replicas N` is added. Inputs are those of `workloads.py`,
without names a list of them. Each program runs each input so often, and of its runs count the least seconds of a
processor and of a clock, and the greatest peak of memory. 'Work' is PROGRAM's seconds of a processor over OTHER's, less
those of each for the same program text without facts. Where an answer differs the script ends with 1; a first line
`accepted: ..` is no answer.

    --growth    a column more: by how much the work of each program grows where the facts do by ten
    --phases    and columns with seconds of a processor for what is read and held (facts told to the same symbols
                without rules), for what is rested (a run without the last show, less that), and for that show
    --reading   facts are told to the same symbols without rules and never shown, and no answer is compared, so that
                OTHER may do no more than read
"""

import argparse
import hashlib
import os
import shlex
import subprocess
import sys
import tempfile
from collections.abc import Sequence
from dataclasses import dataclass
from pathlib import Path

import workloads
from measure import HERE, Run, best, least_peak, peak_text, run

LEAST_WORK = 1e-4
VERDICT = b"accepted: "
READING = "--reading"


@dataclass(frozen=True)
class Goal:
    """For how many facts at most how many times the other's work, and its memory, is wanted."""

    count: int
    work: float
    memory: float = 2.0


FACTS = Goal(1_000_000, 1.5)
APART = Goal(1_000_000, 1.0)
RING = Goal(100_000, 1.5)
SEARCH = Goal(100_000, 4.0, memory=float("inf"))
GOALS = {
    "least": FACTS,
    "falling": FACTS,
    "routes": FACTS,
    "many_keys": FACTS,
    "all_keys": APART,
    "scattered": APART,
    "bids": FACTS,
    "settings": FACTS,
    "ties": FACTS,
    "equal": FACTS,
    "xor": FACTS,
    "revoked": FACTS,
    "pairs": FACTS,
    "threes": FACTS,
    "fours": FACTS,
    "coins": FACTS,
    "votes": FACTS,
    "cascade": Goal(6_553_600, 1.5),
    "ring_8": RING,
    "ring_16": RING,
    "star": SEARCH,
    "hub": SEARCH,
    "unequal": SEARCH,
    "rectangle": SEARCH,
    "rules": SEARCH,
    "shown": Goal(10_000, 4.0, memory=float("inf")),
}
HEADS = ("Input", "Facts", "Seconds", "other", "Clock", "other", "Work", "Memory", "other", "Ratio", "Missed")
PHASES = ("Read", "other", "Rested", "other", "Shown", "other")


@dataclass(frozen=True)
class Programs:
    ours: Sequence[str]
    other: Sequence[str]

    def words(self, name: str) -> tuple[list[str], list[str]]:
        """Both command lines for a workload."""
        work = workloads.WORKLOADS[name]
        replicas = ["--replicas", str(work.replicas)] if work.replicas > 1 else []
        return [*self.ours, "run", *work.options()], [*self.other, *replicas]


def answers(told: Path) -> bytes:
    """A digest of all that was answered. No whole line is held, as it would count for a peak of what is run next."""
    with told.open("rb") as file:
        if not file.readline(256).startswith(VERDICT):
            file.seek(0)
        return hashlib.file_digest(file, "sha256").digest()


def less(runs: Sequence[Run], others: Sequence[Run]) -> list[float]:
    """Seconds of a processor of these runs less those of others."""
    return [max(one.processor - other.processor, LEAST_WORK) for one, other in zip(runs, others, strict=True)]


class Bench:
    """Both programs, and what is the same for each input."""

    def __init__(self, programs: Programs, times: int, reading: bool, folder: Path) -> None:
        self.programs, self.times, self.reading, self.folder = programs, times, reading, folder
        self.given = folder / "given"
        self.floor = least_peak(folder)

    def write(self, name: str, count: int, *options: str) -> None:
        """By a process of its own, so that this one stays small: what it runs begins with its peak."""
        words = [sys.executable, str(HERE / "workloads.py"), name, str(count), *options]
        with self.given.open("wb") as out:
            subprocess.run(words, stdout=out, check=True)

    def turn(self, name: str) -> list[Run]:
        """A run of each program."""
        runs, found = [], set()
        for place, words in enumerate(self.programs.words(name)):
            told = self.folder / f"told{place}"
            runs.append(run(words, self.given, told))
            found.add(b"" if self.reading else answers(told))
        if len(found) > 1:
            sys.exit(f"beside: the answers to {name} differ")
        return runs

    def in_turns(self, name: str) -> list[Run]:
        """The best of each program's runs of what was written."""
        turns = [self.turn(name) for _ in range(self.times)]
        return [best(column) for column in zip(*turns, strict=True)]

    def runs(self, name: str, count: int) -> list[Run]:
        self.write(name, count, *([READING] if self.reading else []))
        return self.in_turns(name)

    def growth(self, name: str, count: int, work: Sequence[float], none: Sequence[Run]) -> list[str]:
        tenth = less(self.runs(name, count // 10), none)
        return [", ".join(f"{large / small:.1f}" for large, small in zip(work, tenth, strict=True))]

    def phases(self, name: str, count: int, whole: Sequence[Run], none: Sequence[Run]) -> list[str]:
        self.write(name, count, READING)
        read = self.in_turns(name)
        self.write(name, count)
        os.truncate(self.given, self.given.stat().st_size - len(workloads.SHOW))
        unshown = self.in_turns(name)
        seconds = [*less(read, none), *less(unshown, read), *less(whole, unshown)]
        return [f"{it:.3f}" for it in seconds]

    def row(self, name: str, goal: Goal, growth: bool, phases: bool) -> list[str]:
        runs, none = self.runs(name, goal.count), self.runs(name, 0)
        work = less(runs, none)
        ratio, memory = work[0] / work[1], runs[0].peak / runs[1].peak
        told = runs[1].peak > self.floor
        too_much = told and memory > goal.memory and not self.reading
        missed = [*(["work"] if ratio > goal.work else []), *(["memory"] if too_much else [])]
        return [
            workloads.WORKLOADS[name].title,
            f"{goal.count:,}",
            *(f"{it.processor:.3f}" for it in runs),
            *(f"{it.clock:.3f}" for it in runs),
            f"{ratio:.2f}",
            *(peak_text(it.peak, self.floor) for it in runs),
            f"{memory:.2f}" if told else "",
            " and ".join(missed),
            *(self.growth(name, goal.count, work, none) if growth else []),
            *(self.phases(name, goal.count, runs, none) if phases else []),
        ]


def asked(word: str) -> tuple[str, Goal]:
    name, _, count = word.partition("=")
    if name not in workloads.WORKLOADS or (count and not count.isdigit()):
        raise argparse.ArgumentTypeError(f"{word} is no NAME or NAME=COUNT of workloads.py")
    goal = GOALS.get(name, FACTS)
    return name, Goal(int(count), goal.work, goal.memory) if count else goal


def table_row(cells: Sequence[str]) -> str:
    return f"| {' | '.join(cells)} |"


def main() -> int:
    words = argparse.ArgumentParser(description=__doc__, formatter_class=argparse.RawDescriptionHelpFormatter)
    words.add_argument("program")
    words.add_argument("other", type=shlex.split)
    words.add_argument("names", nargs="*", type=asked, metavar="NAME[=COUNT]")
    words.add_argument("--times", type=int, default=5)
    words.add_argument("--growth", action="store_true")
    words.add_argument("--phases", action="store_true")
    words.add_argument(READING, action="store_true")
    said = words.parse_intermixed_args()
    if said.reading and said.phases:
        words.error("what is read is one of the phases")
    heads = [*HEADS, *(["Grown"] if said.growth else []), *(PHASES if said.phases else [])]
    print(table_row(heads), "|" + "---|" * len(heads), sep="\n", flush=True)
    with tempfile.TemporaryDirectory() as folder:
        bench = Bench(Programs([said.program], said.other), said.times, said.reading, Path(folder))
        for name, goal in said.names or GOALS.items():
            print(table_row(bench.row(name, goal, said.growth, said.phases)), flush=True)
    return 0


if __name__ == "__main__":
    sys.exit(main())
