#!/usr/bin/env python3
"""Measures a release, and writes the tables of README.md.

    figures.py PROGRAM [OTHER] [--times 3] [--only NAME,..]

Texts and lines are those of `generate.py`, facts those of `workloads.py`. Instructions are those of one run, which no
other work disturbs: of facts a tenth as many are told, and what the same program text takes without facts is left out.
They are not told where valgrind isn't installed, or takes longer than two minutes. Seconds are those of all processors,
the least of TIMES runs, and memory is the greatest. OTHER is a command line, for which `--replicas N` is added where
there are several; it reads the same facts.
"""

import argparse
import shlex
import subprocess
import sys
import tempfile
from collections.abc import Iterator, Sequence
from pathlib import Path

import beside
import workloads
from measure import HERE, best, instructions, least_peak, peak_text, run

TEXTS = (
    "rules",
    "names",
    "clauses",
    "comments",
    "layout",
    "items",
    "symbols",
    "dominated",
    "near",
    "ordered",
    "over",
    "constants",
    "copies",
    "choices",
    "guarded",
)
LINES = (
    "tells 100000",
    "tells 100000 --show",
    "wide 15625 --show",
    "minimum 100000",
    "renames 20000",
    "paths 100000",
    "exchange 100000",
)
OPTIONS = {"exchange": ("--replicas", "8")}
TENTH = 10
MILLION = 1_000_000

Row = list[str]


def text_of(count: float | None) -> str:
    """A count of instructions, in millions where it is that of a run."""
    return "" if count is None else f"{count:,.0f}"


class Figures:
    """A release, maybe another program, and what is the same for each input."""

    def __init__(self, program: str, other: Sequence[str], times: int, folder: Path) -> None:
        self.programs = beside.Programs([program], other)
        self.program, self.times, self.folder = program, times, folder
        self.given = folder / "given"
        self.least = least_peak(folder)

    def write(self, script: str, *words: str) -> None:
        """By a process of its own, so that this one stays small: what it runs begins with its peak."""
        with self.given.open("wb") as out:
            subprocess.run([sys.executable, str(HERE / script), *words], stdout=out, check=True)

    def text_row(self, name: str) -> Row:
        self.write("generate.py", *name.split())
        words = [self.program, "run", *OPTIONS.get(name.split()[0], ())]
        told = self.folder / "told"
        took = best([run(words, self.given, told) for _ in range(self.times)])
        count = instructions(words, self.given)
        with told.open("rb") as file:
            verdict = file.readline().decode().rstrip("\n")
        seconds = "under 0.01" if took.processor < 0.01 else f"{took.processor:.2f}"
        counted = text_of(None if count is None else count / MILLION)
        size = f"{self.given.stat().st_size:,}"
        return [f"`{name}`", size, counted, seconds, peak_text(took.peak, self.least), f"`{verdict}`"]

    def for_each(self, name: str, count: int) -> list[float | None]:
        """How many instructions each program takes for one fact."""
        counts = []
        for facts in (0, count // TENTH):
            self.write("workloads.py", name, str(facts))
            counts.append([instructions(words, self.given) for words in self.words(name)])
        pairs = zip(*counts, strict=True)
        return [None if a is None or b is None else (b - a) / (count // TENTH) for a, b in pairs]

    def words(self, name: str) -> list[list[str]]:
        ours, others = self.programs.words(name)
        return [ours, others] if self.programs.other else [ours]

    def fact_row(self, name: str) -> Row:
        count = beside.GOALS[name].count
        each = self.for_each(name, count)
        self.write("workloads.py", name, str(count))
        took = [best([run(it, self.given, self.folder / "told") for _ in range(self.times)]) for it in self.words(name)]
        row = [workloads.WORKLOADS[name].title, f"{count:,}", *map(text_of, each)]
        if len(each) > 1:
            row.append(f"{each[0] / each[1]:.2f}" if each[0] and each[1] else "")
        return [*row, *(f"{it.processor:.2f}" for it in took), *(peak_text(it.peak, self.least) for it in took)]

    def tables(self, wanted: Sequence[str]) -> Iterator[Row]:
        others = ["other"] if self.programs.other else []
        ratio = ["Ratio"] if others else []
        yield ["Input", "Bytes", "Million instructions", "Seconds", "Peak memory", "Verdict"]
        yield from (self.text_row(name) for name in TEXTS + LINES if not wanted or name in wanted)
        yield []
        yield ["Input", "Facts", "Instructions a fact", *others, *ratio, "Seconds", *others, "Peak memory", *others]
        yield from (self.fact_row(name) for name in beside.GOALS if not wanted or name in wanted)


def main() -> int:
    words = argparse.ArgumentParser(description=__doc__, formatter_class=argparse.RawDescriptionHelpFormatter)
    words.add_argument("program")
    words.add_argument("other", nargs="?", default="")
    words.add_argument("--times", type=int, default=3)
    words.add_argument("--only", default="")
    said = words.parse_args()
    with tempfile.TemporaryDirectory() as folder:
        figures = Figures(said.program, shlex.split(said.other), said.times, Path(folder))
        is_head = True
        for row in figures.tables([name for name in said.only.split(",") if name]):
            print(f"| {' | '.join(row)} |" if row else "", flush=True)
            if is_head:
                print("|---" * len(row) + "|", flush=True)
            is_head = not row
    return 0


if __name__ == "__main__":
    sys.exit(main())
