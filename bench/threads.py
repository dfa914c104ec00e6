#!/usr/bin/env python3
"""Times `chrrep run` by one worker and by several, in turns, on inputs of `workloads.py`.

    threads.py PROGRAM [--count 1000000] [--only NAME,..] [--workers 4] [--parts 16] [--times 3]

Of each input it prints how many runs counted, the least, the median and the mean seconds of a whole run by one worker
and by several, and those of the resting alone: the seconds less those of the same facts told by as many workers to a
program without rules, and never shown. Seconds are those of a clock, so they say something only where as many
processors do nothing else. A run counts where others took at most 3 of 100 of the machine meanwhile, by what Linux
tells.
"""

import argparse
import os
import statistics
import subprocess
import sys
import tempfile
import time
from collections.abc import Callable
from pathlib import Path

import workloads

CHOSEN = ("routes", "many_keys", "all_keys", "bids", "settings", "dominated", "fours", "falling", "revoked", "pairs")
MOST_TAKEN = 0.03
FIGURES: tuple[Callable[[list[float]], float], ...] = (min, statistics.median, statistics.mean)


def written(folder: Path, name: str, count: int) -> tuple[Path, Path]:
    """The input, and the same facts for a program without rules, which are not shown."""
    whole, told = folder / f"{name}.chr", folder / f"{name}-told.chr"
    whole.write_text("".join(workloads.lines(name, count, 0)))
    told.write_text("".join(workloads.reading(name, count)))
    return whole, told


def ticks() -> tuple[int, int]:
    """How long all processors have been there, and how much of that others took."""
    counts = [int(word) for word in Path("/proc/stat").read_text().splitlines()[0].split()[1:9]]
    return sum(counts), counts[-1]


def counted(program: str, words: list[str], path: Path) -> list[float]:
    """The seconds of a run, if it counts."""
    before, start = ticks(), time.monotonic()
    with path.open("rb") as given:
        subprocess.run([program, "run", *words], stdin=given, stdout=subprocess.DEVNULL, check=True)
    seconds, after = time.monotonic() - start, ticks()
    is_quiet = after[1] - before[1] <= MOST_TAKEN * (after[0] - before[0])
    return [seconds] if is_quiet else []


def shown(one: list[float], several: list[float]) -> str:
    """Seconds by one worker and by several, and how many times faster these are."""
    texts = (" ".join(f"{value:.3f}" for value in values) for values in (one, several))
    times = " ".join(f"{a / b:.2f}" for a, b in zip(one, several, strict=True))
    return f"{' and '.join(texts)} s, {times} times faster"


def compared(name: str, runs: list[list[float]]) -> str:
    """What came of the runs, and of those that only tell, by one worker and by several each."""
    if not all(runs):
        return f"{name:10} no run of some kind counted"
    one, several, told_by_one, told_by_several = ([figure(column) for figure in FIGURES] for column in runs)
    rests = [max(a - b, 0.001) for a, b in zip(one + several, told_by_one + told_by_several, strict=True)]
    counts = "/".join(str(len(column)) for column in runs)
    return f"{name:10} {counts} runs: {shown(one, several)}; resting {shown(rests[:3], rests[3:])}"


def main() -> int:
    words = argparse.ArgumentParser(description=__doc__, formatter_class=argparse.RawDescriptionHelpFormatter)
    words.add_argument("program")
    words.add_argument("--count", type=int, default=1_000_000)
    words.add_argument("--only", default=",".join(CHOSEN))
    words.add_argument("--workers", type=int, default=4)
    words.add_argument("--parts", type=int, default=16)
    words.add_argument("--times", type=int, default=3)
    said = words.parse_args()
    print(f"{os.cpu_count()} processors, {said.count} facts, {said.workers} workers, {said.parts} parts")
    with tempfile.TemporaryDirectory() as folder:
        for name in said.only.split(","):
            options = workloads.WORKLOADS[name].options()
            settings = [
                [*options, "--workers", str(workers), "--parts", str(parts)]
                for workers, parts in ((1, 1), (said.workers, said.parts))
            ]
            kinds = [(words_of, path) for path in written(Path(folder), name, said.count) for words_of in settings]
            runs: list[list[float]] = [[] for _ in kinds]
            for _ in range(said.times):
                for column, (words_of, path) in zip(runs, kinds, strict=True):
                    column += counted(said.program, words_of, path)
            print(compared(name, runs), flush=True)
    return 0


if __name__ == "__main__":
    sys.exit(main())
