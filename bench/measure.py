"""What one run of a program takes: seconds, memory, instructions."""

import os
import re
import shlex
import shutil
import subprocess
import sys
import time
from collections.abc import Sequence
from dataclasses import dataclass
from pathlib import Path

HERE = Path(__file__).resolve().parent
MEGABYTE = 1_000
"""A megabyte in the units in which the system tells the peak of memory."""

REFUSED = 1
"""The status of a program text that is refused."""

COUNTED = re.compile(rb"Collected : (\d+)")
LONGEST_COUNT = 120.0
"""Seconds after which a count of instructions is given up."""


@dataclass(frozen=True)
class Run:
    """What runs of one input took: seconds of a processor and of a clock, and the peak of memory."""

    processor: float
    clock: float
    peak: int


def run(words: Sequence[str], given: Path, told: Path) -> Run:
    with given.open("rb") as source, told.open("wb") as out:
        start = time.monotonic()
        started = subprocess.Popen(words, stdin=source, stdout=out, stderr=subprocess.DEVNULL)
        _, status, used = os.wait4(started.pid, 0)
        clock = time.monotonic() - start
    started.returncode = os.waitstatus_to_exitcode(status)
    if started.returncode not in (0, REFUSED):
        sys.exit(f"{shlex.join(words)} ended with {started.returncode}")
    return Run(used.ru_utime + used.ru_stime, clock, used.ru_maxrss)


def best(runs: Sequence[Run]) -> Run:
    return Run(min(run.processor for run in runs), min(run.clock for run in runs), max(run.peak for run in runs))


def least_peak(folder: Path) -> float:
    """A peak that can't be told from that of this process, which becomes that of the program."""
    return 1.02 * run(["true"], Path(os.devnull), folder / "told").peak


def peak_text(peak: float, least: float) -> str:
    if peak <= least:
        return f"under {least / MEGABYTE + 1:.0f} MB"
    return f"{peak / MEGABYTE:.0f} MB"


def instructions(words: Sequence[str], given: Path) -> int | None:
    """How many one run takes, as valgrind counts them; none where it isn't installed, or takes too long."""
    if shutil.which("valgrind") is None:
        return None
    command = ["valgrind", "--tool=callgrind", f"--callgrind-out-file={os.devnull}", *words]
    with given.open("rb") as source:
        try:
            ended = subprocess.run(
                command,
                stdin=source,
                stdout=subprocess.DEVNULL,
                stderr=subprocess.PIPE,
                timeout=LONGEST_COUNT,
                check=False,
            )
        except subprocess.TimeoutExpired:
            return None
    counted = COUNTED.search(ended.stderr)
    return int(counted[1]) if counted else None
