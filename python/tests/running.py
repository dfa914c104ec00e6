"""Runs tests, in this process or several at once in processes of their own, and counts what comes of them."""

import io
import multiprocessing
import unittest
from collections.abc import Mapping
from contextlib import redirect_stdout
from dataclasses import dataclass, field
from typing import TextIO


class Counted(unittest.TextTestResult):
    """A result that counts the tests that passed."""

    passed = 0

    def addSuccess(self, test: unittest.TestCase) -> None:  # noqa: N802
        super().addSuccess(test)
        self.passed += 1


@dataclass
class Tally:
    """What came of some tests."""

    passed: int = 0
    failed: int = 0
    skipped: list[str] = field(default_factory=list)
    name: str = ""
    written: str = ""

    def add(self, other: "Tally") -> None:
        self.passed += other.passed
        self.failed += other.failed
        self.skipped += other.skipped


class Progress:
    """How many of some tests have ended, on one line of a terminal, where each number takes the place of the last."""

    def __init__(self, of: int, to: TextIO) -> None:
        self.of, self.to, self.ended, self.failed, self.width = of, to, 0, 0, 0

    def add(self, count: int, failed: int) -> None:
        self.ended += count
        self.failed += failed
        self.show(f"{self.ended} of {self.of}" + (f", {self.failed} failed" if self.failed else ""))

    def show(self, text: str) -> None:
        if self.to.isatty():
            self.to.write("\r" + text.ljust(self.width) + ("" if text else "\r"))
            self.to.flush()
            self.width = len(text)

    def clear(self) -> None:
        self.show("")


def run(tests: unittest.TestSuite, to: TextIO) -> Tally:
    result = unittest.TextTestRunner(stream=to, verbosity=2, resultclass=Counted).run(tests)
    assert isinstance(result, Counted)
    # a test whose parts fail is one
    bad = {getattr(test, "test_case", test).id() for test, _ in (*result.errors, *result.failures)}
    failed = max(result.testsRun - result.passed - len(result.skipped), len(bad))
    return Tally(result.passed, failed, [f"{test}: {why}" for test, why in result.skipped])


def run_one(name: str) -> Tally:
    """Runs the test or the module of a name."""
    written = io.StringIO()
    with redirect_stdout(written):
        tally = run(unittest.defaultTestLoader.loadTestsFromName(name), written)
    tally.name, tally.written = name, written.getvalue()
    return tally


def run_at_once(tasks: Mapping[str, int], processes: int, is_brief: bool, to: TextIO, terminal: TextIO) -> Tally:
    """Runs tests and modules, each in a process of its own, several at once. A task has a number of tests. What they
    write is told when they have ended; briefly, how many have ended. At the end stands what those wrote that failed."""
    whole, progress = Tally(), Progress(sum(tasks.values()), terminal)
    told: list[str] = []
    with multiprocessing.get_context("fork").Pool(processes, maxtasksperchild=1) as pool:
        for tally in pool.imap_unordered(run_one, tasks):
            whole.add(tally)
            if not is_brief:
                to.write(tally.written)
            else:
                progress.add(tasks[tally.name], tally.failed)
            told += [tally.written] if tally.failed else []
    progress.clear()
    to.write("".join(told))
    return whole
