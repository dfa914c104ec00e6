"""Runs the tests of the package, and counts them on the last line.

    python3 python/tests [--processes N] [--brief]
                                            those of texts, of nodes and of logs in a file; CHRREP names the program
    python3 python/tests engines            those of logs in Redis and PostgreSQL, which they start on this machine
    python3 python/tests test_node ..       those of these modules

With several processes each test runs by itself, or each module or class whose tests share much, as many at once, and
what it writes is told when it has ended. Those over engines, which mostly wait, take six. With --brief only what fails
is told, and how many have ended where standard error is a terminal.

The environment's CHRREP_PROGRAMS is how many random programs of each kind are judged and explained, 3,000 where it
doesn't say, CHRREP_KILLS how many nodes are killed at random moments over each engine, CHRREP_OPERATIONS how many
operations are told to see that room stays bounded, and CHRREP_REFUSED how many examples are run with memory refused,
all where it doesn't say. CHRREP_KILL_SECONDS is how long nodes of two folders are killed at random, 8 where it doesn't
say, and CHRREP_FEEDS how many feeds a folder is opened with, 1,000.
"""

import argparse
import sys
import unittest
from collections import Counter
from collections.abc import Iterator
from pathlib import Path

sys.dont_write_bytecode = True

from running import run, run_at_once  # noqa: E402

HERE = Path(__file__).resolve().parent
ENGINES = ["test_links"]
"""Modules whose tests start servers of Redis and PostgreSQL, one for a class: one process runs all of it."""

ENGINE_PROCESSES = 6

LONGEST = [
    "test_install",
    "test_launcher",
    "test_costs",
    "test_workers_memory",
    "test_verdicts",
    "test_memory",
    "test_explanations",
    "test_lasting",
    "test_embedded",
    "test_folder_faults",
    "test_folder_members",
]
"""Modules whose tests take long, the longest first: several processes begin with these."""

WHOLE = ["test_install"]
"""Modules whose tests share what takes longer to make than to test: one process runs all of them."""


def modules_of(words: list[str]) -> list[str]:
    """The modules that these words name: those over engines, those that are given, or all but those over engines."""
    modules = sorted(it.stem for it in HERE.glob("**/test_*.py"))
    if words == ["engines"]:
        return ENGINES
    if unknown := [it for it in words if it not in modules]:
        raise SystemExit(f"tests: there is no module {', '.join(unknown)}: engines, or some of {', '.join(modules)}")
    return words or [it for it in modules if it not in ENGINES]


def names_in(tests: unittest.TestSuite) -> Iterator[str]:
    for it in tests:
        if isinstance(it, unittest.TestSuite):
            yield from names_in(it)
        else:
            yield it.id()


def module_of(name: str) -> str:
    return name.partition(".")[0]


def by_length(name: str) -> int:
    module = module_of(name)
    return LONGEST.index(module) if module in LONGEST else len(LONGEST)


def task_of(name: str) -> str:
    """The module or the class that one process runs with a test, or the test alone."""
    if module_of(name) in WHOLE:
        return module_of(name)
    return name.rpartition(".")[0] if module_of(name) in ENGINES else name


def tasks_of(tests: unittest.TestSuite) -> dict[str, int]:
    """The names of tests and of whole modules and classes, the longest first, each with the number of its tests."""
    names = map(task_of, names_in(tests))
    return dict(sorted(Counter(names).items(), key=lambda it: by_length(it[0])))


def main() -> int:
    words = argparse.ArgumentParser(description=__doc__, formatter_class=argparse.RawDescriptionHelpFormatter)
    words.add_argument("modules", nargs="*", metavar="MODULE")
    words.add_argument("--processes", type=int)
    words.add_argument("--brief", action="store_true")
    said = words.parse_args()
    sys.path[:0] = [str(HERE.parent), *sorted({str(it.parent) for it in HERE.glob("**/*.py")})]
    modules = modules_of(said.modules)
    tests = unittest.defaultTestLoader.loadTestsFromNames(modules)
    processes: int = said.processes or (ENGINE_PROCESSES if modules == ENGINES else 1)
    if processes > 1 or said.brief:
        tally = run_at_once(tasks_of(tests), processes, said.brief, sys.stdout, sys.stderr)
    else:
        tally = run(tests, sys.stdout)
    for it in tally.skipped:
        print(f"not run: {it}")
    print(f"{tally.passed} passed, {tally.failed} failed", flush=True)
    return 1 if tally.failed or not tally.passed else 0


if __name__ == "__main__":
    sys.exit(main())
