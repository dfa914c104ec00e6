"""Runs to which memory is refused, one growth after another: each ends as it would have, or with status 4 and nothing
written. Of a service what was written by then is a beginning of the whole, of whole lines. An explanation may lack the
weights that are searched for, and the changes that are proposed."""

import itertools
import os
import random
import re
import subprocess
import tempfile
import unittest
from collections.abc import Iterator, Sequence
from concurrent.futures import ThreadPoolExecutor
from dataclasses import dataclass
from pathlib import Path

import run_rows as rows
from chrrep.node import program_path
from shims import MEMORY, SECONDS, Refusal, made_shim, run_refused, why_not

EXAMPLES = Path(__file__).resolve().parents[3] / "examples"
WORKERS = os.cpu_count() or 1
WANT_OF_MEMORY = 4
BEFORE_WEIGHTS = b"so that the rules come to an end.\n"
WITHOUT_WEIGHTS = b"A search of at most 400 steps found neither weights for all rules, nor rules that have none.\n"

BEFORE_PROPOSALS = b"under which only one of the two steps is possible.\n"

EACH = 20
"""How many growths of an example are refused one by one. Later ones are chosen at random, farther and farther apart."""
APART = 3

REFUSED = int(os.environ.get("CHRREP_REFUSED", "0"))
"""How many of the examples are tried, evenly apart; all where it is 0."""

MOST_CASES = 25_000
"""Of an accepted example with more cases the run alone is tried, since each verdict takes its time."""


@dataclass(frozen=True)
class Case:
    """A command, and what it does with ample memory."""

    words: tuple[str, ...]
    input: bytes
    status: int
    output: bytes

    def lacks_weights(self, output: bytes) -> bool:
        """Whether it is the explanation of a refusal 20 whose search ran out of memory."""
        before, mark, _ = self.output.partition(BEFORE_WEIGHTS)
        return bool(mark) and output.startswith(before + mark + WITHOUT_WEIGHTS)

    def lacks_proposals(self, output: bytes) -> bool:
        """Whether it is the explanation of a refusal 21 for which a try ran out of memory."""
        before, mark, _ = self.output.partition(BEFORE_PROPOSALS)
        return bool(mark) and output == before + mark

    def lacks_something(self, output: bytes) -> bool:
        return self.lacks_weights(output) or self.lacks_proposals(output)

    def allows(self, status: int, output: bytes) -> bool:
        if status != WANT_OF_MEMORY:
            return status == self.status and (output == self.output or self.lacks_something(output))
        if self.words[0] != "serve":
            return not output
        return self.output.startswith(output) and (not output or output.endswith(b"\n"))


def input_of(text: str, lines: Sequence[str]) -> bytes:
    return "".join(f"{line}\n" for line in (text, "---", *lines)).encode()


def cases(given: bytes, options: Sequence[str], output: bytes) -> Iterator[Case]:
    """What each command does with an input for which `run` writes this. Explanations are taken as they come."""
    status = 0 if output.startswith(b"accepted") else 1
    judged = tuple(option for option in options if option == "--wide")
    yield Case(("run", *options), given, status, output)
    yield Case(("serve", *options), given, status, output)
    yield Case(("check", *judged), given, status, output.partition(b"\n")[0] + b"\n")
    words = [program_path(), "explain", *judged]
    told = subprocess.run(words, input=given, stdout=subprocess.PIPE, timeout=SECONDS, check=False)
    assert told.returncode == status, told
    yield Case(("explain", *judged), given, status, told.stdout)


def row_cases() -> Iterator[Case]:
    """A run of two replicas, a refused program, and lines that are told again and refused."""
    answers = "".join(f"{answer}\n" for _, answer in rows.MINIMA_OF_TWO)
    given = input_of(rows.MINIMUM_TEXT, [line for line, _ in rows.MINIMA_OF_TWO])
    yield from cases(given, ("--replicas", "2"), f"accepted: rules 1, cases 17\n{answers}".encode())
    text, output = rows.FAILING_CASES[1]
    yield from cases(input_of(text, ['["show",1]']), (), output.encode())
    text, lines, output = rows.OPERATIONS[1]
    yield from cases(input_of(text, lines), (), output.encode())


def example_cases() -> Iterator[Case]:
    examples = sorted(EXAMPLES.glob("*.out"))
    for expected in examples[:: max(1, len(examples) // REFUSED) if REFUSED else 1]:
        words = expected.with_suffix(".words")
        options = words.read_text().split() if words.exists() else []
        output = expected.read_bytes()
        told = re.match(rb"accepted: rules \d+, cases (\d+)\n", output)
        commands = cases(expected.with_suffix(".chr").read_bytes(), options, output)
        yield from itertools.islice(commands, 1 if told and int(told[1]) > MOST_CASES else None)


def growths(each: int | None) -> Iterator[int]:
    """The numbers of growths, from 1, and beyond so many ones farther and farther apart."""
    chance = random.Random(each)
    number = 0
    while True:
        number += 1 if each is None or number < each else chance.randint(1, max(1, number // APART))
        yield number


class RefusedMemory(unittest.TestCase):
    shim: Path

    @classmethod
    def setUpClass(cls) -> None:
        if why := why_not():
            raise unittest.SkipTest(why)
        room = tempfile.TemporaryDirectory()
        cls.addClassCleanup(room.cleanup)
        cls.shim = made_shim(MEMORY, Path(room.name))

    def refused(self, case: Case, refusal: Refusal) -> tuple[bool, str]:
        """Whether the run met the growth that is refused, and what was wrong with it."""
        end = run_refused(self.shim, [program_path(), *case.words], case.input, refusal)
        if case.allows(end.status, end.output) and not end.errors:
            return end.met, ""
        return end.met, f"{case.words} of {case.input[:60]!r}.. without {refusal}: {end}"

    def series(self, case: Case, each: int | None, later: bool) -> tuple[int, list[str]]:
        """How many runs met a refusal, and what was wrong."""
        runs, wrong = 0, []
        for number in growths(each):
            met, fault = self.refused(case, Refusal(number, later))
            wrong += [fault] * bool(fault)
            if not met or len(wrong) > 3:
                return runs, wrong
            runs += 1
        raise AssertionError("numbers end")

    def check(self, all_cases: Sequence[Case], each: int | None) -> int:
        self.assertTrue(all_cases)
        tasks = [(case, each, later) for case in all_cases for later in (False, True)]
        with ThreadPoolExecutor(WORKERS) as pool:
            ends = list(pool.map(lambda task: self.series(*task), tasks))
        for runs, wrong in ends:
            self.assertEqual(wrong, [])
            self.assertGreater(runs, 0)
        return sum(runs for runs, _ in ends)

    def test_rows(self) -> None:
        """Each growth in turn."""
        runs = self.check(list(row_cases()), None)
        print(f"({runs} runs with memory refused)", end=" ", flush=True)

    def test_examples(self) -> None:
        runs = self.check(list(example_cases()), EACH)
        print(f"({runs} runs with memory refused, of growths beyond {EACH} a sample)", end=" ", flush=True)


if __name__ == "__main__":
    unittest.main()
