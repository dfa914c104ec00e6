"""Calls to which memory is refused, one growth after another: what stands afterwards is compared whole with what it has
to be. The calls are made by a program of tests, which the gate builds (`crates/chr_refused_calls`); it prints the state
before a call, the answer, and the state after it, and memory is refused to it between the lines `call` and `answer`."""

import os
import tempfile
import unittest
from collections.abc import Mapping
from concurrent.futures import ThreadPoolExecutor
from dataclasses import dataclass
from pathlib import Path

from chrrep.node import program_path
from shims import MEMORY, End, Refusal, made_shim, run_refused, why_not

CALLS = "chr_refused_calls"
WORKERS = os.cpu_count() or 1
DONE, REFUSED = "answer done", "answer refused 99"
ATOMS = 64
VALUES = range(3, 23)

State = tuple[str, ...]


def values(*numbers: int) -> str:
    return ", ".join(f"min({number})" for number in numbers)


def counted(**numbers: int) -> str:
    """Equal atoms, after their number where they are several."""
    return ", ".join(f"{count} times {atom}" if count > 1 else atom for atom, count in numbers.items() if count)


def operation(origin: int, number: int, atoms: str) -> State:
    return (f"operation {origin}/{number}", f"of: {atoms}")


def done(number: int, part: str, result: str) -> State:
    return (f"done {number}", f"from: {part}", f"to: {result}")


ONE = operation(1, 1, values(3, 5, 9))
LESS = operation(1, 2, values(1))
NEW = operation(3, 1, values(2, 8))
SET = ("told 3", *operation(1, 1, values(3, 5)), *operation(2, 7, values(9)))
MORE = "62 times min(8)"
LEASED = ("told 66", *ONE, *operation(2, 7, values(7)), *operation(2, 8, MORE))
OUT = f"lease 1: {values(7, 9)}"
THREE = ("told 3", *ONE)
EQUAL = ("told 3", *operation(1, 1, "3 times min(5)"))
MULTIPLIED = ("told 5", *operation(1, 1, counted(a=4, b=1)), "lease 1: a")
MANY = (
    f"told {ATOMS * len(VALUES)}",
    *(
        line
        for place, value in enumerate(reversed(VALUES))
        for line in operation(1, place, f"{ATOMS} times {values(value)}")
    ),
)
SHOWN = f"shown: {values(3)}"
LEASE = f"lease 4: {values(3, 5, 9)}"


@dataclass(frozen=True)
class Call:
    """What is printed before a call, and by its answer what may be printed after it."""

    before: State
    after: Mapping[str, tuple[State, ...]]
    workers: bool = False
    """Workers may be left out where memory is refused, and leases may be out then. What is printed is what stays."""

    @property
    def is_refused(self) -> bool:
        return REFUSED in self.after


def unchanged(before: State, after: State, handed_back: State = ()) -> Call:
    """What stands behind a refusal is what stood before."""
    return Call(before, {DONE: (after,), REFUSED: ((*handed_back, *before),)})


def multiplied(steps: int) -> State:
    """Each step makes eight atoms of one. The pool is printed as the next lease."""
    return (*MULTIPLIED, f"lease 2: {counted(a=3 - steps, b=1 + 8 * steps)}")


def entered(entries: int, steps: int) -> State:
    """What a book holds after so many steps, each of which makes eight atoms of one. A stopped `settle` is entered."""
    pool = counted(a=4 - steps, b=1 + 8 * steps)
    return (f"entries {entries}", "told 5", *operation(1, 1, counted(a=4, b=1)), f"lease 1: {pool}")


def by_a_seat(*told: str, shown: str) -> Call:
    """What was told, an operation each, comes to rest by workers, or else by calls of the seat."""
    before = tuple(line for number, atoms in enumerate(told, 1) for line in operation(1, number, atoms))
    rested = (f"rested: {shown}", f"shown: {shown}")
    return Call(before, {DONE: (rested,), REFUSED: (rested[1:],)}, workers=True)


def worked(told: State, whole: str) -> Call:
    return Call((*told, f"lease 1: {whole}"), {DONE: ((*told, SHOWN),), REFUSED: ((*told, SHOWN),)}, workers=True)


POOL = (f"pool: {counted(a=2, b=1)}",)
FIRED = (f"pool: {counted(a=1, b=9)}",)
WHOLE = (*LEASED, OUT, f"lease 2: {values(3, 5)}, {MORE}")
ONE_MORE = "63 times min(8)"
AT_REST = (*THREE, f"lease 1: {values(3)}")
TABLE: Mapping[str, Call] = {
    "add": unchanged(("told 0",), ("told 2", *NEW)),
    "join": unchanged(SET, ("told 6", *SET[1:3], *LESS, *SET[3:], *NEW)),
    "insert": unchanged(POOL, (f"pool: {counted(a=3, b=8)}",)),
    "fire": unchanged(POOL, FIRED),
    "fire_rows": unchanged(POOL, FIRED),
    "pool_step": unchanged(POOL, FIRED),
    "tell": unchanged(WHOLE, ("told 68", *LEASED[1:], *NEW, OUT, f"lease 2: {values(2, 3, 5)}, {ONE_MORE}")),
    "merge": unchanged(
        WHOLE,
        ("told 69", *LEASED[1:3], *LESS, *LEASED[3:], *NEW, OUT, f"lease 2: {values(1, 2, 3, 5)}, {ONE_MORE}"),
    ),
    "step": unchanged(multiplied(0), multiplied(1)),
    "take": unchanged(WHOLE, (*LEASED, OUT, f"lease 2: {values(5)}", f"lease 3: {values(3)}, {MORE}")),
    "take_parts": unchanged(
        (*EQUAL, "lease 1: 3 times min(5)"),
        (*EQUAL, *(f"lease {number}: min(5)" for number in (1, 2, 3)), "lease 4: "),
    ),
    "recall": unchanged(WHOLE, (*LEASED, f"lease 2: {values(3, 5, 7)}, {MORE}, {values(9)}")),
    "put": unchanged(
        WHOLE, (*LEASED, f"lease 2: {values(3, 5, 7)}, {MORE}"), handed_back=done(1, values(7, 9), values(7))
    ),
    "show": unchanged(AT_REST, (SHOWN, *AT_REST)),
    "settle": Call(
        multiplied(0),
        {DONE: (("steps 3", *multiplied(3)),), REFUSED: tuple((f"steps {n}", *multiplied(n)) for n in range(4))},
    ),
    "settle_once_more": Call(AT_REST, {DONE: (("steps 0", *AT_REST),)}),
    "book_tell": unchanged(
        ("entries 1", *THREE, f"lease 1: {values(3, 5, 9)}"),
        ("entries 2", "told 5", *ONE, *NEW, f"lease 1: {values(2, 3, 5, 8, 9)}"),
        handed_back=NEW,
    ),
    "book_settle": Call(
        entered(1, 0),
        {DONE: (("settled 4", *entered(2, 4)), *((f"stopped {n}", *entered(2, n)) for n in range(5)))},
    ),
    "rest_part": unchanged((LEASE,), done(4, values(3, 5, 9), values(3))),
    "step_part": unchanged((LEASE,), done(4, values(3, 5, 9), values(3, 9))),
    "rest_board": worked(THREE, values(3, 5, 9)),
    "rest_board_in_parts": worked(MANY, ", ".join(f"{ATOMS} times {values(value)}" for value in VALUES)),
    "settle_with": by_a_seat("a, b", counted(a=3), counted(a=2, b=1), shown=counted(b=50)),
}


def calls_path() -> Path | None:
    """The program of calls, which lies beside the program that a gate has built. Others have none beside them."""
    built = Path(program_path()).resolve()
    if built.parts[-4:] != ("crates", "chrrep", "out", "chrrep"):
        return None
    return built.parents[2] / CALLS / "out" / CALLS


@dataclass(frozen=True)
class Series:
    """What the runs of a call came to."""

    met: int
    refused: int
    wrong: list[str]


class RefusedCalls(unittest.TestCase):
    shim: Path
    program: str

    @classmethod
    def setUpClass(cls) -> None:
        path = calls_path()
        if path is None:
            raise unittest.SkipTest(f"the program {CALLS} is built by the gate alone, with the kit")
        if why := why_not():
            raise unittest.SkipTest(why)
        cls.program = str(path)
        room = tempfile.TemporaryDirectory()
        cls.addClassCleanup(room.cleanup)
        cls.shim = made_shim(MEMORY, Path(room.name))

    def fault(self, name: str, end: End) -> str:
        """What is wrong with what was printed, if so."""
        call = TABLE[name]
        lines = end.output.decode().splitlines()
        if end.status or end.errors or "call" not in lines:
            return "it has not ended as it should"
        place = lines.index("call")
        before, answer, after = lines[:place], lines[place + 1], lines[place + 2 :]
        if before != [name, *call.before]:
            return "another state before the call"
        if not end.met and answer != DONE:
            return "refused where no growth was"
        if call.workers and answer == REFUSED:
            after = [line for line in after if not line.startswith("lease ")]
        if tuple(after) not in call.after.get(answer, ()):
            return f"another state after `{answer}`"
        return ""

    def series(self, name: str, later: bool) -> Series:
        """Each growth is refused in turn, until there is none that could be."""
        met, refused = 0, 0
        wrong: list[str] = []
        while len(wrong) < 3:
            refusal = Refusal(met + 1, later, in_call=True)
            end = run_refused(self.shim, [self.program, name], b"", refusal)
            if fault := self.fault(name, end):
                wrong.append(f"{name} without {refusal}: {fault}: {end}")
            refused += f"\n{REFUSED}" in end.output.decode()
            if not end.met:
                break
            met += 1
        return Series(met, refused, wrong)

    def test_calls(self) -> None:
        tasks = [(name, later) for name in TABLE for later in (False, True)]
        with ThreadPoolExecutor(WORKERS) as pool_of_threads:
            ends = list(pool_of_threads.map(lambda task: self.series(*task), tasks))
        for (name, later), end in zip(tasks, ends, strict=True):
            with self.subTest(name, later=later):
                self.assertEqual(end.wrong, [])
                self.assertEqual(bool(end.refused), TABLE[name].is_refused, "whether a growth was refused")
        told = ", ".join(f"{name} {end.met}" for (name, later), end in zip(tasks, ends, strict=True) if not later)
        print(f"(growths refused: {told})", end=" ", flush=True)


if __name__ == "__main__":
    unittest.main()
