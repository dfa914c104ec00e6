"""Verdicts, and the ends of stores, beside plain slow programs of the definitions on programs made at random."""

import os
import random
import subprocess
import unittest
from collections import Counter
from typing import Any

from chrrep.node import program_path
from programs import answers
from random_programs import long_program, program, record_program, store
from slow_verdict import (
    Pattern,
    Program,
    Rule,
    Sort,
    TooSlow,
    plain_end,
    representatives,
    sorts_of,
    steps,
    store_text,
    type_count,
    verdict,
)

SEED = 17
PROGRAMS = int(os.environ.get("CHRREP_PROGRAMS", "3000"))
"""How many programs of a kind are judged; below 500 some kinds of verdict may be missing, which is a failure too."""
LONG_PROGRAMS = PROGRAMS // 10
AGREED_PROGRAMS = max(PROGRAMS // 5, 200)
MOST_TYPES = 600
"""More order types of one overlap are not looked at, unless they are too many for a verdict."""
MOST_COMBINATIONS = 300
"""So it is with combinations of lists at sorts."""
STORES = 3
STORE_ATOMS = 5
CONSTANTS: list[list[int]] = [[], [5], [0, 1, 3], [-(2**63), 2**63 - 1]]


def checked(text: str, *options: str) -> str:
    words = [program_path(), "check", *options]
    end = subprocess.run(words, input=text.encode(), stdout=subprocess.PIPE, check=False, timeout=60)
    return end.stdout.decode().removesuffix("\n")


def random_end(chance: random.Random, of: Program, atoms: list[Pattern]) -> list[Pattern]:
    """Where steps lead that are chosen at random."""
    while following := list(steps(of, atoms)):
        atoms = chance.choice(following)
    return atoms


class OrderTypes(unittest.TestCase):
    def test_numbers(self) -> None:
        """Weak orders, and those among constants with room for none and for one value between them."""
        self.assertEqual([type_count(count, []) for count in range(9)], [1, 1, 3, 13, 75, 541, 4683, 47293, 545835])
        for constants in CONSTANTS:
            for count in range(4):
                listed = representatives(count, constants)
                self.assertEqual(len(set(listed)), len(listed))
                self.assertEqual(len(listed), type_count(count, constants))

    def test_each_is_shown_once(self) -> None:
        """Any values compare with one another and with the constants as those of one representative do."""
        chance = random.Random(SEED)

        def comparisons(values: tuple[int, ...], constants: list[int]) -> tuple[int, ...]:
            return tuple((value > other) - (value < other) for value in values for other in (*values, *constants))

        for constants in CONSTANTS:
            shown = Counter(comparisons(values, constants) for values in representatives(3, constants))
            near = [value + step for value in constants or [0] for step in range(-3, 4)] + [-(2**63), 2**63 - 1, 10**6]
            for _ in range(500):
                values = tuple(chance.choice([value for value in near if -(2**63) <= value < 2**63]) for _ in range(3))
                self.assertEqual(shown[comparisons(values, constants)], 1, (values, constants))


def atom(name: str, *terms: str | int) -> Pattern:
    return Pattern(name, terms)


def one_rule(weights: dict[tuple[str, int], int], *parts: Any) -> Program:
    return Program(weights, (Rule(*parts),))


def routes(columns: int, sign: str) -> Program:
    """The last column is compared, the others before it are a key."""
    key = tuple("ABCDE"[: columns - 1])
    kept, removed = atom("path", *key, "X"), atom("path", *key, "Y")
    return one_rule({("path", columns): 1}, (kept,), (removed,), (("X", sign, "Y"),), ())


SORTED = (
    (routes(1, "=<"), "accepted: rules 1, cases 17"),
    (routes(3, "=<"), "accepted: rules 1, cases 17"),
    (
        one_rule(
            {("p", 4): 1},
            (atom("p", "K", "A", "B", "C"),),
            (atom("p", "K", "D", "E", "F"),),
            (("A", "<", "D"),),
            (),
        ),
        "accepted: rules 1, cases 6",
    ),
    (
        one_rule(
            {("p", 4): 1, ("q", 1): 1, ("s", 0): 1},
            (),
            (atom("p", "A", "B", "C", "D"), atom("q", "E")),
            (),
            (atom("s"),),
        ),
        "refused 21: rules 1 1; matching (0,2); store p(0,0,0,0), p(1,1,1,1), q(0);"
        " left p(1,1,1,1), s; right p(0,0,0,0), s",
    ),
)
"""Programs, and their verdicts by sorts."""


class SortsOfColumns(unittest.TestCase):
    """The slow program by itself."""

    def test_bodies_join(self) -> None:
        """Two columns are of one sort through the body's symbol, which no head mentions; constants of bodies count."""
        left = Rule((), (atom("p", "X", "Y"),), (), (atom("out", "X"),))
        right = Rule((), (atom("p", "X", "Y"),), (), (atom("out", "Y"), atom("out", 7)))
        symbols = {("p", 2): 3, ("out", 1): 1}
        apart, joined = sorts_of(Program(symbols, (left,))), sorts_of(Program(symbols, (left, right)))
        self.assertEqual(apart["p", 2, 0], Sort(ordered=False, unequal=False, constants=()))
        self.assertEqual(set(joined.values()), {Sort(ordered=False, unequal=False, constants=(7,))})
        self.assertEqual(
            verdict(Program(symbols, (left, right)), MOST_TYPES, wide=True),
            "refused 21: rules 1 2; matching (1); store p(0,1); left out(0); right out(1), out(7)",
        )

    def test_kinds(self) -> None:
        """Constants that are compared count; a variable against itself, and two constants, count for nothing."""
        guard = (("X", "=\\=", 5), (-9, "<", "Y"), ("Z", "=<", "Z"), (1, "<", 2), ("Z", "=:=", 3))
        sorts = sorts_of(Program({("p", 3): 1}, (Rule((), (atom("p", "X", "Y", "Z"),), guard, ()),)))
        self.assertEqual(sorts["p", 3, 0], Sort(ordered=False, unequal=True, constants=(5,)))
        self.assertEqual(sorts["p", 3, 1], Sort(ordered=True, unequal=False, constants=(-9,)))
        self.assertEqual(sorts["p", 3, 2], Sort(ordered=False, unequal=False, constants=(3,)))

    def test_lists(self) -> None:
        """Lists at one sort, by its kind, and as many as they are said to be."""
        self.assertEqual(Sort(False, False, (1,)).lists(3), [(0, 2, 3)])
        self.assertEqual(sorted(Sort(False, True, (7,)).lists(2)), [(0, 0), (0, 1), (0, 7), (7, 0), (7, 7)])
        self.assertEqual(Sort(True, True, ()).lists(2), [(0, 0), (0, 1), (1, 0)])
        for constants in ((), (0,), (1, 3)):
            for kind in ((False, False), (False, True), (True, True)):
                for classes in range(4):
                    listed = Sort(*kind, constants).lists(classes)
                    self.assertEqual(len(set(listed)), Sort(*kind, constants).count(classes))
        # partitions
        self.assertEqual([Sort(False, True, ()).count(classes) for classes in range(7)], [1, 1, 2, 5, 15, 52, 203])

    def test_agreement(self) -> None:
        """Where both verdicts are defined, a program is accepted by sorts just where it is by all order types."""
        chance = random.Random(SEED)
        kinds: Counter[tuple[str, str]] = Counter()
        for number in range(AGREED_PROGRAMS):
            made = record_program(chance) if number % 5 == 0 else program(chance)
            try:
                joint = verdict(made, MOST_TYPES)
                by_sorts = verdict(made, MOST_COMBINATIONS, wide=True)
            except TooSlow:
                continue
            kinds[joint[:10], by_sorts[:10]] += 1
            if not joint.startswith("refused 22"):
                with self.subTest(program=str(made)):
                    self.assertEqual(by_sorts[:10], joint[:10])
        self.assertTrue(kinds["refused 22", "accepted: "] and kinds["refused 22", "refused 21"], kinds)


class Verdicts(unittest.TestCase):
    def test_random_programs(self) -> None:
        """The verdict is that of the slow program, byte by byte; stores of accepted programs come to one end."""
        chance = random.Random(SEED)
        kinds: Counter[str] = Counter()
        for _ in range(PROGRAMS):
            made = program(chance)
            try:
                expected = verdict(made, MOST_TYPES)
            except TooSlow:
                kinds["too slow"] += 1
                continue
            kinds[expected[:10]] += 1
            with self.subTest(program=str(made)):
                self.assertEqual(checked(str(made)), expected)
            if expected.startswith("accepted"):
                self.check_stores(chance, made)
        self.assertGreater(min(kinds["accepted: "], kinds["refused 20"], kinds["refused 21"]), PROGRAMS // 20, kinds)
        self.assertTrue(kinds["refused 22"], kinds)

    def test_long_programs(self) -> None:
        """Programs with more overlaps than one thread looks at, by both verdicts."""
        chance = random.Random(SEED)
        kinds: Counter[str] = Counter()
        for _ in range(LONG_PROGRAMS):
            made = long_program(chance)
            try:
                lines = (verdict(made, MOST_TYPES), verdict(made, MOST_COMBINATIONS, wide=True))
            except TooSlow:
                kinds["too slow"] += 1
                continue
            kinds[lines[0][:10]] += 1
            with self.subTest(program=str(made)):
                self.assertEqual((checked(str(made)), checked(str(made), "--wide")), lines)
        self.assertGreater(min(kinds["accepted: "], kinds["refused 21"]), LONG_PROGRAMS // 20, kinds)

    def test_sorted_rows(self) -> None:
        for made, line in SORTED:
            with self.subTest(program=str(made)):
                self.assertEqual(verdict(made, MOST_TYPES, wide=True), line)
                self.assertEqual(checked(str(made), "--wide"), line)

    def test_random_programs_by_sorts(self) -> None:
        """The verdict of `--wide` is that of the slow program, byte by byte, and agrees with the verdict by order types
        where that is decided; stores of programs that it alone accepts come to one end."""
        self.assertEqual(checked("", "--wide"), "accepted: rules 0, cases 0")
        chance = random.Random(SEED)
        kinds: Counter[tuple[str, str]] = Counter()
        for number in range(PROGRAMS):
            made = record_program(chance) if number % 2 else program(chance)
            try:
                expected = verdict(made, MOST_COMBINATIONS, wide=True)
            except TooSlow:
                kinds["too slow", ""] += 1
                continue
            joint = checked(str(made))
            kinds[joint[:10], expected[:10]] += 1
            with self.subTest(program=str(made)):
                self.assertEqual(checked(str(made), "--wide"), expected)
                if not joint.startswith("refused 22"):
                    self.assertEqual(joint[:10], expected[:10])
            if joint.startswith("refused 22") and expected.startswith("accepted"):
                self.check_stores(chance, made, "--wide")
        alone = min(kinds["refused 22", line] for line in ("accepted: ", "refused 21", "refused 22"))
        self.assertGreater(alone, PROGRAMS // 40, kinds)

    def check_stores(self, chance: random.Random, made: Program, *options: str) -> None:
        """Each store has one end: of all its atoms at once, of two parts that rested before they met, and by steps that
        are chosen at random."""
        for _ in range(STORES):
            atoms = store(chance, made, STORE_ATOMS)
            end = store_text(plain_end(made, atoms))
            told = [[atom.name, *atom.terms] for atom in atoms]
            cut = chance.randrange(1, STORE_ATOMS)
            with self.subTest(program=str(made), store=store_text(atoms), cut=cut):
                whole = (["tell", 1, [1, 1], told], ["show", 1])
                parts = (["tell", 2, [1, 2], told[:cut]], ["show", 2], ["tell", 3, [1, 3], told[cut:]], ["show", 3])
                lines = (*whole, *parts, ["sync", 3, 2], ["show", 2])
                shown = answers(str(made), lines, "--replicas", "3", *options)
                self.assertEqual((shown[2], shown[-1]), (end, end))
                self.assertEqual(store_text(random_end(chance, made, atoms)), end)


if __name__ == "__main__":
    unittest.main()
