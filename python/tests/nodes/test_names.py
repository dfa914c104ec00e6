"""Names and their numbers, and lines that have them."""

import random
import re
import unittest
from collections.abc import Callable
from functools import partial

from chrrep import Atom, atoms_of
from chrrep.names import (
    NameClash,
    NameFault,
    Names,
    named_atoms_of,
    named_text,
    number_of,
    numbered,
    pattern_of,
)
from chrrep.typed import LineFault, facts_of
from forks import said_in_fork

LAYOUT = " " * 1_000_000
BLANK, BERLIN, SAO_PAULO = 8238016292129134938, 2304797809858572651, 8681097948863336836


class Numbers(unittest.TestCase):
    def test_numbers_of_names(self) -> None:
        # of every version the same, or logs would name other numbers
        rows = [("", BLANK), ("berlin", BERLIN), ("S\u00e3o Paulo", SAO_PAULO)]
        for name, number in rows:
            self.assertEqual(number_of(name), number)
            self.assertLess(number, 2**63)

    def test_text_that_is_no_name(self) -> None:
        """A lone surrogate has no bytes of UTF-8."""
        said = r"can't encode character '\\ud800' in position 2: surrogates not allowed"
        calls: list[Callable[[], object]] = [
            lambda: number_of("ab\ud800c"),
            lambda: numbered(("path", 1, "ab\ud800c")),
            lambda: Names().of([("path", "ab\ud800c")]),
            lambda: named_atoms_of('path("ab\\ud800c")'),
        ]
        for call in calls:
            with self.assertRaisesRegex(NameFault, said) as raised:
                call()
            self.assertEqual((raised.exception.name, raised.exception.place), ("ab\ud800c", 2))

    def test_atoms_with_names(self) -> None:
        names = Names()
        atoms: list[Atom] = [("path", "berlin", 7, ""), ("path", 7, "berlin", -1), ("coin",)]
        found = names.of(atoms)
        self.assertEqual((found, len(names)), ({BERLIN: "berlin", BLANK: ""}, 0))
        names.learn(found.items())
        self.assertEqual((names.of(atoms), len(names)), (found, 2))
        told = [numbered(atom) for atom in atoms]
        self.assertEqual(told, [("path", BERLIN, 7, BLANK), ("path", 7, BERLIN, -1), ("coin",)])
        self.assertEqual(names.named(told), tuple(atoms))
        with self.assertRaises(NameClash) as raised:
            names.learn([(BERLIN, "bonn")])
        self.assertEqual((raised.exception.number, raised.exception.names), (BERLIN, ("berlin", "bonn")))

    def test_lines(self) -> None:
        rows: list[tuple[str, tuple[tuple[str | int, ...], ...]]] = [
            ("coin", (("coin",),)),
            ('path(berlin,"S\u00e3o Paulo",-5), a', (("path", "berlin", "S\u00e3o Paulo", -5), ("a",))),
            ('a("",b_1,"b c","a\\"b","7","\\u0000","(",","," ")', (
                ("a", "", "b_1", "b c", 'a"b', "7", "\0", "(", ",", " "),
            )),
        ]  # fmt: skip
        for text, atoms in rows:
            with self.subTest(text):
                self.assertEqual(named_atoms_of(text), atoms)
                self.assertEqual(named_text(atoms), text)
        self.assertEqual(named_atoms_of(' a( b , "c" ,1 ) ,d '), (("a", "b", "c", 1), ("d",)))
        self.assertEqual(named_text(()), "true")

    def test_lines_that_are_refused(self) -> None:
        texts = ["", ",", "a,", "a b", "a()", "A", "a(X)", "a(b", "a(b,)", "a(1.5)", 'a("', 'a("b)', "a('b')"]
        for text in (*texts, 'a("\\q")', 'a("\\ud800")'):
            with self.subTest(text), self.assertRaises(ValueError):
                named_atoms_of(text)

    def test_what_is_wrong_with_a_line_is_said_at_its_place(self) -> None:
        in_quotes = "is no name without quotes: put it in double quotes"
        rows = [
            ("add(anna,Milk,1)", f'10, argument 2 of add: Milk {in_quotes}, "Milk"'),
            ("add(anna, oat milk ,1)", f'11, argument 2 of add: oat milk {in_quotes}, "oat milk"'),
            ("add(1), add( 'b' )", f"14, argument 1 of add: 'b' {in_quotes}, \"b\""),
            ("add(\u00e9)", f'5, argument 1 of add: \u00e9 {in_quotes}, "\u00e9"'),
            ("add(1.5)", '5, argument 1 of add: 1.5 is no whole number: put it in double quotes, "1.5"'),
            ("add(1,-)", '7, argument 2 of add: - is no whole number: put it in double quotes, "-"'),
            ("add(f(1))", "5, argument 1 of add: f(..) is no argument: that is a whole number, or a name"),
            ("add(_)", "5, argument 1 of add: `_` stands for any argument behind `?` alone"),
            ("add()", "5, argument 1 of add: without arguments leave the brackets out: `add`"),
            ("add(1,)", "7, argument 2 of add: an argument is missing"),
            ("add(1,", "7, argument 2 of add: an argument and the bracket `)` are missing"),
            ("add(1", "6: the bracket `)` is missing"),
            ('add("x)', "5, argument 1 of add: these double quotes don't end"),
            ('add("x" y)', "5, argument 1 of add: a comma or `)` is missing behind these double quotes"),
            ('add(1,"\\q")', '7, argument 2 of add: "\\q" is no text: write `\\\\` for a backslash and `\\"` for '
             "double quotes in it"),
            ("oat milk", "5: a comma is missing before milk, or brackets, as in `a(1,b)`"),
            ("add(1) Milk(", "8: a comma is missing before Milk, or brackets, as in `a(1,b)`"),
            ("add(1). ", "7: a fact ends without a full stop: leave it out"),
            ("add(1))", "7: no bracket `(` stands before this one"),
            ("Milk", "1: Milk begins no fact: that is a word with a small first letter, as `a(1,b)` or `c`"),
            ("add(1), 1.5", "9: 1.5 begins no fact: facts are as `a(1,b)` or `c`"),
            ("add(1), ", "9: a fact is missing"),
            ("", "1: a fact is missing"),
            (f"add({'X' * 5000})", f'5, argument 1 of add: {"X" * 38}.. {in_quotes}, "{"X" * 37}..'),
            ("add(\x1b[2J\x9b)", f'5, argument 1 of add: \\x1b[2J\\x9b {in_quotes}, "\\u001b[2J\\x9b"'),
        ]  # fmt: skip
        for text, said in rows:
            with self.subTest(text[:40]), self.assertRaises(LineFault) as raised:
                named_atoms_of(text)
            self.assertEqual(str(raised.exception), f"character {said}")

    def test_patterns(self) -> None:
        rows: list[tuple[str, tuple[str, tuple[str | int | None, ...]]]] = [
            ("? add", ("add", ())),
            ("?add( _ ,anna,\"oat milk\",-7 ) ", ("add", (None, "anna", "oat milk", -7))),
        ]
        for text, pattern in rows:
            self.assertEqual(pattern_of(text, 1), pattern)
        for text, said in (
            ("? Add", "character 3: Add begins no fact"), ("? add(X)", "character 7, argument 1 of add: X is"),
            ("? a, b", "character 4: one symbol is asked for, or one pattern"), ("? a b", "character 5: a comma"),
            ("?  ", "character 4: a fact is missing"), ("? a(99999999999999999999)", "does not fit 64 bits"),
        ):  # fmt: skip
            with self.subTest(text), self.assertRaisesRegex(ValueError, said):
                pattern_of(text, 1)

    def test_lines_are_read_alike(self) -> None:
        """What is read at once has nothing wrong word by word, and the other way round."""
        chance, read = random.Random(6), 0
        parts = ["a", "b", "(", ")", ",", " ", "1", "-2", '"x"', '"', "\\", "_", "X", "1.5", "a(1,b)", "a(", ".", "\n"]
        for _ in range(20_000):
            text = "".join(chance.choices(parts, k=chance.randrange(1, 9)))
            try:
                atoms = named_atoms_of(text)
            except LineFault:
                with self.assertRaises(LineFault):
                    facts_of(text)
            else:
                facts = [(fact.symbol, 1 + len(fact.arguments)) for fact in facts_of(text)]
                self.assertEqual(facts, [(atom[0], len(atom)) for atom in atoms])
                read += 1
        self.assertGreater(read, 500)

    def test_numbers_of_any_length(self) -> None:
        rows = [("7", 7), ("-7", -7), ("0", 0), ("-0", 0), ("0" * 5000 + "12", 12), ("-" + "0" * 5000 + "12", -12)]
        rows += [(str(value), value) for value in (2**63 - 1, -(2**63), 2**63, 10**19 - 1)]
        for text, value in rows:
            self.assertEqual(named_atoms_of(f"a({text})"), (("a", value),))
        for text, shown in ((str(10**19), str(10**19)), ("-" + "9" * 5000, "-" + "9" * 37 + "..")):
            with self.assertRaisesRegex(ValueError, f"^the number {re.escape(shown)} does not fit 64 bits$"):
                named_atoms_of(f"a({text})")

    def test_long_lines_are_read_at_once(self) -> None:
        """Each place of a line is tried a few times, whatever comes after much layout."""
        texts = ["a" + LAYOUT + "b", "a(1" + LAYOUT + "b", "a(" + LAYOUT + ")", LAYOUT, "a(1)" + LAYOUT + "b"]
        for read in (atoms_of, named_atoms_of):
            for text in texts:
                # what takes for ever is ended there
                said = said_in_fork(partial(read, text))
                self.assertRegex(said, "^(ValueError: no atom at byte|LineFault: character) [0-9]", text[:10])
