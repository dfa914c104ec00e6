"""What answers mean, and how texts are sent."""

import random
import unittest
from collections import Counter
from collections.abc import Iterable
from pathlib import Path
from tempfile import TemporaryDirectory
from typing import Any
from unittest.mock import patch

import chrrep
from chrrep import Atom, Id, Operation, atoms_of, pieces, refusals, store_text
from chrrep.lines import Lines, text_of
from chrrep.link.log import Program, has_more, position_of, position_text, program_of, program_text
from chrrep.stores import StoreReader
from chrrep.texts import (
    LINE_LIMIT,
    changes_between,
    delta_of,
    found_in,
    line_of,
    program_bytes,
    summary_of,
    text_bytes,
    verdict_of,
)


class Cuts(unittest.TestCase):
    """Lines of what comes in pieces."""

    def test_lines_are_those_of_the_whole(self) -> None:
        chance = random.Random(7)
        for _ in range(300):
            whole = b"".join(chance.choices([b"\n", b"a", b"bc", b"\r", b"\xff"], k=chance.randrange(40)))
            # a piece ends anywhere, and may be empty
            ends = sorted(chance.choices(range(len(whole) + 1), k=chance.randrange(6)))
            lines, given = Lines(100), []
            for start, end in zip([0, *ends], [*ends, len(whole)]):
                given += lines.cut(whole[start:end])
            self.assertEqual(given + lines.last(), whole.split(b"\n"))

    def test_a_line_that_is_too_long_is_given_once(self) -> None:
        lines = Lines(4)
        self.assertEqual(lines.cut(b"abcd\nabcde\nabcdef\n\nab"), [b"abcd", b"abcde", b"abcde", b""])
        # at once when it is known to be too long
        rows = [(b"c", []), (b"d", []), (b"e", [b"abcde"]), (b"fg", []), (b"\nx\n", [b"x"]), (b"12345", [b"12345"])]
        for piece, given in rows:
            self.assertEqual(lines.cut(piece), given)
        self.assertEqual(lines.last(), [])
        self.assertEqual((lines.cut(b"z"), lines.last(), lines.last()), ([], [b"z"], [b""]))

    def test_what_is_too_long_takes_no_room(self) -> None:
        lines, piece = Lines(), b"x" * 65_536
        given = [line for _ in range(500) for line in lines.cut(piece)]
        self.assertEqual((list(map(len, given)), len(lines._line)), ([LINE_LIMIT + 1], LINE_LIMIT + 1))

    def test_texts_of_lines(self) -> None:
        self.assertEqual(text_of("S\u00e3o".encode()), "S\u00e3o")
        for line, place in ((b"a(\xff)", 2), (b"\xc3", 0), (b"abc\xed\xa0\x80", 3)):
            with self.assertRaisesRegex(ValueError, f"byte {place} of the line is no UTF-8"):
                text_of(line)
        self.assertEqual(text_of(b"abcd", 4), "abcd")
        with self.assertRaisesRegex(ValueError, "a line has at most 4 bytes"):
            text_of(b"abcde", 4)


class Texts(unittest.TestCase):
    def test_stores(self) -> None:
        rows: list[tuple[str, tuple[Atom, ...]]] = [
            ("true", ()),
            ("coin", (("coin",),)),
            ("coin, coin, note", (("coin",), ("coin",), ("note",))),
            ("path(1,2,5), a(-9223372036854775808)", (("path", 1, 2, 5), ("a", -9223372036854775808))),
        ]
        for text, atoms in rows:
            with self.subTest(text):
                self.assertEqual(atoms_of(text), atoms)
                self.assertEqual(store_text(atoms), text)

    def test_stores_as_a_person_writes_them(self) -> None:
        self.assertEqual(atoms_of(" path( 1 , -2,3 ) ,b "), (("path", 1, -2, 3), ("b",)))
        for text in ("", ",", "a,", "a b", "a()", "A", "a(X)", "a(1", "a(1,)", "a(1.5)", "a(1)(2)", "?", "a(٣)"):
            with self.subTest(text), self.assertRaises(ValueError):
                atoms_of(text)

    def test_what_is_found_in_a_store(self) -> None:
        store = "a, a(1), a(1,2), a(-1,2), a(-1,22), ab(1,2), b, b, a(12)"
        rows: list[tuple[tuple[Any, ...], str]] = [
            (("a",), "a, a(1), a(1,2), a(-1,2), a(-1,22), a(12)"),
            (("a", None), "a(1), a(12)"),
            (("a", 1), "a(1)"),
            (("a", None, 2), "a(1,2), a(-1,2)"),
            (("a", -1, None), "a(-1,2), a(-1,22)"),
            (("a", None, None), "a(1,2), a(-1,2), a(-1,22)"),
            (("a", None, None, None), "true"),
            (("b",), "b, b"),
            (("true",), "true"),
            (("c",), "true"),
            (("[a]",), "true"),
        ]
        for pattern, found in rows:
            with self.subTest(pattern):
                self.assertEqual(store_text(found_in(store, *pattern)), found)
        self.assertEqual(found_in("true", "a"), ())
        self.assertEqual(found_in("a", "a"), (("a",),))

    def test_changes_between_stores(self) -> None:
        rows = [
            ("true", "true", "true", "true"),
            ("true", "a, b(1,2)", "a, b(1,2)", "true"),
            ("a, a, b(1,2)", "true", "true", "a, a, b(1,2)"),
            ("a, a, b(1,2)", "a, b(1,3), c", "b(1,3), c", "a, b(1,2)"),
        ]
        for before, after, came, went in rows:
            with self.subTest(before=before, after=after):
                self.assertEqual(tuple(map(store_text, changes_between(before, after))), (came, went))

    def test_changes_are_what_one_store_has_beyond_the_other(self) -> None:
        chance = random.Random(3)
        atoms: list[Atom] = [("a",), ("aa",), ("a", 1), ("a", 11), ("b", -1), ("b", 21), ("ba",)]
        for _ in range(2000):
            before, after = (sorted(chance.choices(atoms, k=chance.randrange(6)), key=str) for _ in range(2))
            change = changes_between(store_text(before), store_text(after))
            self.assertEqual(Counter(change.came), Counter(after) - Counter(before))
            self.assertEqual(Counter(change.went), Counter(before) - Counter(after))

    def test_stores_that_are_read_one_after_another(self) -> None:
        chance = random.Random(4)
        atoms: list[Atom] = [("a",), ("aa",), ("a", 1), ("a", 11), ("b", -1), ("b", 21), ("ba",)]
        reader = StoreReader()
        store: list[Atom] = []
        for _ in range(4000):
            store = [atom for atom in store if chance.random() < 0.9] + chance.choices(atoms, k=chance.randrange(3))
            store.sort(key=str)
            self.assertEqual(reader.atoms_of(store_text(store)), tuple(store))

    def test_what_has_not_changed_is_not_read_again(self) -> None:
        read: list[Atom] = []

        def named(atoms: Iterable[Atom]) -> tuple[Atom, ...]:
            new = tuple(atoms)
            read.extend(new)
            return new

        reader = StoreReader(named)
        store: list[Atom] = [("a", number) for number in range(10_000)]
        self.assertEqual(reader.atoms_of(store_text(store)), tuple(store))
        changed: tuple[tuple[int, Atom], ...] = ((5_000, ("a", -1)), (0, ("b", 7)), (9_999, ("c",)))
        for place, atom in changed:
            read.clear()
            store[place] = atom
            self.assertEqual(reader.atoms_of(store_text(store)), tuple(store))
            self.assertLessEqual(len(read), 2)
        read.clear()
        self.assertEqual(reader.atoms_of(store_text(store)), tuple(store))
        self.assertEqual(read, [])
        with patch("chrrep.stores.KEPT_LENGTH", 1_000):
            for _ in range(2):
                read.clear()
                self.assertEqual(reader.atoms_of(store_text(store[1:])), tuple(store[1:]))
            self.assertEqual(len(read), len(store) - 1)

    def test_names_that_come_to_be_known(self) -> None:
        names = {1: "berlin"}
        reader = StoreReader(lambda atoms: tuple((symbol, names.get(int(value), value)) for symbol, value in atoms))
        self.assertEqual(reader.atoms_of("a(1), a(2), a(3)", 1), (("a", "berlin"), ("a", 2), ("a", 3)))
        names[2] = "paris"
        self.assertEqual(reader.atoms_of("a(1), a(2), a(4)", 2), (("a", "berlin"), ("a", "paris"), ("a", 4)))

    def test_programs_in_files(self) -> None:
        with TemporaryDirectory() as room:
            path = Path(room) / "program.chr"
            for text, program in (
                (b"a.\n---\n[1]\n---\n", b"a.\n"),
                (b"a.\r\n---\r\nb.", b"a.\r\n"),
                (b"---", b""),
                (b"a.\n--- \n ---\nb\xff", b"a.\n--- \n ---\nb\xff"),
            ):
                path.write_bytes(text)
                with self.subTest(text), path.open("rb") as file:
                    self.assertEqual([program_bytes(path), program_bytes(file)], [program] * 2)
            path.write_text("\u00e9\n---")
            with path.open() as written:
                self.assertEqual(program_bytes(written), "\u00e9\n".encode())
        self.assertEqual(program_bytes("a.\n---\nb."), b"a.\n---\nb.")

    def test_summaries_and_deltas(self) -> None:
        self.assertEqual(summary_of("[]"), ())
        self.assertEqual(summary_of("[[5,[[1,3],[9,9]]]]"), ((5, ((1, 3), (9, 9))),))
        self.assertEqual(delta_of("[]"), ())
        operation = Operation(Id(5, 9), (("a", -1), ("a", 2)))
        self.assertEqual(delta_of('[[[5,9],[["a",-1],["a",2]]]]'), (operation,))
        self.assertEqual(line_of([operation]), b'[[[5,9],[["a",-1],["a",2]]]]\n')

    def test_what_a_log_keeps(self) -> None:
        position = {7: 2**63 - 1, 0: 4}
        self.assertEqual(position_text(position), "[[0,4],[7,9223372036854775807]]")
        self.assertEqual(position_of(position_text(position)), position)
        for text in (b"", b"% \xff\x00\r\n", "% \u00e9\U0001f600".encode(), bytes(range(256))):
            for program in (Program(text, True), Program(text, False)):
                kept = program_text(program)
                self.assertTrue(kept.isascii() and kept.isprintable())
                self.assertEqual(program_of(kept), program)

    def test_which_positions_have_more(self) -> None:
        self.assertTrue(has_more({1: 3}, {}))
        self.assertTrue(has_more({1: 3, 2: 1}, {1: 2, 2: 5}))
        rows: list[tuple[dict[int, int], dict[int, int]]] = [
            ({}, {1: 1}), ({1: 3}, {1: 3}), ({1: 3}, {1: 4, 2: 1}), ({1: 0}, {})
        ]  # fmt: skip
        for one, other in rows:
            self.assertFalse(has_more(one, other))

    def test_a_line_in_a_text_does_not_end_it(self) -> None:
        self.assertEqual(text_bytes("a.\n---\n---x\n--- \n---\r\nb."), b"a.\n ---\n---x\n--- \n ---\r\nb.")
        self.assertEqual(text_bytes("---"), b" ---")
        self.assertEqual(text_bytes("%---\n---\r\r\n"), b"%---\n---\r\r\n")
        self.assertEqual(text_bytes(b"% \xff\n"), b"% \xff\n")

    def test_pieces(self) -> None:
        operations = [Operation(Id(1, number), (("a", number),)) for number in range(1, 1001)]
        parts = list(pieces(operations, limit=100))
        self.assertEqual([operation for part in parts for operation in part], operations)
        self.assertTrue(all(len(line_of(part)) <= 102 for part in parts))
        self.assertEqual(len(list(pieces(operations))), 1)
        self.assertEqual(list(pieces([])), [])
        long = Operation(Id(1, 1), (("a" * LINE_LIMIT,),))
        self.assertEqual(list(pieces([long, *operations[1:]])), [[long], operations[1:]])


class Verdicts(unittest.TestCase):
    def test_accepted(self) -> None:
        self.assertEqual(verdict_of("accepted: rules 12, cases 541"), chrrep.Verdict(12, 541))
        self.assertIsNone(verdict_of("refused 2"))

    def test_faults_of_texts(self) -> None:
        names = (
            "BadByte TooLong Syntax Propagation Undeclared DeclaredTwice Limit Unbound NumberRange WeightFault Unended"
        )
        for number, name in enumerate(names.split(), 1):
            with self.subTest(name), self.assertRaises(getattr(chrrep, name)) as raised:
                refusals.raise_verdict(f"refused {number}" + ("" if number == 2 else ": clause 7"))
            self.assertEqual(raised.exception.number, number)
            self.assertEqual(raised.exception.clause, None if number == 2 else 7)

    def test_weights(self) -> None:
        with self.assertRaises(chrrep.NotLowered) as raised:
            refusals.raise_verdict("refused 20: rule 2; before 1,0; after 0,12")
        self.assertEqual((raised.exception.rule, raised.exception.before, raised.exception.after), (2, (1, 0), (0, 12)))

    def test_a_case_that_fails(self) -> None:
        with self.assertRaises(chrrep.Overlap) as raised:
            refusals.raise_verdict("refused 21: rules 1 2; matching (0,2); store a(1), a(2); left a(-1); right true")
        case = raised.exception
        self.assertEqual((case.rules, case.matching), ((1, 2), (0, 2)))
        self.assertEqual((case.store, case.left, case.right), ((("a", 1), ("a", 2)), (("a", -1),), ()))

    def test_too_many_types(self) -> None:
        with self.assertRaises(chrrep.TooManyTypes) as raised:
            refusals.raise_verdict("refused 22: rules 1 1; matching (0,0,0,4); classes 28")
        case = raised.exception
        self.assertEqual((case.rules, case.matching, case.classes), ((1, 1), (0, 0, 0, 4), 28))

    def test_what_is_no_verdict(self) -> None:
        for answer in ("", "told", "refused 12: clause 1", "refused 21: rules 1 2", "accepted: rules 1"):
            with self.subTest(answer), self.assertRaises(ValueError):
                refusals.raise_verdict(answer)

    def test_refused_lines(self) -> None:
        names = "BadLine Shape UnknownSymbol Clash Full NoReplica"
        for number, name in enumerate(names.split(), 30):
            with self.subTest(name), self.assertRaises(getattr(chrrep, name)) as raised:
                refusals.raise_refusal(f"refused {number}")
            self.assertEqual(raised.exception.number, number)
        with self.assertRaises(chrrep.Refused) as raised:
            refusals.raise_refusal("refused 77")
        self.assertEqual(raised.exception.number, 77)
        for answer in ("told", "merged 3", "refused(1)", "refused"):
            refusals.raise_refusal(answer)
