"""What atoms count for in a log: no less than the rules can make of them, and no more than has to be."""

import random
import unittest
from collections.abc import Iterable, Iterator
from pathlib import Path

import random_programs
import slow_reader
import slow_verdict
from chrrep import Node, atoms_of
from chrrep.link.room import Counting
from chrrep.rules import Rule, rules_of, symbols_of, weights_of
from chrrep.texts import atoms_text, program_bytes, store_text
from programs import COINS, PATHS
from slow_verdict import Pattern, Program

HERE = Path(__file__).resolve().parent
MAKERS = (random_programs.program, random_programs.record_program, random_programs.long_program)
LAYOUTS = ("", "", " ", "\n", "\t", "% a(X) <=> b(X), b(X). c | d @\n")

GROWS = """
    % a rule in a comment: a(X) <=> b(X), b(X), b(X).
    :- chr_constraint x/1, x/2, y/2, z/0.
    :- chr_weight x/1 = 9. :- chr_weight x/2 = 30.
    first @ x(K) <=> y(K,0), y(K,1), y(K,2).
    z \\ x(K,-7) <=> K > 3, K =< 9 | x(K), x(K).
    y(K,A) \\ y(K,A) <=> true.
"""
PAIRS = """
    :- chr_constraint box/0, screw/0, bolt/0, bag/0.
    :- chr_weight screw/0 = 0,1. :- chr_weight bolt/0 = 3. :- chr_weight bag/0 = 0,3.
    unpack @ box <=> bag, screw. trade @ bolt <=> box, bag. bag <=> screw, screw.
"""
JOINED = """
    :- chr_constraint a/0, b/0, c/0.
    :- chr_weight a/0 = 4. :- chr_weight b/0 = 5.
    a, b <=> c, c, c, c, c, c, c, c.
"""


class Countings(unittest.TestCase):
    def test_rules_that_leave_no_more_than_they_take(self) -> None:
        for program in (COINS, PATHS, ":- chr_constraint a/1, b/1.\n:- chr_weight a/1 = 1000000.\na(X) <=> b(X).\n"):
            counting = Counting(program.encode())
            self.assertEqual(counting.of_written(['[["a",1],["a",2]]', '[["b",3]]']), 3)
            self.assertEqual((counting.of_store("true"), counting.of_store("a(1), b(2), coin")), (0, 3))

    def test_what_an_atom_can_come_to(self) -> None:
        # x/1 makes 3 of y/2, and x/2 two of x/1
        rows = [(GROWS, "x(5)", 3), (GROWS, "x(5,6)", 6), (GROWS, "y(1,1), z", 2), (GROWS, "x(1), x(1,2), z", 10)]
        # a bag is 2 screws, a box one of each, a bolt a box and a bag
        rows += [(PAIRS, "screw", 1), (PAIRS, "bag", 2), (PAIRS, "box", 3), (PAIRS, "bolt, bolt", 10)]
        for program, store, wanted in rows:
            with self.subTest(store=store):
                counting = Counting(program.encode())
                self.assertEqual(counting.of_store(store), wanted)
                self.assertEqual(counting.of_written([atoms_text(atoms_of(store))]), wanted)

    def test_atoms_that_come_to_more_together(self) -> None:
        """Each counts for so much that both have room for 8, and neither for less than itself."""
        counting = Counting(JOINED.encode())
        shares = [counting.of_store(atom) for atom in ("a", "b", "c")]
        self.assertEqual((sum(shares[:2]), min(shares), shares[2]), (8, 1, 1))

    def test_no_store_at_rest_has_more_atoms(self) -> None:
        """Of random stores, which a node brings to rest."""
        chance = random.Random(3)
        atoms = {
            GROWS: ["x(5)", "x(5,-7)", "x(6,-7)", "z", "y(5,1)", "y(6,1)"],
            PAIRS: ["box", "screw", "bolt", "bag"],
            JOINED: ["a", "b", "c"],
        }
        for program, known in atoms.items():
            counting = Counting(program.encode())
            for _ in range(20):
                told = [atom for text in chance.choices(known, k=30) for atom in atoms_of(text)]
                with Node(program, 1) as node:
                    node.tell(*told)
                    rest = node.show_text()
                self.assertLessEqual(counting.of_store(rest), counting.of_store(store_text(told)))
                self.assertLessEqual(len(atoms_of(rest)), counting.of_store(rest))


class Readings(unittest.TestCase):
    """What is read of texts that are accepted, beside the slow reader."""

    def test_texts_of_the_repository(self) -> None:
        read = 0
        for path in (*HERE.parents[2].glob("examples/**/*.chr"), *HERE.parent.glob("rows/explanations/*.chr")):
            text = program_bytes(path)
            try:
                self.is_read(text, slow_reader.read(text))
                read += 1
            except slow_reader.Fault:
                pass
        self.assertGreater(read, 90)

    def test_random_programs(self) -> None:
        chance = random.Random(11)
        for at in range(600):
            made = chance.choice(MAKERS)(chance)
            with self.subTest(at=at):
                text = self.laid_out(str(made), chance).encode()
                self.is_read(text, slow_reader.read(text))

    def laid_out(self, text: str, chance: random.Random) -> str:
        """The text with other layout, and with comments."""
        clauses = [slow_reader.tokens(clause) for clause in text.split(".")]
        return ".".join("".join(self.spaced(tokens, chance)) for tokens in clauses)

    def spaced(self, tokens: Iterable[slow_reader.Token], chance: random.Random) -> Iterator[str]:
        before = "sign"
        for kind, token in tokens:
            # words that follow each other are parted
            yield " " if "sign" not in (kind, before) else ""
            yield chance.choice(LAYOUTS) + token
            before = kind

    def is_read(self, text: bytes, wanted: Program) -> None:
        read = text.decode(errors="replace")
        self.assertEqual([rule._replace(name="") for rule in rules_of(read)], list(map(as_read, wanted.rules)))
        self.assertEqual(list(symbols_of(read)), list(wanted.symbols))
        pairs = weights_of(read)
        weights = {symbol: first * slow_reader.RADIX + second for symbol, (first, second) in pairs.items()}
        self.assertEqual({**dict.fromkeys(wanted.symbols, slow_reader.RADIX), **weights}, wanted.symbols)
        self.counts_rightly(text, wanted)

    def counts_rightly(self, text: bytes, wanted: Program) -> None:
        """Whether no rule makes atoms count for more, where each lowers the weight."""
        if not all(wanted.weight(rule.body) < wanted.weight(rule.removed) for rule in wanted.rules):
            return
        counting = Counting(text)

        def share(atoms: Iterable[Pattern]) -> int:
            numbers = (Pattern(atom.name, tuple(0 for _ in atom.terms)) for atom in atoms)
            return counting.of_store(", ".join(map(str, numbers)) or "true")

        for rule in wanted.rules:
            self.assertLessEqual(share(rule.body), share(rule.removed))
        for name, arity in wanted.symbols:
            self.assertGreaterEqual(share([Pattern(name, (0,) * arity)]), 1)


def as_read(rule: slow_verdict.Rule) -> Rule:
    """The rule as the package reads it, without its name. Each variable `_` has a number behind it there."""
    kept, taken, body = (
        [(atom.name, tuple(str(term).partition(" ")[0] for term in atom.terms)) for atom in atoms]
        for atoms in (rule.kept, rule.removed, rule.body)
    )
    return Rule("", kept, taken, [f"{left}{sign}{right}" for left, sign, right in rule.guard], body)
