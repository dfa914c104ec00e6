"""What a member writes without asking its node: just what the node would take, as it would be written."""

import enum
import random
import unittest
from typing import Any

from chrrep import Node, Refused
from chrrep.link.writing import Writing
from chrrep.texts import atoms_text
from programs import PATHS

PROGRAM = PATHS + ":- chr_constraint coin/0, mark/1.\n"


class Number(enum.IntEnum):
    ONE = 1


VALUES: list[Any] = [0, 7, -1, 2**63 - 1, -(2**63), 2**63, -(2**63) - 1, True, 1.0, "x", None, [1], Number.ONE]


class Writings(unittest.TestCase):
    def test_what_is_written_is_what_the_node_takes(self) -> None:
        chance = random.Random(9)
        names: list[Any] = ["path", "coin", "mark", "marks", "", 7, None, "\u00e9"]
        writing, written, refused = Writing(), 0, 0
        writing.learn([[("path", 1, 2, 3), ("coin",)], [("mark", 1)]])
        with Node(PROGRAM, 1) as node:
            for _ in range(1500):
                # mostly what a node takes
                few = chance.choice((2, 2, 5, len(VALUES)))
                known = names[:3] if chance.random() < 0.9 else names
                sizes = chance.choices((0, 1, 3), k=chance.choice((1, 1, 2, 0)))
                operation = [(chance.choice(known), *chance.choices(VALUES[:few], k=size)) for size in sizes]
                texts = writing.texts([operation])
                if texts is None:
                    refused += self.is_refused(node, operation)
                    continue
                written += 1
                self.assertEqual(texts, [atoms_text(operation)])
                node.admit(*operation)
        self.assertGreater(written, 200)
        self.assertGreater(refused, 200)

    def is_refused(self, node: Node, operation: list[Any]) -> bool:
        try:
            node.admit(*operation)
        except Refused:
            return True
        return False

    def test_many_are_written_as_each_by_itself(self) -> None:
        """Mostly operations of one atom and symbol, which are written by columns."""
        chance = random.Random(11)
        atoms: list[Any] = [("mark", 1), ["mark", 2], ("marks", 1), "mark", (), ("coin",), {"mark": 1, "x": 2}, None, 7]
        writing, written, refused = Writing(), 0, 0
        writing.learn([[("path", 1, 2, 3), ("coin",)], [("mark", 1)]])
        for _ in range(2000):
            operations: list[Any] = [[("mark", chance.choice(VALUES[:5]))] for _ in range(chance.randrange(1, 6))]
            for _ in range(chance.choice((0, 0, 1, 2))):
                others: list[Any] = [[("mark", chance.choice(VALUES))], [chance.choice(atoms)], [("mark", 1)] * 2, []]
                operations[chance.randrange(len(operations))] = chance.choice(others)
            each = [writing.texts([operation]) for operation in operations]
            alone = [text for texts in each if texts for text in texts]
            texts = writing.texts(operations)
            self.assertEqual(texts, alone if all(each) else None)
            written += texts is not None
            refused += texts is None
        self.assertGreater(written, 500)
        self.assertGreater(refused, 500)

    def test_what_the_node_is_asked_of(self) -> None:
        writing = Writing()
        coin: tuple[str] = ("coin",)
        self.assertIsNone(writing.texts([[coin]]))
        writing.learn([[coin]])
        self.assertEqual(writing.texts([[coin], [coin] * 64]), ['[["coin"]]', "[" + ",".join(['["coin"]'] * 64) + "]"])
        others: list[Any] = [[], [coin] * 65, ["coin"], [{}], [()], [None], [("coin", 1)]]
        for operation in others:
            self.assertIsNone(writing.texts([[coin], operation]))
