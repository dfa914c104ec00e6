"""Nodes as processes: what they answer, what they refuse, and how they end."""

import gc
import inspect
import os
import random
import re
import signal
import stat
import subprocess
import sys
import tempfile
import threading
import time
import unittest
from collections.abc import Callable
from contextlib import suppress
from pathlib import Path
from typing import Any
from unittest.mock import patch

import chrrep
from chrrep import ANSWER_SECONDS, Id, Node, NodeDied, Operation, check, explain, pieces, store_text
from chrrep.asynchronous import AsyncNode, join
from chrrep.node import UNASKED, program_path
from chrrep.process import Process
from chrrep.texts import LINE_LIMIT, OperationText
from forks import Fork, said_in_fork
from programs import COINS, PATHS, PLAIN, REGISTER, THRONGS, store_of

SECONDS = 20.0
"""Far longer than any call here takes."""

TOLD_LIMIT = 1_000_000
OPERATION_ATOMS = 64


def is_running(pid: int) -> bool:
    """Whether there is a process of this id, a dead one that nobody waited for included."""
    try:
        os.kill(pid, 0)
    except ProcessLookupError:
        return False
    return True


def has_ended(pid: int) -> bool:
    """Whether the process is gone, or dead and waits to be noticed by whoever took it over."""
    try:
        state = Path(f"/proc/{pid}/stat").read_text().rpartition(")")[2].split()[0]
    except (FileNotFoundError, ProcessLookupError):
        return True
    return state in "ZX"


class Answers(unittest.TestCase):
    def test_a_store_comes_to_rest(self) -> None:
        with Node(COINS, 1) as node:
            self.assertEqual(node.verdict, chrrep.Verdict(1, 6))
            self.assertEqual(node.show(), ())
            self.assertEqual(node.tell(*[("coin",)] * 5), Id(1, 1))
            self.assertEqual(node.show(), (("coin",), ("note",), ("note",)))
            self.assertEqual(node.tell(("coin",)), Id(1, 2))
            self.assertEqual(list(node), [("note",)] * 3)

    def test_nodes_exchange_what_they_lack(self) -> None:
        with Node(PATHS, 1) as left, Node(PATHS, 2) as right:
            left.tell(("path", 1, 2, 7), ("path", 1, 3, 4))
            right.tell(("path", 1, 2, 5))
            right.tell(("path", 2, 3, -1))
            self.assertEqual(left.summary(), ((1, ((1, 1),)),))
            delta = right.lacks(left.summary())
            self.assertEqual(
                delta, (Operation(Id(2, 1), (("path", 1, 2, 5),)), Operation(Id(2, 2), (("path", 2, 3, -1),)))
            )
            self.assertEqual(left.merge(delta), 2)
            self.assertEqual(left.merge(delta), 0)
            self.assertEqual(right.merge(left.lacks(right.summary())), 1)
            self.assertEqual(left.summary(), ((1, ((1, 1),)), (2, ((1, 2),))))
            self.assertEqual(left.show(), (("path", 1, 2, 5), ("path", 1, 3, 4), ("path", 2, 3, -1)))
            self.assertEqual(left.show(), right.show())
            self.assertEqual(left.lacks(right.summary()), ())

    def test_rows_of_exchange(self) -> None:
        with Node(PLAIN, 1) as node:
            held = Operation(Id(5, 9), (("a", 2), ("a", -1)))
            self.assertEqual(node.merge([held]), 1)
            self.assertEqual(node.summary(), ((5, ((9, 9),)),))
            self.assertEqual(node.lacks(()), (Operation(Id(5, 9), (("a", -1), ("a", 2))),))
            self.assertEqual(node.lacks(((5, ((0, 2**64 - 1),)),)), ())
            with self.assertRaises(chrrep.Shape):
                node.lacks(((5, ((10, 9),)),))
            self.assertEqual(node.merge([]), 0)
            self.assertEqual(node.merge([held]), 0)
            again = Operation(Id(5, 10), (("a", 0),))
            self.assertEqual(node.merge([again, again]), 1)

    def test_numbers_go_on_after_own_operations_came_back(self) -> None:
        with Node(PLAIN, 7) as first, Node(PLAIN, 7) as second:
            for value in range(3):
                first.tell(("a", value))
            second.merge(first.lacks(second.summary()))
            self.assertEqual(second.next_id, Id(7, 4))
            self.assertEqual(second.tell(("a", 3)), Id(7, 4))
            second.merge([Operation(Id(8, 100), (("a", 4),))])
            self.assertEqual(second.tell(("a", 5)), Id(7, 5))

    def test_lists_are_taken_as_json_gives_them(self) -> None:
        delta: Any = [[[2, 1], [["a", 1], ["a", 2]]]]
        with Node(PLAIN, 1) as node:
            self.assertEqual(node.merge(delta), 1)
            summary: Any = [[1, [[1, 1]]]]
            self.assertEqual(node.lacks(summary), (Operation(Id(2, 1), (("a", 1), ("a", 2))),))

    def test_any_order_gives_the_store_of_one_run(self) -> None:
        chance = random.Random(19)
        told = [
            Operation(
                Id(origin, number),
                tuple(("path", chance.randrange(9), chance.randrange(9), chance.randrange(-50, 50)) for _ in range(3)),
            )
            for origin in range(1, 6)
            for number in range(1, 61)
        ]
        wanted = store_of(PATHS, told)
        for _ in range(3):
            chance.shuffle(told)
            with Node(PATHS, 1) as node:
                for at in range(0, len(told), 50):
                    node.merge(told[at : at + 50] + chance.choices(told[: at + 50], k=10))
                    if chance.random() < 0.5:
                        node.show()
                self.assertEqual(node.show(), wanted)

    def test_many_are_told_at_once(self) -> None:
        with Node(PLAIN, 1) as node:
            self.assertEqual(node.tell(("a", 0)), Id(1, 1))
            ids = node.tell_many([[("a", value), ("a", -value)] for value in range(1, 1001)])
            self.assertEqual(ids, [Id(1, number) for number in range(2, 1002)])
            self.assertEqual(node.tell_many([]), [])
            self.assertEqual(len(node.show()), 2001)
            self.assertEqual(node.show_text(), store_text(node.show()))
            with self.assertRaises(chrrep.UnknownSymbol):
                node.tell_many([[("a", 1)], [("b", 1)]])
            self.assertEqual(node.tell_many([[("a", 1)]]), [Id(1, 1002)])

    def test_answers_that_are_not_waited_for(self) -> None:
        with Node(PLAIN, 1) as node:
            for number in range(1, 4):
                node.merge_soon([OperationText(Id(2, number), f'[["a",{number}]]')])
            self.assertEqual(node.show(), (("a", 1), ("a", 2), ("a", 3)))
            node.merge_soon([OperationText(Id(2, 4), '[["a",4]]')])
            with self.assertRaises(chrrep.UnknownSymbol):
                node.tell(("b",))
            self.assertEqual(node.tell(("a", 5)), Id(1, 1))
            # what it was sure to take and refuses leaves it behind its user
            node.merge_soon([OperationText(Id(2, 5), '[["b"]]')])
            for _ in range(2):
                with self.assertRaisesRegex(NodeDied, "didn't take what it was sent: refused 32"):
                    node.show()
        with Node(PLAIN, 1, timeout=1.0) as node:
            os.kill(node.pid, signal.SIGSTOP)
            with self.assertRaisesRegex(NodeDied, "no answer within 1.0 seconds"):
                for number in range(1, 20):
                    node.merge_soon([OperationText(Id(2, number), f'[["a",{number}]]')])
            # it is sent a few lines before it is waited for
            self.assertGreater(number, 2)
        with Node(PLAIN, 1) as node:
            os.kill(node.pid, signal.SIGKILL)
            with self.assertRaisesRegex(NodeDied, "the node died"):
                for number in range(3):
                    time.sleep(0.2)
                    node.merge_soon([OperationText(Id(2, number), f'[["a",{number}]]')])

    def test_parts_of_a_store_are_shown(self) -> None:
        with Node(PATHS, 1) as node:
            node.tell(("path", 1, 2, 7), ("path", 1, 3, 4), ("path", 2, 3, -1))
            self.assertEqual(node.show("path", 1, None, None), (("path", 1, 2, 7), ("path", 1, 3, 4)))
            self.assertEqual(node.show("path", None, 3, -1), (("path", 2, 3, -1),))
            self.assertEqual((node.count("path"), node.count("path", None, 3, None)), (3, 2))
            self.assertEqual((node.show("path", 9, None, None), node.count("path", -(2**63), None, None)), ((), 0))

    def test_a_node_says_what_it_is(self) -> None:
        with Node(COINS, 7) as node:
            self.assertEqual(repr(node), f"<chrrep.Node of origin 7, process {node.pid}, rules 1>")
        self.assertIn("ended", repr(node))

    def test_threads_share_a_node(self) -> None:
        ids: list[Id] = []
        with Node(PLAIN, 1) as node:

            def tell(place: int) -> None:
                for value in range(50):
                    ids.append(node.tell(("a", 50 * place + value)))

            threads = [threading.Thread(target=tell, args=(place,)) for place in range(8)]
            for thread in threads:
                thread.start()
            for thread in threads:
                thread.join(SECONDS)
            self.assertEqual(sorted(ids), [Id(1, number) for number in range(1, 401)])
            self.assertEqual(node.show(), tuple(("a", value) for value in range(400)))


class Refusals(unittest.TestCase):
    def refuses(self, node: Node, kind: type[chrrep.Refused], call: Any, *values: Any) -> None:
        """The call is refused, and the node holds and shows what it did."""
        before = (node.summary(), node.show(), node.next_id)
        with self.assertRaises(kind) as raised:
            call(*values)
        self.assertIs(type(raised.exception), kind)
        self.assertEqual((node.summary(), node.show(), node.next_id), before)

    def test_lines_that_are_refused_change_nothing(self) -> None:
        with Node(PLAIN, 1) as node:
            node.tell(("a", 1))
            rows: list[tuple[type[chrrep.Refused], list[Any]]] = [
                (chrrep.BadLine, [("a", float("nan"))]),
                (chrrep.Shape, []),
                (chrrep.Shape, [("a", 1)] * 65),
                (chrrep.Shape, [("a", 1.5)]),
                (chrrep.Shape, [("a", True)]),
                (chrrep.Shape, [("a", 2**63)]),
                (chrrep.Shape, [(3,)]),
                (chrrep.UnknownSymbol, [("a",)]),
                (chrrep.UnknownSymbol, [("a", 1), ("b", 1)]),
                (chrrep.UnknownSymbol, [("\n", 1)]),
            ]
            for kind, atoms in rows:
                with self.subTest(atoms=atoms):
                    self.refuses(node, kind, node.tell, *atoms)
                    self.refuses(node, kind, node.admit, *atoms)
            node.admit(("a", 5))
            self.assertEqual(node.show(), (("a", 1),))
            self.assertEqual(node.tell(("a", 2)), Id(1, 2))

    def test_what_is_wrong_is_said(self) -> None:
        program = "% :- chr_constraint no/1.\n:- chr_constraint path/3,\n  coin/0 , path/ 1.\n:- chr_constraint a/1."
        rows: list[tuple[list[Any], str]] = [
            ([], "an operation has 1 to 64 atoms, and this one has 0"),
            ([("a", 1)] * 65, "an operation has 1 to 64 atoms, and this one has 65"),
            ([("a", 1), ("path", 1, 2.5, 3)], "argument 2 of ('path', 1, 2.5, 3) is a float, and not a whole number"),
            ([("a", float("nan"))], "argument 1 of ('a', nan) is a float, and not a whole number"),
            ([("a", True)], "argument 1 of ('a', True) is a bool, and not a whole number"),
            ([("a", "berlin")], "argument 1 of ('a', 'berlin') is a string, and not a whole number"),
            ([("a", None)], "argument 1 of ('a', None) is None, and not a whole number"),
            ([("a", (1,))], "argument 1 of ('a', [1]) is a list, and not a whole number"),
            ([("a", -(2**63) - 1)], "argument 1 of ('a', -9223372036854775809) does not fit 64 bits"),
            ([(3,)], "(3,) is no atom, which is a name and its arguments"),
            ([()], "() is no atom, which is a name and its arguments"),
            ([7], "7 is no atom, which is a name and its arguments"),
            ([("a\ud800", 1)], "the name of ('a\\ud800', 1) has a lone surrogate, which no text has"),
            ([("a",)], "'a' is declared with 1 arguments, and not with 0"),
            ([("path", 1, 2)], "'path' is declared with 3 or 1 arguments, and not with 2"),
            ([("a", 1), ("paths", 1, 2, 3)], "no symbol 'paths' is declared: is 'path' meant?"),
            ([("no", 1)], "no symbol 'no' is declared"),
            ([("x" * 200,)], f"no symbol 'x{'x' * 76}.. is declared"),
        ]
        with Node(program, 1) as node:
            for atoms, said in rows:
                calls: list[Callable[[], object]] = [
                    lambda atoms=atoms: node.tell(*atoms),  # type: ignore[misc]
                    lambda atoms=atoms: node.admit(*atoms),  # type: ignore[misc]
                    lambda atoms=atoms: node.tell_many([[("a", 1)], atoms]),  # type: ignore[misc]
                ]
                for call in calls:
                    with self.subTest(said), self.assertRaises(chrrep.Refused) as raised:
                        call()
                    self.assertRegex(str(raised.exception), rf"^\w+: refused 3[012]: {re.escape(said)}$")
            self.assertEqual(node.summary(), ())

    def test_what_cannot_be_shown_is_refused(self) -> None:
        """As a tell of it would be, and with the names of its columns."""
        program = "% chr_columns path(from, to, length)\n:- chr_constraint path/3, coin/0.\n"
        rows: list[tuple[type[chrrep.Refused], list[Any], str]] = [
            (chrrep.UnknownSymbol, ["paths"], "no symbol 'paths' is declared: is 'path' meant?"),
            (chrrep.UnknownSymbol, ["paths", 1], "no symbol 'paths' is declared: is 'path' meant?"),
            (chrrep.UnknownSymbol, ["path", 1, 2], "'path' is declared with 3 arguments, and not with 2"),
            (chrrep.UnknownSymbol, ["coin", None], "'coin' is declared with 0 arguments, and not with 1"),
            (chrrep.Shape, ["path", None, 2.5, 3],
             "argument 2 (to) of ('path', None, 2.5, 3) is a float, and not a whole number"),
            (chrrep.Shape, ["path", True, 2, 3],
             "argument 1 (from) of ('path', True, 2, 3) is a bool, and not a whole number"),
            (chrrep.Shape, ["path", 1, "x", None],
             "argument 2 (to) of ('path', 1, 'x', None) is a string, and not a whole number"),
            (chrrep.Shape, ["path", 1, b"x", None],
             "argument 2 (to) of ('path', 1, b'x', None) is a bytes, and not a whole number"),
            (chrrep.Shape, ["path", 1, 2, 2**63],
             "argument 3 (length) of ('path', 1, 2, 9223372036854775808) does not fit 64 bits"),
            (chrrep.Shape, [7], "(7,) is no atom, which is a name and its arguments"),
        ]  # fmt: skip
        with Node(program, 1) as node:
            for kind, pattern, said in rows:
                calls: list[Callable[..., object]] = [node.show, node.count]
                for call in calls:
                    with self.subTest(said), self.assertRaises(kind) as raised:
                        call(*pattern)
                    self.assertEqual(str(raised.exception), f"{kind.__name__}: {said}")
            with self.assertRaisesRegex(chrrep.Shape, "argument 2 \\(to\\) of .* is a float"):
                node.tell(("path", 1, 2.5, 3))  # type: ignore[arg-type]
            self.assertEqual(node.show("coin"), ())

    def test_merges_are_taken_in_whole_or_not(self) -> None:
        with Node(PLAIN, 1) as node:
            node.tell(("a", 1))
            new = Operation(Id(2, 1), (("a", 2),))
            other = Operation(Id(1, 1), (("a", 3),))
            self.refuses(node, chrrep.Clash, node.merge, [new, other])
            self.refuses(node, chrrep.Clash, node.merge, [new, new._replace(atoms=(("a", 4),))])
            self.refuses(node, chrrep.UnknownSymbol, node.merge, [new, Operation(Id(1, 5), (("b",),))])
            self.refuses(node, chrrep.Shape, node.merge, [new, Operation(Id(1, 5), ())])
            self.refuses(node, chrrep.Shape, node.merge, [new, Operation(Id(2**32, 5), (("a", 1),))])
            self.assertEqual(node.merge([new]), 1)

    def test_a_long_delta_goes_in_pieces(self) -> None:
        atoms = tuple(("a", -(10**18) - value) for value in range(OPERATION_ATOMS))
        delta = [Operation(Id(2, number), atoms) for number in range(1, 1 + LINE_LIMIT // (25 * OPERATION_ATOMS) + 50)]
        with Node(PLAIN, 1) as node:
            self.refuses(node, chrrep.BadLine, node.merge, delta)
            parts = list(pieces(delta))
            self.assertEqual(len(parts), 2)
            self.assertEqual(sum(map(node.merge, parts)), len(delta))

    def test_the_limit_of_told_atoms(self) -> None:
        atoms = (("a", 1),) * OPERATION_ATOMS
        whole = [Operation(Id(2, number), atoms) for number in range(1, TOLD_LIMIT // OPERATION_ATOMS)]
        with Node(":- chr_constraint a/1.\na(X) \\ a(Y) <=> X =< Y | true.\n", 1) as node:
            for part in pieces(whole):
                node.merge(part)
            # the limit is a multiple of an operation's
            self.assertEqual(node.tell(*atoms), Id(1, 1))
            self.refuses(node, chrrep.Full, node.tell, ("a", 1))
            self.assertEqual(node.show(), (("a", 1),))

    def test_values_without_json_never_leave(self) -> None:
        with Node(PLAIN, 1) as node:
            for value in (object(), {1}, b"1"):
                with self.subTest(value=value), self.assertRaises(TypeError):
                    node.tell(("a", value))  # type: ignore[arg-type]
            self.assertEqual(node.tell(("a", 1)), Id(1, 1))

    def test_an_origin_out_of_range(self) -> None:
        with Node(PLAIN, 2**32) as node:
            self.refuses(node, chrrep.Shape, node.tell, ("a", 1))


PROGRAMS: list[tuple[type[chrrep.Refused], str | bytes, dict[str, Any]]] = [
    (chrrep.BadByte, "a\u00e9.", {"clause": 1}),
    (chrrep.TooLong, " " * 70_000, {"clause": None}),
    (chrrep.Syntax, ":- chr_constraint a/0. a <=> fail.", {"clause": 2}),
    (chrrep.Propagation, ":- chr_constraint a/0. a ==> true.", {"clause": 2}),
    (chrrep.Undeclared, ":- chr_constraint a/1. a(X) <=> b(X).", {"clause": 2}),
    (chrrep.DeclaredTwice, ":- chr_constraint a/1, a/1.", {"clause": 1}),
    (chrrep.Limit, ":- chr_constraint a/7.", {"clause": 1}),
    (chrrep.Unbound, ":- chr_constraint a/1. a(X) <=> Y > 1 | true.", {"clause": 2}),
    (chrrep.NumberRange, ":- chr_constraint a/1. a(9223372036854775808) <=> true.", {"clause": 2}),
    (chrrep.WeightFault, ":- chr_constraint a/0. :- chr_weight a/0 = 0.", {"clause": 2}),
    (chrrep.Unended, ":- chr_constraint a/0. a <=> true", {"clause": 2}),
    (
        chrrep.NotLowered,
        ":- chr_constraint a/0, b/0. :- chr_weight b/0 = 2. a <=> b.",
        {"rule": 1, "before": (1,), "after": (2,)},
    ),
    (
        chrrep.Overlap,
        ":- chr_constraint throw/0, head/0, tail/0. :- chr_weight throw/0 = 2. throw <=> head. throw <=> tail.",
        {
            "rules": (1, 2),
            "matching": (1,),
            "store": (("throw",),),
            "left": (("head",),),
            "right": (("tail",),),
        },
    ),
    (chrrep.TooManyTypes, THRONGS, {"rules": (1, 1)}),
    # a line that ends the text where it is sent is a fault within it
    (chrrep.Syntax, PLAIN + "---\n" + ":- chr_constraint b/1.\n", {"clause": 2}),
    (chrrep.Syntax, PLAIN + '---\r\n["tell",1,[1,1],[["a",1]]]\n.', {"clause": 2}),
    (chrrep.Unended, PLAIN + "---", {"clause": 2}),
]


class Programs(unittest.TestCase):
    def refusal(self, kind: type[chrrep.Refused], call: Any, program: str | bytes) -> chrrep.Refused:
        with self.assertRaises(kind) as raised:
            call(program)
        self.assertIs(type(raised.exception), kind)
        return raised.exception

    def test_refused_programs(self) -> None:
        for kind, program, case in PROGRAMS:
            with self.subTest(program=program[:60]):
                for call in (check, lambda text: Node(text, 1)):
                    refusal = self.refusal(kind, call, program)
                    self.assertEqual({name: getattr(refusal, name) for name in case}, case)

    def test_refused_programs_are_explained(self) -> None:
        rows = [
            ("a(1) <=> true.", "^Undeclared: refused 5: clause 1: line 1, column 1, clause 1, fault 5: ", "declared"),
            (" " * 70_000, "^TooLong: refused 2: fault 2: the text has more than 65536 bytes$", "65536 bytes"),
            (":- chr_constraint a/0, b/0. a <=> b.", "after 1: rule 1 does not lower the weight$", "a <=> b."),
            (COINS + "coin <=> true.", "true: one store comes to two ends$", "The other way:"),
        ]
        calls: list[Callable[[str], object]] = [check, lambda text: Node(text, 1)]
        for text, said, explained in rows:
            for call in calls:
                with self.subTest(text=text[:40]), self.assertRaisesRegex(chrrep.RefusedProgram, said) as raised:
                    call(text)
                self.assertIn(explained, raised.exception.explain())
        self.assertIn("Every store comes to one end", chrrep.explain(COINS))

    def test_accepted_programs(self) -> None:
        self.assertEqual(check(PATHS), chrrep.Verdict(1, 541))
        texts: list[str | bytes] = ["", "% a. b", b"% \xff \n", PATHS.rstrip(), PATHS.replace("\n", "\r\n")]
        for program in (*texts, "%---\n  % ---\n" + PATHS):
            with self.subTest(program=program), Node(program, 1) as node:
                self.assertEqual(node.verdict, check(program))
                self.assertEqual(node.show(), ())

    def test_programs_judged_by_sorted_cases(self) -> None:
        rule = ":- chr_constraint p/4.\np(K,A,B,C) \\ p(K,D,E,F) <=> A < D | true.\n"
        self.assertEqual(check(PATHS, wide=True), chrrep.Verdict(1, 17, True))
        self.assertEqual(check(rule, wide=True), chrrep.Verdict(1, 6, True))
        with Node(rule, 1, wide=True) as wide, Node(rule, 2) as other:
            wide.tell(("p", 1, 7, 0, 0))
            other.tell(("p", 1, 5, 3, 2), ("p", 2, 9, 0, 0))
            wide.merge(other.lacks(wide.summary()))
            self.assertEqual(wide.verdict, chrrep.Verdict(1, 6, True))
            self.assertEqual(wide.show(), (("p", 1, 5, 3, 2), ("p", 2, 9, 0, 0)))

    def test_programs_are_judged_by_the_cases_that_decide(self) -> None:
        """By sorted cases only where there are too many joint ones, or where they are asked for."""
        calls: list[Callable[..., chrrep.Verdict]] = [check, lambda text, **more: self.verdict_of_node(text, **more)]
        for judge in calls:
            self.assertEqual(judge(PATHS), chrrep.Verdict(1, 541, False))
            self.assertEqual(judge(PATHS, wide=True), chrrep.Verdict(1, 17, True))
            self.assertEqual(judge(REGISTER), chrrep.Verdict(3, 1230, True))
            with self.assertRaisesRegex(chrrep.TooManyTypes, "too many joint cases .* wide=True, or leave it out$"):
                judge(REGISTER, wide=False)
            for wide in (None, True):
                with self.assertRaisesRegex(chrrep.TooManyTypes, "compare fewer columns, .*`chrrep explain`") as raised:
                    judge(THRONGS, wide=wide)
                self.assertNotIn("\n", str(raised.exception))
                self.assertIn("best/6: by order 2, 3, 4, 5; by equality 6", raised.exception.explain())

    def verdict_of_node(self, text: str, **more: Any) -> chrrep.Verdict:
        with Node(text, 1, **more) as node:
            node.show()
            return node.verdict

    def test_a_program_is_judged_once_more_at_most(self) -> None:
        words: list[list[str]] = []

        class Noted(Process):
            def __init__(self, said: list[str]) -> None:
                words.append(said[1:])
                super().__init__(said)

        joint, sorted_ = ["serve"], ["serve", "--wide"]
        rows: list[tuple[str, bool | None, list[list[str]]]] = [
            (PATHS, None, [joint]), (REGISTER, None, [joint, sorted_]), (THRONGS, None, [joint, sorted_]),
            (REGISTER, True, [sorted_]), (REGISTER, False, [joint]), (COINS + "coin <=> true.", None, [joint]),
        ]  # fmt: skip
        for text, wide, said in rows:
            words.clear()
            with patch("chrrep.node.Process", Noted), suppress(chrrep.RefusedProgram), Node(text, 1, wide=wide) as node:
                self.assertEqual(node.tell_many([]), [])
            self.assertEqual(words, said)

    def test_wide_is_told_of_in_the_same_words(self) -> None:
        top = Path(__file__).resolve().parents[3]
        told = [(top / "docs" / name).read_text() for name in ("GUIDE.md", "REFERENCE.md", "NODES.md")]
        for words in ([program_path(), "check"], [sys.executable, "-B", "-m", "chrrep.link"]):
            env = {**os.environ, "PYTHONPATH": str(top / "python")}
            ended = subprocess.run([*words, "--help"], capture_output=True, text=True, env=env, check=False)
            told.append(ended.stdout + ended.stderr)
        for text in told:
            self.assertIn("by the columns that rules compare: more programs are decided", " ".join(text.split()))


class Ends(unittest.TestCase):
    def test_leaving_ends_the_process(self) -> None:
        with Node(PLAIN, 1) as node:
            self.assertTrue(is_running(node.pid))
        self.assertFalse(is_running(node.pid))
        node.close()
        with self.assertRaisesRegex(NodeDied, "closed"):
            node.show()

    def test_a_call_that_has_no_answer_in_time(self) -> None:
        with Node(PLAIN, 1, timeout=SECONDS) as node:
            node.tell(("a", 1))
            self.assertEqual(node.show(), (("a", 1),))
        long = [(("a", value),) * OPERATION_ATOMS for value in range(1000)]
        calls: list[Callable[[Node], object]] = [Node.show, lambda node: node.tell_many(long)]
        for call in calls:
            with Node(PLAIN, 1, timeout=2.0) as node:
                os.kill(node.pid, signal.SIGSTOP)
                for _ in range(2):
                    with self.assertRaisesRegex(NodeDied, "no answer within 2.0 seconds"):
                        call(node)
                self.assertFalse(is_running(node.pid))

    def test_a_limit_of_time_costs_no_thread(self) -> None:
        with Node(PLAIN, 1, timeout=SECONDS) as node, patch.object(threading.Thread, "start") as started:
            for value in range(10):
                node.tell(("a", value))
            node.merge_soon([OperationText(Id(2, 1), '[["a",10]]')])
            self.assertEqual(node.count("a"), 11)
            started.assert_not_called()

    def test_an_answer_of_many_readings_comes_in_whole(self) -> None:
        with Node(PLAIN, 1) as node:
            node.tell_many([[("a", value)] for value in range(100_000)])
            self.assertEqual(node.show_text(), ", ".join(f"a({value})" for value in range(100_000)))
            self.assertEqual(node.show("a", 99_999), (("a", 99_999),))

    def test_a_node_outlives_a_ctrl_c_that_its_user_takes(self) -> None:
        """What is typed at a terminal is sent to the user's whole group."""
        script = f"""
import signal
from chrrep import Node
# whoever runs the tests in the background may have had it ignored
signal.signal(signal.SIGINT, signal.default_int_handler)
with Node({PLAIN!r}, 1) as node:
    node.tell(("a", 1))
    try:
        print(node.pid, flush=True)
        signal.pause()
    except KeyboardInterrupt:
        print(node.tell(("a", 2)), node.show_text())
"""
        with self.user(script, start_new_session=True) as user:
            assert user.stdout
            pid = int(user.stdout.readline())
            os.killpg(user.pid, signal.SIGINT)
            self.assertEqual(user.stdout.read(), b"Id(origin=1, number=2) a(1), a(2)\n")
            self.assertEqual(user.wait(SECONDS), 0)
        self.assertTrue(has_ended(pid))

    def user(self, script: str, **more: Any) -> "subprocess.Popen[bytes]":
        """A program that uses the package."""
        return subprocess.Popen(
            [sys.executable, "-B", "-c", script],
            stdin=subprocess.PIPE,
            stdout=subprocess.PIPE,
            env={**os.environ, "PYTHONPATH": str(Path(chrrep.__file__).resolve().parents[1])},
            **more,
        )

    def test_a_node_that_is_dropped_ends_its_process(self) -> None:
        node = Node(PLAIN, 1)
        pid = node.pid
        del node
        gc.collect()
        self.assertFalse(is_running(pid))

    def test_a_fault_of_the_user_ends_the_process(self) -> None:
        with self.assertRaises(ZeroDivisionError), Node(PLAIN, 1) as node:
            raise ZeroDivisionError
        self.assertFalse(is_running(node.pid))

    def test_a_killed_node_is_an_exception(self) -> None:
        with Node(PLAIN, 1) as node:
            node.tell(("a", 1))
            os.kill(node.pid, signal.SIGKILL)
            calls: list[Callable[[], object]] = [node.show, node.summary, lambda: node.tell(("a", 2))]
            for call in calls:
                with self.assertRaises(NodeDied) as raised:
                    call()
                self.assertEqual(raised.exception.status, -signal.SIGKILL)
            self.assertFalse(is_running(node.pid))

    def test_a_node_ends_with_its_user(self) -> None:
        script = f"from chrrep import Node\nnode = Node({PLAIN!r}, 1)\nprint(node.pid, flush=True)\ninput()"
        with self.user(script) as user:
            assert user.stdout
            pid = int(user.stdout.readline())
            self.assertFalse(has_ended(pid))
            user.kill()
        end = time.monotonic() + SECONDS
        while not has_ended(pid) and time.monotonic() < end:
            time.sleep(0.05)
        self.assertTrue(has_ended(pid))

    def test_a_node_that_is_killed_at_any_moment(self) -> None:
        chance = random.Random(4)
        for _ in range(8):
            with Node(PLAIN, 1) as node:
                killer = threading.Timer(chance.random() / 50, os.kill, (node.pid, signal.SIGKILL))
                killer.start()
                told = 0
                end = time.monotonic() + SECONDS
                with self.assertRaises(NodeDied):
                    while time.monotonic() < end:
                        told = node.tell(("a", told)).number
                killer.join()
            self.assertFalse(is_running(node.pid))


class Forks(unittest.TestCase):
    REFUSED = "WrongProcess: this node is another process's: a fork makes its own"

    def test_a_fork_has_no_node_of_its_parent(self) -> None:
        with Node(PLAIN, 1) as node:
            node.tell(("a", 1))
            new = OperationText(Id(2, 1), '[["a",2]]')
            calls: list[Callable[[], object]] = [node.show, node.summary, lambda: node.tell(("a", 3))]
            calls += [lambda: node.admit(("a", 3)), lambda: node.merge_soon([new]), lambda: node.merge_texts([new])]
            for call in calls:
                self.assertEqual(said_in_fork(call), self.REFUSED)
            # to close it there does no harm, nor does it to make another
            self.assertEqual(said_in_fork(node.close), "None")
            self.assertEqual(said_in_fork(lambda: Node(PLAIN, 2).tell(("a", 1))), "Id(origin=2, number=1)")
            self.assertIn("another process's", said_in_fork(lambda: node))
            self.assertEqual(node.tell(("a", 2)), Id(1, 2))
            self.assertEqual(node.show(), (("a", 1), ("a", 2)))

    def test_a_fork_waits_for_no_thread_of_its_parent(self) -> None:
        with Node(PLAIN, 1) as node:
            os.kill(node.pid, signal.SIGSTOP)
            asking = threading.Thread(target=node.show)
            asking.start()
            end = time.monotonic() + SECONDS
            while node._lock.acquire(blocking=False):
                node._lock.release()
                self.assertLess(time.monotonic(), end)
                time.sleep(0.01)
            said = said_in_fork(node.show)
            os.kill(node.pid, signal.SIGCONT)
            asking.join(SECONDS)
            self.assertEqual((said, node.show()), (self.REFUSED, ()))

    def test_a_fork_does_not_keep_a_node_from_ending(self) -> None:
        with self.assertLogs("chrrep", "DEBUG") as logged, Node(PLAIN, 1) as node:
            with Fork(lambda: 7) as fork:
                self.assertEqual(fork.said(), "7")
                node.close()
        self.assertEqual(logged.output[-1], f"DEBUG:chrrep.node:process {node.pid} ended with status 0")


class StandIns(unittest.TestCase):
    """Programs that stand in for a faulty one."""

    def program(self, script: str) -> str:
        room = tempfile.TemporaryDirectory()
        self.addCleanup(room.cleanup)
        path = Path(room.name) / "program"
        path.write_text("#!/bin/sh\n" + script)
        path.chmod(path.stat().st_mode | stat.S_IXUSR)
        return str(path)


class Stand(StandIns):
    def dies(self, script: str, status: int | None) -> None:
        with self.assertRaises(NodeDied) as raised, Node(PLAIN, 1, chrrep=self.program(script)) as node:
            node.show()
        self.assertEqual(raised.exception.status, status)

    def test_programs_that_end_early(self) -> None:
        verdict = "echo accepted: rules 0, cases 0\n"
        self.dies("exit 2", 2)
        self.dies("exec <&-; exit 4", 4)
        self.dies("printf accepted:; exit 3", 3)
        self.dies(verdict + "exit 0", 0)
        self.dies(verdict + "read text; read end; read line; printf 'a(1), a(2'; exit 3", 3)
        self.dies(verdict + "kill -KILL $$", -signal.SIGKILL)

    def test_a_check_without_a_verdict(self) -> None:
        for script in ("exit 4", "exit 0", "printf accepted:; exit 3"):
            with self.subTest(script), self.assertRaises(NodeDied):
                check(PLAIN, chrrep=self.program(script))

    def test_a_verdict_that_takes_too_long(self) -> None:
        late = self.program("exec sleep 60")
        calls: list[Callable[[], object]] = [
            lambda: check(PLAIN, chrrep=late, timeout=0.2),
            lambda: explain(PLAIN, chrrep=late, timeout=0.2),
            lambda: Node(PLAIN, 1, chrrep=late, timeout=0.2),
        ]
        for call in calls:
            with self.assertRaisesRegex(NodeDied, "no answer within 0.2 seconds"):
                call()
        self.assertEqual(check(PLAIN, timeout=SECONDS).rules, 0)

    def test_answers_have_a_limit_of_time_where_none_is_asked_for(self) -> None:
        self.assertEqual(ANSWER_SECONDS, 60.0)
        calls: list[Callable[..., object]] = [Node, AsyncNode, join]
        for call in calls:
            self.assertIs(inspect.signature(call).parameters["timeout"].default, UNASKED)
        # a verdict has none, and may take minutes
        late = self.program("sleep 1; echo accepted: rules 0, cases 0\nexec sleep 60")
        with patch("chrrep.node.ANSWER_SECONDS", 0.3), Node(PLAIN, 1, chrrep=late) as node:
            with self.assertRaisesRegex(NodeDied, "no answer within 0.3 seconds"):
                node.show()

    def test_what_becomes_of_a_process_is_logged(self) -> None:
        with self.assertLogs("chrrep", "DEBUG") as logged, Node(PLAIN, 7) as node:
            pid = node.pid
        begins, ended = f"process {pid} of origin 7 begins", f"process {pid} ended with status 0"
        self.assertEqual(logged.output, [f"DEBUG:chrrep.node:{said}" for said in (begins, ended)])

    def test_no_program(self) -> None:
        with self.assertRaises(FileNotFoundError):
            Node(PLAIN, 1, chrrep="/nowhere/chrrep")


class Interrupt(Exception):
    """What a handler of signals raises in the middle of a call."""


class Interrupts(StandIns):
    def setUp(self) -> None:  # noqa: N802
        def interrupt(*_: object) -> None:
            raise Interrupt

        before = signal.signal(signal.SIGALRM, interrupt)
        self.addCleanup(signal.signal, signal.SIGALRM, before)

    def interrupt(self, node: Node, call: Callable[[], object]) -> None:
        """Interrupts a call that waits for a node that is stopped."""
        os.kill(node.pid, signal.SIGSTOP)
        self.interrupt_once(node, call)
        os.kill(node.pid, signal.SIGCONT)

    def interrupt_once(self, node: Node, call: Callable[[], object]) -> None:
        """Interrupts a call once it waits."""

        def send_signal() -> None:
            end = time.monotonic() + SECONDS
            while not node._process.is_waiting and time.monotonic() < end:
                time.sleep(0.01)
            signal.pthread_kill(caller, signal.SIGALRM)

        caller = threading.get_ident()
        node._process.is_waiting = False
        sender = threading.Thread(target=send_signal)
        with self.assertRaises(Interrupt):
            sender.start()
            call()
        sender.join()

    def test_a_node_outlives_a_call_that_is_interrupted(self) -> None:
        """What it answers to that one is not taken for the next answer."""
        with Node(PLAIN, 1) as node:
            self.interrupt(node, node.show)
            self.assertEqual(node.tell(("a", 1)), Id(1, 1))
            self.interrupt(node, node.summary)
            self.interrupt(node, node.show)
            self.assertEqual(node.show(), (("a", 1),))
            # the number is used, whether it was told or not
            self.interrupt(node, lambda: node.tell(("a", 2)))
            self.assertEqual(node.tell(("a", 3)), Id(1, 3))
            self.assertEqual(node.show(), (("a", 1), ("a", 2), ("a", 3)))

    def test_a_line_that_is_interrupted_is_sent_on(self) -> None:
        """It is longer than what a pipe holds."""
        atoms = [("a", value) for value in range(OPERATION_ATOMS)]
        with patch("chrrep.process._LARGE_PIPE", 65_536), Node(PLAIN, 1) as node:
            self.interrupt(node, lambda: node.tell_many([atoms] * 500))
            self.assertEqual(node.count("a"), 500 * OPERATION_ATOMS)
            soon = [OperationText(Id(2, number), '[["a",-1]]') for number in range(9000)]
            self.interrupt(node, lambda: node.merge_soon(soon))
            self.assertEqual((node.count("a", -1), node.next_id), (9000, Id(1, 501)))

    def test_an_answer_that_is_interrupted_is_read_on(self) -> None:
        room = tempfile.TemporaryDirectory()
        self.addCleanup(room.cleanup)
        goes_on = Path(room.name) / "goes_on"
        asked = "echo accepted: rules 0, cases 0\nread text; read end; read line; printf 'a(1), '\n"
        waits = f"while ! [ -e '{goes_on}' ]; do sleep 0.05; done\n"
        script = asked + waits + "echo 'a(2)'; read line; echo 'a(3)'; read line"
        with Node(PLAIN, 1, chrrep=self.program(script)) as node:
            self.interrupt_once(node, node.show)
            goes_on.touch()
            self.assertEqual(node.show(), (("a", 3),))

    def test_a_call_that_is_interrupted_while_it_reads_ends_the_node(self) -> None:
        with Node(PLAIN, 1) as node:
            with patch("chrrep.process.os.read", side_effect=Interrupt), self.assertRaises(Interrupt):
                node.show()
            self.assertFalse(is_running(node.pid))
            with self.assertRaisesRegex(NodeDied, "interrupted"):
                node.show()
