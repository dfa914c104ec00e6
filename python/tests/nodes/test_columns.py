"""What a program's text tells of the columns of its facts."""

import os
import subprocess
import sys
import unittest
import warnings
from pathlib import Path
from tempfile import TemporaryDirectory
from typing import Any

import chrrep
from chrrep import Atom, ColumnsWarning, Id, OrderWarning
from chrrep.asynchronous import join as join_async
from chrrep.columns import Columns
from chrrep.link import Member, join
from kills import PACKAGE
from programs import PATHS, REGISTER

DECLARED = ":- chr_constraint seen/3, seen/2, coin/0.\n"


class Names(unittest.TestCase):
    def test_columns_have_names(self) -> None:
        texts = [
            "% chr_columns seen(parcel, time, place), seen(a,b).\n" + DECLARED,
            DECLARED + "%%chr_columns seen( parcel ,time,place )  \r\n% chr_columns seen(a,b)",
            ":- chr_constraint seen/3, seen/2. % chr_columns seen(parcel,time,place),seen(a,b)\n",
        ]
        for text in texts:
            columns = Columns(text.encode())
            self.assertEqual(columns.named, {("seen", 3): ("parcel", "time", "place"), ("seen", 2): ("a", "b")}, text)
            self.assertEqual(columns.faults, [])
            self.assertEqual(columns.argument("seen", 3, 2), "argument 2 (time)")
            # which of the two is not known
            self.assertEqual(columns.argument("seen", None, 2), "argument 2")
            self.assertEqual(columns.argument("seen", 3, 4), "argument 4")

    def test_what_names_no_columns_is_told(self) -> None:
        word = "that is a word of at most 32 letters, digits and `_`, with a small letter first"
        no_name = f"is no name of a column: {word}"
        form = "names no columns: `% chr_columns seen(parcel, time, place)` does"
        rows = [
            ("chr_columns", f"'' {form}"),
            ("chr_columns seen", f"'seen' {form}"),
            ("chr_columns seen(a,b,c", f"'seen(a,b,c' {form}"),
            ("chr_columns seen(a,b,c),", f"'seen(a,b,c),' {form}"),
            ("chr_columns seen(a,b,c) coin", f"'seen(a,b,c) coin' {form}"),
            ("chr_columns: seen(a,b,c)", f"': seen(a,b,c)' {form}"),
            ("chr_columns seen(a,b)," + "x" * 99, f"'seen(a,b),{'x' * 30}' {form}"),
            ("chr_columns seen(Parcel,time,place)", f"'Parcel' {no_name}"),
            ("chr_columns seen(a,,c)", f"'' {no_name}"),
            ("chr_columns seen(a,\u00e9,c)", f"'\u00e9' {no_name}"),
            (f"chr_columns seen(a,{'b' * 32},{'c' * 33})", f"'{'c' * 33}' {no_name}"),
            ("chr_columns seen(a,\u00a0b,c)", f"'b' {no_name}"),
            ("chr_columns sen(a,b)", "no symbol 'sen' is declared: is 'seen' meant?"),
            ("chr_columns seen(a)", "'seen' is declared with 3 or 2 arguments, and not with 1"),
            ("chr_columns coin(a)", "'coin' is declared with 0 arguments, and not with 1"),
            ("chr_columns seen(a,b,a)", "two columns of seen/3 have one name"),
            ("chr_columns seen(a,b), seen(c,d)", "the columns of seen/2 have names already"),
        ]  # fmt: skip
        for text, said in rows:
            with self.subTest(text):
                self.assertEqual(Columns(f"{DECLARED}\n % {text}\n".encode()).faults, [f"line 3: {said}"])

    def test_one_that_is_wrong_leaves_the_others(self) -> None:
        names = "% chr_columns sen(a), seen(a,b)\n% chr_columns seen(c,d), seen(d,e,f)\n"
        columns = Columns((names + DECLARED).encode())
        self.assertEqual(columns.named, {("seen", 2): ("a", "b"), ("seen", 3): ("d", "e", "f")})
        self.assertEqual([fault[:7] for fault in columns.faults], ["line 1:", "line 2:"])

    def test_what_is_no_declaration(self) -> None:
        for text in ("% the chr_columns of a", "% chr_columnsx", "% chr_column seen(a,b)", "%\nchr_columns", "% \xff"):
            columns = Columns(text.encode("latin-1"))
            self.assertEqual((columns.named, columns.faults, columns.first()), ({}, [], None), text)

    def test_many_that_are_wrong(self) -> None:
        """A text of at most 65,536 bytes is looked at in a moment, however many lines it has."""
        columns = Columns(b"%chr_columns\n" * 5000)
        self.assertEqual((len(columns.faults), columns.faults[-1][:8]), (20, "line 20:"))
        deep = Columns(b"% chr_columns " + b"a(" * 30_000)
        self.assertEqual(len(deep.faults), 1)


class Rules(unittest.TestCase):
    def test_columns_that_rules_compare_by_order(self) -> None:
        rows = [
            (PATHS, {("path", 3): {3: "rule 1 (shorter)"}}),
            (REGISTER, {("reg", 4): {3: "rule 1 (later)", 4: "rule 2 (node)", 2: "rule 3 (same)"}}),
            (":- chr_constraint a/2. a(X,Y), a(X,Z) <=> Y =\\= Z, X == X, Y =:= Y | true. % a(X) <=> X < 1.", {}),
            (":- chr_constraint a/2.\na(_,N) \\ a(0,M) <=> 0 =< N, M >= _N | true.\na(M,_N) <=> M =:= 1, _N>M|a(M,_N).",
             {("a", 2): {1: "rule 2", 2: "rule 1"}}),
            (":- chr_constraint a/1, b/1. % x @ a(X) <=> X < 1 | b(X).\na(X) <=> b(X).", {}),
        ]  # fmt: skip
        for text, found in rows:
            self.assertEqual(Columns(text.encode()).by_order, found, text)

    def test_headings(self) -> None:
        """The name that is declared, else the variable that all rules have there."""
        columns = Columns(f"% chr_columns path(from, to, length)\n{PATHS}{REGISTER}".encode())
        self.assertEqual(columns.headings(("path", 3)), ("from", "to", "length"))
        self.assertEqual(columns.headings(("reg", 4)), ("K", "", "", ""))
        self.assertEqual(columns.headings(("other", 2)), ("", ""))
        text = ":- chr_constraint a/4, b/2.\na(X,_,7,_Y) \\ a(X,Y,Z,_) <=> Z > 1 | b(Y,W).\nb(Y,V) <=> true."
        self.assertEqual(Columns(text.encode()).headings(("a", 4)), ("X", "Y", "Z", ""))
        self.assertEqual(Columns(text.encode()).headings(("b", 2)), ("Y", ""))

    def test_the_first_symbol(self) -> None:
        self.assertEqual(Columns(b"% :- chr_constraint no/1.\n:- chr_constraint b/2, a/0.").first(), ("b", 2))


PARCELS = """% chr_columns seen(parcel, time, place)
:- chr_constraint seen/3, seen/1, coin/0.
later @ seen(P,T,X) \\ seen(P,U,Y) <=> T > U | true.
tie   @ seen(P,T,X) \\ seen(P,T,Y) <=> X =< Y | true.
"""


class Members(unittest.TestCase):
    def setUp(self) -> None:  # noqa: N802
        room = TemporaryDirectory()
        self.addCleanup(room.cleanup)
        self.room = Path(room.name)
        self.url = f"sqlite:///{self.room}/log.sqlite"

    def joined(self, program: str | None = None) -> Member:
        member = join(self.url, program)
        self.addCleanup(member.close)
        return member

    def test_facts_by_the_names_of_columns(self) -> None:
        member = self.joined(PARCELS)
        member.tell(("seen", "box", 900, 3), ("seen", "box", 930, 5), ("seen", 7, 1, 2), ("seen", 8), ("coin",))
        box, other = {"parcel": "box", "time": 930, "place": 5}, {"parcel": 7, "time": 1, "place": 2}
        self.assertCountEqual(member.show_named("seen"), [box, other])
        self.assertEqual(member.show_named("seen", parcel="box"), (box,))
        self.assertEqual(member.show_named("seen", place=2, time=1), (other,))
        self.assertEqual(member.show_named("seen", parcel="oslo"), ())
        rows: list[tuple[type[Exception], str, dict[str, Any], str]] = [
            (chrrep.UnknownColumn, "seen", {"plase": 5}, "'seen' has no column 'plase': is 'place' meant?"),
            (chrrep.UnknownColumn, "seen", {"time": 5, "x": 1}, "'seen' has no column 'x'"),
            (chrrep.UnknownColumn, "coin", {},
             "no columns of 'coin' have names: write `% chr_columns coin(one, two)` into the program"),
            (chrrep.UnknownSymbol, "sen", {"time": 5}, "no symbol 'sen' is declared: is 'seen' meant?"),
            (chrrep.Shape, "seen", {"time": 5.5}, "argument 2 (time) of ('seen', None, 5.5, None) is a float, and "
             "neither a whole number nor a name"),
        ]  # fmt: skip
        for kind, symbol, values, said in rows:
            with self.subTest(said), self.assertRaises(kind) as raised:
                member.show_named(symbol, **values)
            self.assertEqual(str(raised.exception), f"{kind.__name__}: {said}")

    def test_names_where_a_rule_compares_by_order(self) -> None:
        """They are told, with a warning the first time; or not, where a warning is an error."""
        member = self.joined(PARCELS)
        means_nothing = "names have an order, one at all nodes, that means nothing"
        with warnings.catch_warnings():
            warnings.simplefilter("error")
            member.tell(("seen", "box", 1, 2), ("seen", "late"))
            compares = r"^rule 2 \(tie\) compares argument 3 \(place\) of seen by order"
            said = f"{compares}, and 'oslo' is told there: {means_nothing}"
            with self.assertRaisesRegex(OrderWarning, said):
                member.tell(("seen", "box", 2, "oslo"))
            self.assertEqual(member.count("seen"), 2)
            # it was warned of
            self.assertEqual(member.tell(("seen", "box", 2, "oslo")), Id(1, 2))
        told: list[Atom] = [("seen", "box", "noon", "rome"), ("seen", "box", "night", "rome")]
        with self.assertWarnsRegex(OrderWarning, r"rule 1 \(later\) compares argument 2 \(time\)") as warned:
            member.tell_many([[atom] for atom in told])
        self.assertEqual((len(warned.warnings), warned.filename), (1, __file__))

    def test_names_of_columns_that_are_wrong(self) -> None:
        program = PARCELS.replace("(parcel,", "(parcel)")
        said = "the program names columns in vain: line 1: 'seen(parcel) time, place)' names no columns"
        with self.assertWarns(ColumnsWarning) as warned:
            self.joined(program)
        self.assertTrue(str(warned.warning).startswith(said), str(warned.warning))
        self.assertEqual((len(warned.warnings), warned.filename), (1, __file__))
        with warnings.catch_warnings():
            warnings.simplefilter("error")
            with self.assertRaises(ColumnsWarning):
                self.joined()
        with self.assertWarns(ColumnsWarning):
            member = self.joined()
        # the origins were given back
        self.assertEqual(member.origin, 2)
        with self.assertRaisesRegex(chrrep.UnknownColumn, "no columns of 'seen' have names"):
            member.show_named("seen")

    def test_a_command_warns_in_one_line(self) -> None:
        path = self.room / "parcels.chr"
        path.write_text(f"{PARCELS}% chr_columns coins(a)\n")
        env = {**os.environ, "PYTHONPATH": str(PACKAGE), "PYTHONDONTWRITEBYTECODE": "1"}
        words = [sys.executable, "-m", "chrrep.link", str(path)]
        lines = "seen(box,1,oslo)\nseen(box,2,rome)\nseen(box,1.5,oslo)\n? seen(box,_,_)\n"
        ended = subprocess.run(words, input=lines, capture_output=True, text=True, env=env, timeout=60, check=True)
        *told, refused, shown = ended.stdout.splitlines()
        self.assertEqual([line.partition(" ")[0] for line in told], ["told", "told"])
        self.assertEqual([refused, shown], [
            'refused: character 10, argument 2 of seen: 1.5 is no whole number: put it in double quotes, "1.5"',
            "seen(box,2,rome)",
        ])  # fmt: skip
        said = ended.stderr.splitlines()
        self.assertEqual(len(said), 3)
        wrong = "the program names columns in vain: line 5: no symbol 'coins' is declared: is 'coin' meant?"
        self.assertEqual(said[0], f"chrrep.link: {wrong}")
        self.assertTrue(said[2].startswith("chrrep.link: rule 2 (tie) compares argument 3 (place) of seen by order, "))


class AsyncMembers(unittest.IsolatedAsyncioTestCase):
    async def test_what_is_joined_serves_with_and_without_a_block(self) -> None:
        with TemporaryDirectory() as room:
            url = f"sqlite:///{room}/log.sqlite"
            member = await join_async(url, PARCELS, origin=1)
            await member.tell(("seen", "box", 1, 2))
            await member.close()
            await member.close()
            # its origin was given back
            async with join_async(url, origin=1) as again:
                self.assertEqual(await again.show_named("seen", time=1), ({"parcel": "box", "time": 1, "place": 2},))
            with self.assertRaises(chrrep.link.OtherProgram):
                await join_async(url, PATHS)


if __name__ == "__main__":
    unittest.main()
