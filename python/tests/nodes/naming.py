"""Names that a log keeps, over whatever engine."""

import re
from collections.abc import Callable
from functools import partial
from typing import Any
from unittest.mock import patch

import chrrep
from chrrep import Id
from chrrep.link import Diverged, Program, State
from chrrep.names import NameClash, named_atoms_of, number_of
from links import Links
from programs import PATHS, PLAIN


class Naming(Links):
    """Text as arguments."""

    def test_a_log_keeps_names_once(self) -> None:
        one, two = self.link(1), self.link(2)
        self.assertEqual((one.names(), one.names(3)), ([], []))
        self.put(one, [one.entry(1, [("a", 5)])], names={5: "five", 2**63 - 1: "é\n\"'"})
        self.put(two, [two.entry(1, [("a", 5)])], names={7: "", 5: "five"})
        for number, name in ((5, "other"), (7, "seven")):
            with self.assertRaises(NameClash):
                self.put(two, [two.entry(2, [("a", number)])], names={9: "nine", number: name})
        for link in (one, two):
            self.assertEqual([named[1:] for named in link.names()], [(5, "five"), (2**63 - 1, "é\n\"'"), (7, "")])
            places = [named.place for named in link.names()]
            self.assertEqual(places, sorted(places))
            self.assertEqual(([named[1:] for named in link.names(places[1])], link.names(places[2])), ([(7, "")], []))
        self.assertEqual(self.ids(), [Id(1, 1), Id(2, 1)])

    def test_names_are_shown_where_they_were_told(self) -> None:
        one, other = self.member(PATHS), self.member()
        one.tell(("path", "berlin", "São Paulo", 1050), ("path", 1, 2, 3))
        other.tell(("path", "berlin", "São Paulo", 1060), ("path", "paris", "berlin", 5))
        wanted = {("path", "berlin", "São Paulo", 1050), ("path", 1, 2, 3), ("path", "paris", "berlin", 5)}
        for member in (one, other, self.member()):
            self.assertEqual(set(member.show()), wanted)
            self.assertEqual(member.show("path", "berlin", None, None), (("path", "berlin", "São Paulo", 1050),))
            self.assertEqual(member.count("path", None, "berlin", 5), 1)
            self.assertEqual(member.count("path", "oslo", None, None), 0)
            self.assertEqual(set(named_atoms_of(member.show_text())), wanted)
        self.assertEqual([named.name for named in one.link.names()], ["berlin", "São Paulo", "paris"])
        came, went = next(other.changes())
        self.assertEqual((set(came), went), (wanted, ()))
        # a name that is refused with its operation is not kept
        with self.assertRaises(chrrep.UnknownSymbol):
            one.tell(("paths", "oslo", "rome", 1))
        self.assertEqual(len(one.link.names()), 3)

    def test_refusals_have_names_and_not_their_numbers(self) -> None:
        member = self.member(f"% chr_columns path(from, to, length)\n{PATHS}")
        rows: list[tuple[type[chrrep.Refused], list[Any], str]] = [
            (chrrep.Shape, ["path", "oslo", 2.5, "x"], "argument 2 (to) of ('path', 'oslo', 2.5, 'x') is a float, and "
             "neither a whole number nor a name"),
            (chrrep.Shape, ["path", "oslo", "rome", 2**63],
             "argument 3 (length) of ('path', 'oslo', 'rome', 9223372036854775808) does not fit 64 bits"),
            (chrrep.UnknownSymbol, ["path", "oslo", "rome"], "'path' is declared with 3 arguments, and not with 2"),
        ]  # fmt: skip
        for kind, atom, said in rows:
            calls: list[Callable[[], object]] = [
                partial(member.tell, ("path", "oslo", 1, 2), tuple(atom)),
                partial(member.show, *atom), partial(member.count, *atom),
            ]  # fmt: skip
            for call in calls:
                with self.assertRaises(kind) as raised:
                    call()
                self.assertRegex(str(raised.exception), f"^{kind.__name__}: (refused 3[12]: )?{re.escape(said)}$")
        with self.assertRaisesRegex(chrrep.UnknownSymbol, "is 'path' meant"):
            member.show("paths", "oslo", None, None)
        self.assertEqual((member.show(), member.link.names()), ((), []))

    def test_stores_that_diverge_are_told_with_names(self) -> None:
        member = self.member(PLAIN)
        member.tell(("a", "oslo"))
        state = State(1, Program(PLAIN.encode()), 1, {member.origin: 1}, f"a({number_of('oslo')}), a(7)")
        self.assertTrue(member.link.keep(state))
        with self.assertRaisesRegex(Diverged, r": here a\(oslo\), in the log a\(oslo\), a\(7\)$"):
            member.follow()

    def test_two_names_of_one_number(self) -> None:
        one, other = self.member(PLAIN), self.member()
        with patch("chrrep.names.number_of", len):
            one.tell(("a", "oslo"))
            calls: list[Callable[[], object]] = [
                lambda: one.tell(("a", "rome")),
                lambda: other.tell(("a", "rome")),
                lambda: other.tell_many([[("a", "x")], [("a", "y")]]),
            ]
            for call in calls:
                with self.assertRaisesRegex(NameClash, "have one number"):
                    call()
            self.assertEqual(other.tell(("a", "oslo")).number, 1)
            self.assertEqual(other.show(), (("a", "oslo"), ("a", "oslo")))
        self.assertEqual(len(self.entries()), 2)

    def test_a_command_takes_names(self) -> None:
        command, other = self.command("--origin", "1"), self.command("--origin", "2")
        for line, answer in (
            ('path(berlin,"São Paulo",1050), path( rome , 2 ,3)', "told 1:1"),
            ('path(berlin, "S\\u00e3o Paulo", 1040)', "told 1:2"),
            (
                "path(oslo, Berlin,2)",
                'refused: character 12, argument 2 of path: Berlin is no name without quotes: put it in double quotes, '
                '"Berlin"',
            ),
            ("? path(rome,_,_)", "path(rome,2,3)"),
            ("? path", 'path(berlin,"São Paulo",1040), path(rome,2,3)'),
            ('? path(_ , "São Paulo", _)', 'path(berlin,"São Paulo",1040)'),
            ("?path(oslo,_,_)", "true"),
            ("? path(oslo,_)", "refused: UnknownSymbol: 'path' is declared with 3 arguments, and not with 2"),
            ("? paths", "refused: UnknownSymbol: no symbol 'paths' is declared: is 'path' meant?"),
            ("? path, path", "refused: character 7: one symbol is asked for, or one pattern"),
            (
                'path("\\ud800",1,2)',
                "refused: 'utf-8' codec can't encode character '\\ud800' in position 0: surrogates not allowed",
            ),
        ):
            self.assertEqual(command.ask(line), answer)
        said = other.ask("?") or ""
        self.assertEqual(command.ask("?"), said)
        self.assertEqual(set(said.split(", ")), {'path(berlin,"São Paulo",1040)', "path(rome,2,3)"})
