"""What is read of the clauses of odd texts. `test_room` has texts of the repository and random ones."""

import unittest

import chrrep
from chrrep.rules import Rule, rules_of, symbols_of, weights_of

ODD = """% :- chr_constraint no/1. 'it''s % 5" n @ a(X) <=> b(X).
:-\tchr_constraint a / 2 ,\r
    b/0, chr_constraint/1 % , c/3.
    .:-chr_weight b/0=7,-1. :- chr_weight
a/2 = -3 .  %% "
r_1\t@\r
 a ( X ,\n -7 ) , b\\a(X,_Y)<=>X=<-7,% . <=> |
  X =\\= _Y | true , a( 3 , X ), b .b,b<=>true. chr_constraint(X)<=>X<0|b.
% a(X,Y) <=> b."""


class Clauses(unittest.TestCase):
    def test_comments_and_layout(self) -> None:
        self.assertEqual(list(symbols_of(ODD)), [("a", 2), ("b", 0), ("chr_constraint", 1)])
        self.assertEqual(weights_of(ODD), {("b", 0): (7, -1), ("a", 2): (-3, 0)})
        b = ("b", ())
        self.assertEqual(rules_of(ODD), [
            Rule("r_1", [("a", ("X", "-7")), b], [("a", ("X", "_Y"))], ["X=<-7", "X=\\=_Y"], [("a", ("3", "X")), b]),
            Rule("", [], [b, b], [], []),
            Rule("", [], [("chr_constraint", ("X",))], ["X<0"], [b]),
        ])  # fmt: skip

    def test_texts_without_clauses(self) -> None:
        for text in ("", "%", "% a <=> b.", " \n\t", "%\ud7ff.\n%% a<=>b."):
            self.assertEqual((list(symbols_of(text)), weights_of(text), rules_of(text)), ([], {}, []), text)

    def test_what_no_accepted_text_has(self) -> None:
        """So it is never read: names in quotes, strings, comments of other forms."""
        begin = ":- chr_constraint a/1.\n"
        for text in ("'b'(X) <=> true.", "a('%') <=> true.", 'a("x") <=> true.', "/* a */", "a(X) <=> true. % 'x'\n'"):
            with self.subTest(text), self.assertRaises(chrrep.RefusedProgram):
                chrrep.check(begin + text)
        with self.assertRaises(chrrep.RefusedProgram):
            chrrep.check(":- chr_constraint 'a%b'/1.")
