"""Inputs of whole runs, and what is written for them."""

MINIMUM_TEXT = ":- chr_constraint min/1.\nm @ min(X) \\ min(Y) <=> X =< Y | true."
PATHS_TEXT = ":- chr_constraint path/3.\npath(X,Y,D) \\ path(X,Y,E) <=> D =< E | true."
ONE_TEXT = ":- chr_constraint a/1."

ACCEPTED_TEXTS = (
    ("", "accepted: rules 0, cases 0\n"),
    (" \t\r\n", "accepted: rules 0, cases 0\n"),
    ("% a. b\n", "accepted: rules 0, cases 0\n"),
    ("% café. \x07", "accepted: rules 0, cases 0\n"),
    (":- chr_constraint a/0.", "accepted: rules 0, cases 0\n"),
    (":- use_module(library(chr)).", "accepted: rules 0, cases 0\n"),
    (":-use_module(library(chr)).:-use_module ( library ( chr ) ) .", "accepted: rules 0, cases 0\n"),
    (":- chr_constraint a/1. a(X) <=> X == 1 | true.", "accepted: rules 1, cases 1\n"),
    (":- chr_constraint a/1. a(-9223372036854775808) <=> true.", "accepted: rules 1, cases 1\n"),
)

NOT_LOWERED = (
    (":- chr_constraint coin/0, note/0. coin <=> note.", "refused 20: rule 1; before 1; after 1\n"),
    (
        ":- chr_constraint throw/0, head/0, tail/0. throw <=> head. throw <=> tail.",
        "refused 20: rule 1; before 1; after 1\n",
    ),
    (
        ":- chr_constraint a/0, b/0. :- chr_weight a/0 = 3. :- chr_weight b/0 = 2. a <=> b. a <=> b, b. a <=> a, a.",
        "refused 20: rule 2; before 3; after 4\n",
    ),
    # what is kept does not count
    (
        ":- chr_constraint a/0, b/0. :- chr_weight a/0 = 5. a \\ b <=> b, b.",
        "refused 20: rule 1; before 1; after 2\n",
    ),
    # a weight may come after the rule
    (
        ":- chr_constraint a/0, b/0. a <=> b. :- chr_weight b/0 = 1000000.",
        "refused 20: rule 1; before 1; after 1000000\n",
    ),
    # commands of a refused program are not answered
    (':- chr_constraint a/0. a <=> a.\n---\n["show",1]\nx\n', "refused 20: rule 1; before 1; after 1\n"),
)

FAULTS = (
    (":- chr_constraint a/0.\na \x07 <=> true.", "refused 1: clause 2\n"),
    (":- chr_constraint a/0. a <=> é.", "refused 1: clause 2\n"),
    (":- chr_constraint a/0. \x7f", "refused 1: clause 2\n"),
    (".", "refused 3: clause 1\n"),
    (":- chr_constraint a/0. a <=> fail.", "refused 3: clause 2\n"),
    (":- chr_constraint a/1. a(X) <=> X = 1 | true.", "refused 3: clause 2\n"),
    (":- chr_constraint a/0, b/0.\na <=> true.\na ==> b.\n", "refused 4: clause 3\n"),
    (":- chr_constraint a/1. a(X) <=> b(X).", "refused 5: clause 2\n"),
    (":- chr_constraint a/1, a/1.", "refused 6: clause 1\n"),
    (":- chr_constraint a/7.", "refused 7: clause 1\n"),
    (":- chr_constraint a/1. a(X) <=> Y > 1 | true.", "refused 8: clause 2\n"),
    (":- chr_constraint a/1. a(9223372036854775808) <=> true.", "refused 9: clause 2\n"),
    (":- chr_constraint a/0. :- chr_weight a/0 = 0.", "refused 10: clause 2\n"),
    (":- chr_constraint a/0.\na <=> true", "refused 11: clause 2\n"),
    (':- chr_constraint a/0\n---\n["show",1]\n', "refused 11: clause 1\n"),
)

FAULTS_BESIDE_OTHERS = (
    (":- chr_constraint a/0. \x07 fail.", "refused 1: clause 2\n"),
    ("a \x07", "refused 1: clause 1\n"),
    (":- chr_constraint a/0. a <=> fail, b.", "refused 3: clause 2\n"),
    (":- chr_constraint a/0. a ==> b.", "refused 4: clause 2\n"),
    (":- chr_constraint a/1. a(X) <=> b(Y).", "refused 5: clause 2\n"),
    (":- chr_constraint a/0. a, a, a, a, a <=> b.", "refused 5: clause 2\n"),
    (":- chr_constraint a/9, a/9.", "refused 6: clause 1\n"),
    (":- chr_constraint a/1. a(X), a(X), a(X), a(X), a(X) <=> a(Y).", "refused 7: clause 2\n"),
    (":- chr_constraint a/1. a(X) <=> Y > 9223372036854775808 | true.", "refused 8: clause 2\n"),
    (":- chr_constraint a/0. :- chr_weight a/0 = 9223372036854775808.", "refused 9: clause 2\n"),
    (". \x07.", "refused 3: clause 1\n"),
    (":- chr_constraint a/0. a <=> a. a <=> b.", "refused 5: clause 3\n"),
    ("a <=> b. a <=> true", "refused 5: clause 1\n"),
)

FAULTS_OF_DIRECTIVES = (
    ("\x07.", "refused 1: clause 1\n"),
    (":- chr_constraint a/0. é", "refused 1: clause 2\n"),
    ("a", "refused 11: clause 1\n"),
    (":- chr_constraint a/0", "refused 11: clause 1\n"),
    (":- chr_constraint a/0. $", "refused 11: clause 2\n"),
    (":- chr_constraint a/0. $.", "refused 3: clause 2\n"),
    (":- chr_constraint a/0, a/00.", "refused 6: clause 1\n"),
    (":- chr_constraint a/9, a/09.", "refused 6: clause 1\n"),
    (":- chr_constraint a/0. :- chr_constraint b/1, a/0.", "refused 6: clause 2\n"),
    (":- chr_constraint a/6.", "accepted: rules 0, cases 0\n"),
    (":- chr_constraint a/9, a/8.", "refused 7: clause 1\n"),
    (":- chr_constraint a/256.", "refused 7: clause 1\n"),
    (":- chr_constraint a/18446744073709551616.", "refused 7: clause 1\n"),
    (":- chr_constraint a234567890123456789012345678901xy/0.", "refused 7: clause 1\n"),
    (":-chr_constraintx a/0.", "refused 3: clause 1\n"),
    (":- chr_constraint true/0.", "refused 3: clause 1\n"),
    (":- chr_constraint a/-1.", "refused 3: clause 1\n"),
)

FAULTS_OF_RULES = (
    ("a(X) <=> X = 1 | true", 3),
    ("a <=> fail", 3),
    ("true <=> a", 3),
    ("a(1.0) <=> true", 3),
    ("a(X) <=> X<=3 | true", 3),
    ("a(X) <=> X-3 | true", 3),
    ("a ==> true", 4),
    ("x ==> x(Y)", 4),
    ("a(X) <=> b(X)", 5),
    ("a <=> a(1,2)", 5),
    ("b \\ a <=> true", 5),
    ("a, a, a, a, b <=> true", 5),
    ("a <=> a, a, a, a, a, a, a, a, a, a(Y), b", 5),
    ("b234567890123456789012345678901xy <=> true", 5),
    ("a(X) <=> Y > 1 | true", 8),
    ("a(X) <=> a(Y)", 8),
    ("a(_) <=> a(_)", 8),
    ("a(_) <=> 1 < _ | true", 8),
    ("a(9223372036854775808) <=> a(Y)", 8),
    ("a(9223372036854775808) <=> true", 9),
    ("a(X) <=> X > -9223372036854775809 | true", 9),
    ("a <=> a(100000000000000000000000000000000000000000)", 9),
    ("a, a, a, a, a <=> true", 7),
    ("a, a \\ a, a, a <=> true", 7),
    ("a <=> a, a, a, a, a, a, a, a, a", 7),
    ("a(X) <=> X<1, X<2, X<3, X<4, X<5, X<6, X<7, X<8, X<9 | true", 7),
    ("a(X234567890123456789012345678901xy) <=> true", 7),
    ("a <=> X234567890123456789012345678901xy < 1 | true", 7),
    ("x234567890123456789012345678901yz @ a <=> true", 7),
    ("a, a, a, a \\ a <=> true", 7),
    ("a \\ a, a, a, a <=> true", 7),
    ("a(_234567890123456789012345678901xy) <=> true", 7),
    ("a(X) <=> a(X234567890123456789012345678901xy)", 7),
    ("a(X234567890123456789012345678901x) <=> a(X234567890123456789012345678901xy)", 7),
)
"""Clauses behind the declaration of `a/0` and `a/1`, and their faults. A clause with the least fault of all follows."""

AFTER_SIXTY_FOUR = (
    ("a0 <=> fail", 3),
    ("a0 ==> true", 4),
    ("b <=> true", 5),
    ("a0 <=> b", 5),
    (":- chr_constraint b/0, a0/0", 6),
    (":- chr_constraint a0/0, b/0", 6),
    (":- chr_constraint b/0", 7),
    ("a0 <=> X < 1 | true", 7),
    ("a0 <=> 1 < 9223372036854775808 | true", 7),
    (":- chr_weight a0/0 = 0", 10),
)
"""Clauses behind 64 symbols and as many rules, and their faults."""

SEVERAL_WEIGHT_CLAUSES = (
    ("a/0 = 0", "refused 10: clause 2\n"),
    ("a/0 = 0,0", "refused 10: clause 2\n"),
    ("a/0 = 1,1000001", "refused 10: clause 2\n"),
    ("a/0 = 0,1,2", "refused 3: clause 2\n"),
    ("a/0 = 1,2. :- chr_weight a/1 = 1,2", "accepted: rules 0, cases 0\n"),
    ("a/0 = 1. :- chr_weight a/0 = 1,0", "refused 10: clause 3\n"),
    ("a/0 = 1,2. :- chr_weight a/0 = 1,9223372036854775808", "refused 9: clause 3\n"),
    ("b/0 = 1,9223372036854775808", "refused 5: clause 2\n"),
    ("a/2 = 1,2", "refused 5: clause 2\n"),
)
"""Weights of a program of `a/0` and `a/1`. Of several faults the least counts, and a symbol has one weight clause."""

WEIGHTS_OF_A_COIN = (
    ("1,0", "0,1", True),
    ("0,2", "0,1", True),
    ("1,2", "1,2", False),
    ("1,2", "1,1", True),
    ("0,9", "1,0", False),
    ("2,0", "1,1000000", True),
    ("1,1", "1,2", False),
)
"""The weights of a coin that is thrown and of its sides, and whether both rules lower."""

ODD_BYTES = (
    (b"% \xff\x00\xc3. a\n:- chr_constraint a/0.", "accepted: rules 0, cases 0\n"),
    (b":- chr_constraint a/0.% \xff", "accepted: rules 0, cases 0\n"),
    (b":- chr_constraint a/0.\xff", "refused 1: clause 2\n"),
    (b"\x00.", "refused 1: clause 1\n"),
    (b"\xff", "refused 1: clause 1\n"),
)

LONG_TEXTS = (
    (65_536, "", "accepted: rules 0, cases 0\n"),
    (65_537, "", "refused 2\n"),
    (65_535, '\n---\n["show",1]', "accepted: rules 0, cases 0\ntrue\n"),
    (65_536, '\n---\n["show",1]', "refused 2\n"),
    (65_534, '\r\n---\r\n["show",1]', "accepted: rules 0, cases 0\ntrue\n"),
    (65_536, ".", "refused 2\n"),
    (65_536, "é", "refused 2\n"),
)

ACCEPTED = (
    (":- chr_constraint min/1. m @ min(X) \\ min(Y) <=> X =< Y | true.", "accepted: rules 1, cases 17\n"),
    (
        ":- chr_constraint xor/1. xor(X), xor(X) <=> xor(0). xor(1) \\ xor(0) <=> true.",
        "accepted: rules 2, cases 30\n",
    ),
    (":- chr_constraint path/3. path(X,Y,D) \\ path(X,Y,E) <=> D =< E | true.", "accepted: rules 1, cases 541\n"),
    (":- chr_constraint p/2. p(A,B) \\ p(C,D) <=> A < C | true.", "accepted: rules 1, cases 2404\n"),
    (":- chr_constraint a/1. a(X) \\ a(Y) <=> X =:= Y | true.", "accepted: rules 1, cases 5\n"),
    (":- chr_constraint coin/0, note/0. coin, coin <=> note.", "accepted: rules 1, cases 6\n"),
    # rules without a common symbol
    (":- chr_constraint a/0, b/0. a <=> true. b <=> true.", "accepted: rules 2, cases 2\n"),
    (":- chr_constraint p/0, q/0. p \\ q, p <=> true.", "accepted: rules 1, cases 12\n"),
    # no number lies between 3 and 5 beside another
    (
        ":- chr_constraint p/2, q/1, r/1. :- chr_weight p/2 = 2."
        " p(X,Y) <=> 3 < X, X < Y, Y < 5 | q(X). p(X,Y) <=> 3 < X, X < Y, Y < 5 | r(X).",
        "accepted: rules 2, cases 0\n",
    ),
    # no number is greater, and one is less
    (":- chr_constraint big/1. big(X) <=> X > 9223372036854775807 | true.", "accepted: rules 1, cases 0\n"),
    (":- chr_constraint low/1. low(X) <=> X < -9223372036854775807 | true.", "accepted: rules 1, cases 1\n"),
    # two constants are never one
    (
        ":- chr_constraint a/1, b/0, c/0. a(1) <=> b. a(2) <=> c. :- chr_weight a/1 = 2.",
        "accepted: rules 2, cases 2\n",
    ),
)

FAILING_CASES = (
    (
        ":- chr_constraint throw/0, head/0, tail/0. :- chr_weight throw/0 = 2. throw <=> head. throw <=> tail.",
        "refused 21: rules 1 2; matching (1); store throw; left head; right tail\n",
    ),
    (
        ":- chr_constraint a/1, b/1. pair @ a(X), a(Y) <=> X < Y | b(X).",
        "refused 21: rules 1 1; matching (0,1); store a(0), a(1), a(2); left a(2), b(0); right a(0), b(1)\n",
    ),
    (
        ":- chr_constraint p/2, q/1, r/1. :- chr_weight p/2 = 2."
        " p(X,Y) <=> 3 < X, X < Y, Y < 6 | q(X). p(X,Y) <=> 3 < X, X < Y, Y < 6 | r(X).",
        "refused 21: rules 1 2; matching (1); store p(4,5); left q(4); right r(4)\n",
    ),
    # the constant stands in a body alone
    (
        ":- chr_constraint p/1, q/2, r/0. :- chr_weight p/1 = 3. :- chr_weight q/2 = 2."
        " p(X) <=> q(X,7). p(X) <=> r. q(X,Y) <=> X =< Y | r.",
        "refused 21: rules 1 2; matching (1); store p(8); left q(8,7); right r\n",
    ),
    (
        ":- chr_constraint a/1, b/1. a(X) \\ b(X) <=> true. b(X) \\ a(X) <=> true.",
        "refused 21: rules 1 2; matching (0,1); store a(0), a(0), b(0); left a(0), a(0); right a(0)\n",
    ),
    (
        ":- chr_constraint p/2. p(A,B) \\ p(C,D) <=> A =< C | true.",
        "refused 21: rules 1 1; matching (0,1); store p(0,0), p(0,1), p(0,1); left p(0,1); right p(0,0)\n",
    ),
    # a side that ends in no atom at all
    (
        ":- chr_constraint a/0, b/0. a, b <=> true. b <=> true.",
        "refused 21: rules 1 2; matching (0,1); store a, b; left true; right a\n",
    ),
)

TOO_MANY_TYPES = (
    (
        ":- chr_constraint p/4, q/1, s/0. p(A,B,C,D), q(E) <=> s.",
        "refused 22: rules 1 1; matching (0,2); classes 9\n",
    ),
    # they are counted before the guard, which never holds
    (
        ":- chr_constraint p/4, q/1, s/0. p(A,B,C,D), q(E) <=> A < A | s.",
        "refused 22: rules 1 1; matching (0,2); classes 9\n",
    ),
    # the first overlap counts that has too many or a case that fails
    (
        ":- chr_constraint p/4, q/1, s/0, a/1, b/1. p(A,B,C,D), q(E) <=> s. a(X), a(Y) <=> X < Y | b(X).",
        "refused 22: rules 1 1; matching (0,2); classes 9\n",
    ),
    (
        ":- chr_constraint p/4, q/1, s/0, a/1, b/1. a(X), a(Y) <=> X < Y | b(X). p(A,B,C,D), q(E) <=> s.",
        "refused 21: rules 1 1; matching (0,1); store a(0), a(1), a(2); left a(2), b(0); right a(0), b(1)\n",
    ),
)

RESTED = (
    (
        ":- chr_constraint coin/0, note/0.\ncoin, coin <=> note.",
        ['["tell",1,[1,1],[["coin"],["coin"],["coin"],["coin"],["coin"]]]', '["show",1]'],
        "accepted: rules 1, cases 6\ntold\ncoin, note, note\n",
    ),
    (
        ":- chr_constraint a/1, b/1.\na(X), a(X) <=> b(X).",
        [
            '["tell",1,[1,1],[["a",1],["a",2],["a",1],["a",2],["a",1]]]',
            '["show",1]',
        ],
        "accepted: rules 1, cases 6\ntold\na(1), b(1), b(2)\n",
    ),
    (
        MINIMUM_TEXT,
        [
            '["tell",1,[1,1],[["min",4],["min",4]]]',
            '["show",1]',
        ],
        "accepted: rules 1, cases 17\ntold\nmin(4)\n",
    ),
    (
        MINIMUM_TEXT,
        [
            '["tell",1,[1,1],[["min",5],["min",-3],["min",9]]]',
            '["show",1]',
        ],
        "accepted: rules 1, cases 17\ntold\nmin(-3)\n",
    ),
    (
        ":- chr_constraint xor/1. xor(X), xor(X) <=> xor(0). xor(1) \\ xor(0) <=> true.",
        [
            '["tell",1,[1,1],[["xor",1],["xor",1],["xor",0],["xor",1]]]',
            '["show",1]',
        ],
        "accepted: rules 2, cases 30\ntold\nxor(1)\n",
    ),
    (
        ":- chr_constraint big/1. big(X) <=> X > 9223372036854775807 | true.",
        [
            '["tell",1,[1,1],[["big",9223372036854775807]]]',
            '["show",1]',
        ],
        "accepted: rules 1, cases 0\ntold\nbig(9223372036854775807)\n",
    ),
    # nothing was told
    (":- chr_constraint a/0.", ['["show",1]', '["show",1]'], "accepted: rules 0, cases 0\ntrue\ntrue\n"),
)

OPERATIONS = (
    (
        ":- chr_constraint a/1. a(X) \\ a(Y) <=> X =:= Y | true.",
        [
            '["tell",1,[1,1],[["a",5]]]',
            '["show",1]',
            '["tell",1,[1,2],[["a",5]]]',
            '["show",1]',
        ],
        "accepted: rules 1, cases 5\ntold\na(5)\ntold\na(5)\n",
    ),
    (
        MINIMUM_TEXT,
        [
            '["tell",1,[1,1],[["min",5],["min",6]]]',
            '["tell",1,[1,1],[["min",5],["min",6]]]',
            '["tell",1,[1,1],[["min",6],["min",5]]]',
            '["tell",1,[1,1],[["min",5]]]',
        ],
        "accepted: rules 1, cases 17\ntold\nagain\nagain\nrefused 33\n",
    ),
    # what was told again is there once
    (
        ":- chr_constraint a/1.",
        [
            '["tell",1,[0,0],[["a",7]]]',
            '["tell",1,[0,0],[["a",7]]]',
            '["tell",1,[4294967295,18446744073709551615],[["a",7]]]',
            '["show",1]',
        ],
        "accepted: rules 0, cases 0\ntold\nagain\ntold\na(7), a(7)\n",
    ),
    # by name, then by number of arguments, then by the arguments
    (
        ":- chr_constraint b/0, a/1, a/0, a/2.",
        [
            '["tell",1,[1,1],[["b"],["a",10],["a",-2],["a"],["a",0,1]]]',
            '["tell",1,[1,2],[["a",9]]]',
            '["show",1]',
            '["show",1]',
        ],
        "accepted: rules 0, cases 0\ntold\ntold\na, a(-2), a(9), a(10), a(0,1), b\na, a(-2), a(9), a(10), a(0,1), b\n",
    ),
)

FORMS_THAT_ARE_READ = (
    '["tell",1,[1,1],[["min",5]]]',
    ' [ "tell" , 1 , [ 1 , 1 ] , [ [ "min" , 5 ] ] ] ',
    '\t["tell",1,[4294967295,18446744073709551615],[["min",5]]]',
    '["t\\u0065ll",1,[0,0],[["m\\u0069n",5]]]',
)

BAD_LINES = (
    '["show",1',
    '["show",1]]',
    '["show",1,]',
    '["show",01]',
    '["show",+1]',
    "['show',1]",
    "[show,1]",
    "show",
    "nul",
    '{"a":1',
    '"\\ud800"',
    '"a\tb"',
    '["show",1e400]',
    '["show",1] % all',
)

OTHER_SHAPES = (
    "[]",
    "{}",
    '{"a":1}',
    "null",
    "1",
    '"show"',
    '[["show",1]]',
    '["show"]',
    '["show",1,1]',
    '["show",-1]',
    '["show",1.0]',
    '["show",1e0]',
    '["show","1"]',
    '["show",18446744073709551616]',
    '["Show",1]',
    '["sync",1]',
    '["sync",1,1,1]',
    '["sync",-1,1]',
    '["sync",1,"1"]',
    '["summary"]',
    '["summary",1,1]',
    '["summary",1.0]',
    '["summary",[]]',
    '["lacks",1]',
    '["lacks",1,{}]',
    '["lacks",1,[[1,[[2,1]]]]]',
    '["lacks",1,[[4294967296,[]]]]',
    '["lacks",1,[[1]]]',
    '["lacks",1,[],0]',
    '["lacks",1,[],2.0]',
    '["lacks",1,[],"2"]',
    '["lacks",1,[],3]',
    '["lacks",1,[],2,1]',
    '["merge",1]',
    '["merge",1,[],1]',
    '["merge",1,[],2]',
    '["merge",1,[2]]',
    '["merge",1,[2.0,[]]]',
    '["merge",1,[3,[]]]',
    '["merge",1,[[[1,1],[]]]]',
    '["merge",1,[2,[[1,[[1,[]]]]]]]',
    '["merge",1,[[[1],[["min",5]]]]]',
    '["merge","1",[]]',
)

OTHER_SHAPES_OF_TELL = (
    '["tell",1,[1,1],[]]',
    '["tell",1,[1,1]]',
    '["tell",1,[1,1],[["min",5]],0]',
    '["tell",1,[1],[["min",5]]]',
    '["tell",1,[1,1,1],[["min",5]]]',
    '["tell",1,[4294967296,1],[["min",5]]]',
    '["tell",1,[-1,1],[["min",5]]]',
    '["tell",1,[1,18446744073709551616],[["min",5]]]',
    '["tell",1,[1,1],[[]]]',
    '["tell",1,[1,1],["min"]]',
    '["tell",1,[1,1],[[5]]]',
    '["tell",1,[1,1],[["min","5"]]]',
    '["tell",1,[1,1],[["min",5.0]]]',
    '["tell",1,[1,1],[["min",9223372036854775808]]]',
    '["tell",1,[1,1],[["min",-9223372036854775809]]]',
    '["tell",1,[1,1],[["min",5],["min",null]]]',
    '["tell",1,[1,1],{"min":5}]',
)

DIVIDERS = (
    ("---", "accepted: rules 0, cases 0\n"),
    ("---\r", "accepted: rules 0, cases 0\n"),
    ('---\n["show",1]', "accepted: rules 0, cases 0\ntrue\n"),
    (":- chr_constraint a/0.\n---", "accepted: rules 0, cases 0\n"),
    (":- chr_constraint a/0.\n---\n", "accepted: rules 0, cases 0\n"),
    (':- chr_constraint a/0.\n---\n---\n["show",1]\n', "accepted: rules 0, cases 0\nrefused 30\ntrue\n"),
    # no line `---`
    ('["show",1]\n', "refused 11: clause 1\n"),
    (':- chr_constraint a/0.\n--- \n["show",1]\n', "refused 11: clause 2\n"),
    (':- chr_constraint a/0.\n ---\n["show",1]\n', "refused 11: clause 2\n"),
    (':- chr_constraint a/0.\n----\n["show",1]\n', "refused 11: clause 2\n"),
    (':- chr_constraint a/0.\n---\r\r\n["show",1]\n', "refused 11: clause 2\n"),
    (':- chr_constraint a/0. % x ---\n["show",1]\n', "refused 11: clause 2\n"),
    # it may cut a clause or a comment
    (":- chr_constraint a/0. a <=>\n---\ntrue.\n", "refused 11: clause 2\n"),
    ('% a\n---\n["show",1]\n', "accepted: rules 0, cases 0\ntrue\n"),
)

LINE_ENDS = (
    (
        ":- chr_constraint coin/0, note/0.\r\ncoin, coin <=> note.\r\n---\r\n"
        '["tell",1,[1,1],[["coin"],["coin"]]]\r\n["show",1]\r\n',
        "accepted: rules 1, cases 6\ntold\nnote\n",
    ),
    ('---\n["show",1]\r', "accepted: rules 0, cases 0\ntrue\n"),
    # a carriage return within a line is layout of JSON
    ('---\n["show",1]\r\r\n', "accepted: rules 0, cases 0\ntrue\n"),
    ('---\n\r["show",\r1]\n', "accepted: rules 0, cases 0\ntrue\n"),
    # blank lines have no answer
    ('---\n\n\r\n \t \n\t\r\n \r\n\n["show",1]\n\n', "accepted: rules 0, cases 0\ntrue\n"),
    ("---\n\r", "accepted: rules 0, cases 0\n"),
    ("---\n ", "accepted: rules 0, cases 0\n"),
    # only one carriage return belongs to the end
    ("---\n\r\r\n", "accepted: rules 0, cases 0\nrefused 30\n"),
    ("---\n\r \n", "accepted: rules 0, cases 0\nrefused 30\n"),
    ("---\n\xa0\n", "accepted: rules 0, cases 0\nrefused 30\n"),
    ("---\n\x0c\n", "accepted: rules 0, cases 0\nrefused 30\n"),
)

LONG_LINES = (
    ('["show",1]', 1_048_566, '\n["show",1]\n', "accepted: rules 0, cases 0\ntrue\ntrue\n"),
    ('["show",1]', 1_048_567, '\n["show",1]\n', "accepted: rules 0, cases 0\nrefused 30\ntrue\n"),
    ('["show",1]', 1_048_566, "\r\n", "accepted: rules 0, cases 0\ntrue\n"),
    ('["show",1]', 1_048_567, "", "accepted: rules 0, cases 0\nrefused 30\n"),
    ("", 1_048_577, '\n["show",1]', "accepted: rules 0, cases 0\ntrue\n"),
)

LOWERED_BY_PAIRS = (
    (
        ":- chr_constraint a/0, b/0. :- chr_weight b/0 = 0,1. a <=> b, b, b.",
        ['["tell",1,[1,1],[["a"],["a"]]]', '["show",1]'],
        "accepted: rules 1, cases 1\ntold\nb, b, b, b, b, b\n",
    ),
    (
        ":- chr_constraint a/0, b/0. :- chr_weight a/0 = 0,2. :- chr_weight b/0 = 0,1. a <=> b.",
        ['["tell",1,[1,1],[["a"]]]', '["show",1]'],
        "accepted: rules 1, cases 1\ntold\nb\n",
    ),
    # the greatest weights of all, and a body of as many atoms as there may be
    (
        ":- chr_constraint a/0, b/0. :- chr_weight a/0 = 1. :- chr_weight b/0 = 0,1000000."
        " a <=> b, b, b, b, b, b, b, b.",
        ['["tell",1,[1,1],[["a"]]]', '["show",1]'],
        "accepted: rules 1, cases 1\ntold\nb, b, b, b, b, b, b, b\n",
    ),
)

NOT_LOWERED_BY_PAIRS = (
    ("a/0 = 1,2. :- chr_weight b/0 = 1,2", "a <=> b.", "refused 20: rule 1; before 1,2; after 1,2\n"),
    ("c/0 = 0,7", "a <=> b.", "refused 20: rule 1; before 1,0; after 1,0\n"),
    ("a/0 = 2,0", "b <=> a.", "refused 20: rule 1; before 1; after 2\n"),
    (
        "a/0 = 0,1000000. :- chr_weight b/0 = 0,500000",
        "a <=> true. a, a <=> b, b, b, b. b <=> c.",
        "refused 20: rule 2; before 0,2000000; after 0,2000000\n",
    ),
    # a greater first number of the body outweighs any second number
    ("a/0 = 1,1000000. :- chr_weight b/0 = 2,0", "a <=> b.", "refused 20: rule 1; before 1,1000000; after 2,0\n"),
)

REFUSED_WEIGHTS = (
    (":- chr_constraint a/0. :- chr_weight a/0 = 0,0.", "refused 10: clause 2\n"),
    (":- chr_constraint a/0. :- chr_weight a/0 = 1,1000001.", "refused 10: clause 2\n"),
    (":- chr_constraint a/0. :- chr_weight a/0 = 0,1,2.", "refused 3: clause 2\n"),
)

MINIMA_OF_TWO = (
    ('["tell",1,[1,1],[["min",5]]]', "told"),
    ('["tell",1,[1,2],[["min",3]]]', "told"),
    ('["tell",2,[2,1],[["min",9]]]', "told"),
    ('["sync",1,2]', "synced 2"),
    ('["sync",2,1]', "synced 1"),
    ('["show",1]', "min(3)"),
    ('["show",2]', "min(3)"),
)

PATHS_OF_THREE = (
    ('["tell",1,[1,1],[["path",1,2,7],["path",1,3,4]]]', "told"),
    ('["tell",2,[2,1],[["path",1,2,5]]]', "told"),
    ('["tell",3,[3,1],[["path",1,3,9],["path",2,3,1]]]', "told"),
    ('["show",1', "refused 30"),
    ('["sync",1,2]', "synced 1"),
    ('["sync",2,3]', "synced 2"),
    ('["sync",3,1]', "synced 2"),
    ('["show",1]', "path(1,2,5), path(1,3,4), path(2,3,1)"),
    ('["show",2]', "path(1,2,5), path(1,3,4)"),
    ('["show",3]', "path(1,2,5), path(1,3,4), path(2,3,1)"),
    ('["sync",3,2]', "synced 1"),
    ('["show",2]', "path(1,2,5), path(1,3,4), path(2,3,1)"),
)

A_MERGE_THAT_CLASHES = (
    ('["tell",1,[1,1],[["min",5]]]', "told"),
    ('["merge",1,[[[1,1],[["min",6]]],[[1,2],[["min",1]]]]]', "refused 33"),
    ('["merge",1,[[[1,2],[["min",1]]],[[1,1],[["min",6]]]]]', "refused 33"),
    ('["show",1]', "min(5)"),
    ('["summary",1]', "[[1,[[1,1]]]]"),
)

WHAT_IS_LACKED = (
    ('["tell",1,[1,1],[["min",5]]]', "told"),
    ('["tell",1,[1,2],[["min",3]]]', "told"),
    ('["tell",1,[1,4],[["min",2]]]', "told"),
    ('["tell",1,[2,7],[["min",8],["min",8]]]', "told"),
    ('["summary",1]', "[[1,[[1,2],[4,4]]],[2,[[7,7]]]]"),
    ('["lacks",1,[[1,[[1,3]]]]]', '[2,[[1,[[4,[["min",2]]]]],[2,[[7,[["min",8],["min",8]]]]]]]'),
    ('["lacks",1,[[1,[[1,3]]]],2]', '[2,[[1,[[4,[["min",2]]]]],[2,[[7,[["min",8],["min",8]]]]]]]'),
    ('["lacks",1,[[1,[[1,3]]]],1]', '[[[1,4],[["min",2]]],[[2,7],[["min",8],["min",8]]]]'),
)

REPLICAS_THERE = (
    ('["show",3]', "refused 35"),
    ('["show",0]', "refused 35"),
    ('["tell",1,[1,1],[["max",5]]]', "refused 32"),
    ('["tell",1,[1,1],[]]', "refused 31"),
    ("[]", "refused 31"),
    ('{"a":1}', "refused 31"),
    ('["tell",1,[1,1],[["min",9223372036854775808]]]', "refused 31"),
    ('["sync",1,1]', "synced 0"),
    ("", ""),
)

MESSAGES = (
    ('["tell",1,[5,9],[["a",2],["a",-1]]]', "told"),
    ('["summary",1]', "[[5,[[9,9]]]]"),
    ('["lacks",1,[]]', '[2,[[5,[[9,[["a",-1],["a",2]]]]]]]'),
    ('["lacks",1,[],1]', '[[[5,9],[["a",-1],["a",2]]]]'),
    ('["lacks",1,[[5,[[0,18446744073709551615]]]]]', "[2,[]]"),
    ('["lacks",1,[[5,[[10,9]]]]]', "refused 31"),
    ('["merge",1,[]]', "merged 0"),
    ('["merge",1,[[[5,9],[["a",-1],["a",2]]]]]', "merged 0"),
    ('["merge",1,[[[5,10],[["a",0]]],[[5,10],[["a",0]]]]]', "merged 1"),
    ('["merge",1,[[[5,11],[["a",0]]],[[5,11],[["a",1]]]]]', "refused 33"),
    ('["merge",1,[[[5,12],[["a"]]]]]', "refused 32"),
    ('["tell",1,[4294967296,1],[["a",0]]]', "refused 31"),
    ('["merge",1,[2,[[5,[[9,[["a",2],["a",-1]]]]],[6,[]]]]]', "merged 0"),
    ('["merge",1,[2,[[5,[[9,[["a",0]]]]]]]]', "refused 33"),
    ('["merge",1,[3,[]]]', "refused 31"),
    ('["merge",1,[2]]', "refused 31"),
    ('["lacks",1,[],3]', "refused 31"),
)

MERGED_DELTAS = (
    ('["tell",1,[5,9],[["a",2],["a",-1]]]', "told"),
    ('["summary",2]', "[]"),
    ('["merge",2,[2,[[5,[[9,[["a",-1],["a",2]]]]]]]]', "merged 1"),
    ('["show",2]', "a(-1), a(2)"),
    ('["summary",2]', "[[5,[[9,9]]]]"),
    ('["sync",1,2]', "synced 0"),
    ('["merge",1,[[[5,9],[["a",2],["a",-1]]],[[6,0],[["a",3]]]]]', "merged 1"),
    ('["sync",1,2]', "synced 1"),
    ('["sync",1,2]', "synced 0"),
    ('["show",2]', "a(-1), a(2), a(3)"),
)

EXCHANGE_OF_A_CLASH = (
    ('["tell",1,[1,1],[["a",1]]]', "told"),
    ('["tell",2,[1,1],[["a",2]]]', "told"),
    ('["tell",1,[1,2],[["a",3]]]', "told"),
    ('["sync",1,2]', "synced 1"),
    ('["show",2]', "a(2), a(3)"),
    ('["sync",2,1]', "synced 0"),
    ('["show",1]', "a(1), a(3)"),
)

SUMMARIES = (
    (
        [(1, 4), (1, 2), (1, 3), (1, 1), (1, 6)],
        "[[1,[[1,4],[6,6]]]]",
    ),
    (
        [(1, 18446744073709551615), (1, 18446744073709551614)],
        "[[1,[[18446744073709551614,18446744073709551615]]]]",
    ),
)
"""Ids in the order in which they are told, and the summary."""

CUT_TEXT = ":-chr_constraint min/1.m@min(X)\\min(Y)<=>X=<Y|true."
CUTS = (
    (range(0, 1), "accepted: rules 0, cases 0\n"),
    (range(1, 23), "refused 11: clause 1\n"),
    (range(23, 24), "accepted: rules 0, cases 0\n"),
    (range(24, 51), "refused 11: clause 2\n"),
    (range(51, 52), "accepted: rules 1, cases 17\n"),
)
"""The number of bytes of the text, and the verdict."""

HOSTILE_LINES = (
    ('["tell",1,[5,9],[["a",2]]]', "told"),
    ('["show",1] x', "refused 30"),
    ("[" * 200 + "]" * 200, "refused 30"),
    ('{"tell":1', "refused 30"),
    ('["show",1]' + " " * 1_048_567, "refused 30"),
    ('["show",1]' + " " * 1_048_566, "a(2)"),
    ('["show",1.0]', "refused 31"),
    ('["show"]', "refused 31"),
    ('["merge",1,[[[5,9],[]]]]', "refused 31"),
    ('["merge",1,[[[5,10],[["a",1]]],[[5,11],[["a"]]]]]', "refused 32"),
    ('["merge",1,[[[5,9],[["a",3]]],[[5,11],[["a"]]]]]', "refused 32"),
    ('["merge",2,[[[5,11],[["a"]]]]]', "refused 32"),
    ('["tell",7,[5,9],[["a",3]]]', "refused 35"),
    ('["show",1]', "a(2)"),
)

HELD_MINIMA = WHAT_IS_LACKED[:5]
"""Lines that tell operations, and one that is answered by their summary. The summary and the deltas of all of them:"""

HELD_SUMMARY = WHAT_IS_LACKED[4][1]
HELD_DELTA_2 = '[2,[[1,[[1,[["min",5]]],[2,[["min",3]]],[4,[["min",2]]]]],[2,[[7,[["min",8],["min",8]]]]]]]'
HELD_DELTA_1 = '[[[1,1],[["min",5]]],[[1,2],[["min",3]]],[[1,4],[["min",2]]],[[2,7],[["min",8],["min",8]]]]'

REFUSED_LINES = (
    ('["tell",1,[1,2],[["min",5]]', 30),
    ('["tell",1,[1,2],[["min",5],5]]', 31),
    ('["tell",1,[1,2],[["max",5]]]', 32),
    ('["tell",1,[1,2],[["min"]]]', 32),
    ('["tell",1,[1,2],[["min",5,5]]]', 32),
    ('["tell",1,[1,2],[["min",1,2,3,4,5,6]]]', 32),
    ('["tell",1,[1,2],[["Min",5]]]', 32),
    ('["tell",1,[1,2],[["",5]]]', 32),
    ('["tell",1,[1,2],[["min",5],["max",5]]]', 32),
    ('["tell",1,[1,1],[["min",5]]]', 33),
    ('["tell",1,[1,1],[["min",7],["min",7]]]', 33),
    ('["tell",0,[1,2],[["min",5]]]', 35),
    ('["tell",2,[1,2],[["min",5]]]', 35),
    ('["tell",18446744073709551615,[1,2],[["min",5]]]', 35),
    ('["show",0]', 35),
    ('["show",2]', 35),
    ('["show",4294967297]', 35),
    ('["sync",1,2', 30),
    ('["summary",1', 30),
    ('["lacks",1,[]', 30),
    ('["merge",1,[]', 30),
    ('["merge",1,[[[1,2],[["max",5]]]]]', 32),
    ('["merge",1,[2,[[1,[[2,[["min"]]]]]]]]', 32),
    ('["merge",1,[[[1,2],[["min",9]]],[[1,3],[["max",9]]]]]', 32),
    ('["merge",1,[[[1,2],[["min",9]]],[[1,1],[["min",5]]]]]', 33),
    ('["merge",1,[[[1,2],[["min",9]]],[[1,2],[["min",5]]]]]', 33),
    ('["merge",1,[2,[[1,[[2,[["min",9]]],[1,[["min",5]]]]]]]]', 33),
    ('["sync",1,2]', 35),
    ('["sync",2,1]', 35),
    ('["sync",0,1]', 35),
    ('["sync",18446744073709551615,1]', 35),
    ('["summary",0]', 35),
    ('["summary",2]', 35),
    ('["lacks",2,[]]', 35),
    ('["lacks",0,[],1]', 35),
    ('["merge",2,[]]', 35),
    ('["merge",0,[[[1,2],[["min",9]]]]]', 35),
    ('["merge",2,[[[1,2],[["max",9]]]]]', 32),
    ('["merge",2,[[[1,1],[["min",5]]]]]', 35),
    # the shape before the symbols, these before the replica, and that before the id
    ('["tell",2,[1,1],[["max",5],[]]]', 31),
    ('["tell",2,[1,1],[["max",5]]]', 32),
    ('["tell",1,[1,1],[["max",5]]]', 32),
    ('["tell",2,[1,1],[["min",5]]]', 35),
    ('["tell",2,[1,1],[["min",7]]]', 35),
)
