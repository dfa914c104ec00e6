"""Command lines behind a program text, as `explain` tells which of them are refused, why and where."""

import itertools
import random
import re
import unittest
from collections import Counter

import run_rows
from random_inputs import Lines, symbols_of
from slow_lines import Refused, World, parts, value_of
from slow_reader import read
from test_explanations import PROGRAMS, run

PROGRAM = b"% Offers\n:- chr_constraint a/1, coin/0, path/3.\na(X), a(X) <=> a(X).\n---\n"
FIRST = 5
"""The number of the first line behind the program."""

INDENT, MAX_SHOWN = 4, 60
"""How far a line is shown from the left, and how many of its bytes at most before the caret."""

HANGING = (
    "What hangs on the lines before isn't looked at: 33, an id that stands for other atoms, and 34, too many atoms.\n"
)
COMMAND = '`["show",1]` or `["tell",1,[1,1],[["coin"]]]`'
ARGUMENT = "argument 1 of `a` is a whole number of 64 bits"
ATOMS = 'an operation has 1 to 64 atoms in an array, as `[["coin"],["path",1,2,7]]`'
NUMBER = "this is no JSON number: whole numbers are written as 1 or -5, without `+` and without zeros in front"
WORDS = '`"tell"`, `"show"`, `"sync"`, `"summary"`, `"lacks"` or `"merge"`'
TELL = '`tell` takes a replica, an id and atoms, as `["tell",1,[1,1],[["coin"],["path",1,2,7]]]`'

ROWS: list[tuple[str, int, int, str, str]] = [
    # no JSON value
    ('["show",1', 10, 30, "the line ends here, and a closing bracket is missing", ""),
    ('["tell",1,[1,1],[["coin"', 25, 30, "the line ends here, and 3 closing brackets are missing", ""),
    ("show 1", 1, 30, f"a command line is a JSON array, as {COMMAND}", ""),
    ("path(1,2,7)", 1, 30, f"a command line is a JSON array, as {COMMAND}", ""),
    ("?", 1, 30, f"a command line is a JSON array, as {COMMAND}", ""),
    ("% a comment", 1, 30, "a comment stands in the program text, before the line `---`", ""),
    ("[show,1]", 2, 30, 'a text stands in double quotes: `"show"`, and each argument is a whole number', ""),
    (
        '["tell",1,[1,1],[["a",anna]]]',
        23,
        30,
        'a text stands in double quotes: `"anna"`, and each argument is a whole number',
        "",
    ),
    ("['show',1]", 2, 30, "a text stands in double quotes, not in single ones", ""),
    ('["show,1]', 2, 30, "this text has no double quote at its end", ""),
    ('["show",1],', 11, 30, "the command has ended before this: each stands on a line of its own", ""),
    ('["show",1]["show",1]', 11, 30, "the command has ended before this: each stands on a line of its own", ""),
    ('["show",1]]', 11, 30, "the command has ended before this: each stands on a line of its own", ""),
    ('["show",,1]', 9, 30, "a value belongs here: a comma stands between two of them", ""),
    ('["show",1,]', 11, 30, "a value belongs here: a comma stands between two of them", ""),
    ('["show" 1]', 9, 30, "a comma is missing before this", ""),
    ('["show",1}', 10, 30, "this bracket closes none that is open", ""),
    ("]", 1, 30, "this bracket closes none that is open", ""),
    ('["show",01]', 9, 30, NUMBER, ""),
    ('["show",+1]', 9, 30, NUMBER, ""),
    ('["show",1e400]', 9, 30, NUMBER, ""),
    ('["show",(1)]', 9, 30, "no JSON value begins with this character", ""),
    ('["sh\tow",1]', 5, 30, "this character is written with a backslash, as `\\t` or `\\n`", ""),
    (
        '["sh\\ow",1]',
        5,
        30,
        'behind a backslash stands one of the characters `"\\/bfnrt`, or `u` with four hexadecimal digits',
        "",
    ),
    ('["\\ud800",1]', 3, 30, "this escape is one half of a character, without the other one", ""),
    ("[" * 128 + "]" * 128, 128, 30, "more than 127 brackets stand in one another", ""),
    ("{1:2}", 2, 30, "a name in double quotes belongs here, as objects have members; commands have none", ""),
    ('{"show",1}', 8, 30, "a colon belongs here, as in objects; commands have none", ""),
    # no command
    ('{"show":1}', 1, 31, 'a command is an array, as `["show",1]`; this is an object', ""),
    ("1", 1, 31, 'a command is an array, as `["show",1]`; this is a number', ""),
    ("[]", 2, 31, f"a command begins with its word: {WORDS}; here is none", ""),
    ("[1]", 2, 31, f"a command begins with its word: {WORDS}; this is a number", ""),
    ('["shew",1]', 2, 31, f'a command begins with its word: {WORDS}; `"shew"` is none of them', ""),
    ('["show"]', 8, 31, '`show` takes a replica, as `["show",1]`; one of them is missing', ""),
    ('["show",1,2]', 11, 31, '`show` takes a replica, as `["show",1]`; this is too much', ""),
    ('["tell",[1,1],[["coin"]]]', 25, 31, f"{TELL}; one of them is missing", ""),
    (
        '["sync",1]',
        10,
        31,
        '`sync` takes the replica that gives and the one that takes, as `["sync",1,2]`; one of them is missing',
        "",
    ),
    ('["show",2.5]', 9, 31, "a replica is a whole number: 1 is the first one; this has a fraction or an exponent", ""),
    ('["show",-1]', 9, 31, "a replica is a whole number: 1 is the first one; this is below 0", ""),
    ('["show",null]', 9, 31, "a replica is a whole number: 1 is the first one; this is `null`", ""),
    (
        '["show","1"]',
        9,
        31,
        "a replica is a whole number: 1 is the first one; this is a text of digits",
        "write the number without double quotes",
    ),
    ('["show","one"]', 9, 31, "a replica is a whole number: 1 is the first one; this is a text", ""),
    (
        '["tell",1,1,[["coin"]]]',
        11,
        31,
        "an id is an array of two whole numbers, the origin and the number there, as `[1,1]`; this is a number",
        "",
    ),
    (
        '["tell",1,[1],[["coin"]]]',
        13,
        31,
        "an id is an array of two whole numbers, the origin and the number there, as `[1,1]`; one of them is missing",
        "",
    ),
    (
        '["tell",1,[4294967296,1],[["coin"]]]',
        12,
        31,
        "an origin is a whole number from 0 to 4294967295; this is too large",
        "",
    ),
    (
        '["tell",1,[1,18446744073709551616],[["coin"]]]',
        14,
        31,
        "a number of an operation is a whole one from 0 to 18446744073709551615; this is too large",
        "",
    ),
    ('["tell",1,[1,1],[]]', 18, 31, f"{ATOMS}; here is none", ""),
    ('["tell",1,[1,1],"coin"]', 17, 31, f"{ATOMS}; this is a text", ""),
    ('["tell",1,[1,1],[' + ",".join(['["coin"]'] * 65) + "]]", 594, 31, f"{ATOMS}; this is too much", ""),
    (
        '["tell",1,[1,1],["coin"]]',
        18,
        31,
        'an atom is an array of its name and its arguments, as `["path",1,2,7]`; this is a text',
        'a pair of brackets is missing: write `[["coin"]]` for `["coin"]`',
    ),
    (
        '["tell",1,[1,1],[["coin"],{}]]',
        27,
        31,
        'an atom is an array of its name and its arguments, as `["path",1,2,7]`; this is an object',
        "",
    ),
    (
        '["tell",1,[1,1],[[]]]',
        19,
        31,
        'an atom begins with its name in double quotes, as `["coin"]`; here is none',
        "",
    ),
    (
        '["tell",1,[1,1],[[1,"a"]]]',
        19,
        31,
        'an atom begins with its name in double quotes, as `["coin"]`; this is a number',
        "",
    ),
    (
        ' ["tell", 1, [1, 1], [["a", 2.5]]]',
        29,
        31,
        f"{ARGUMENT}; this has a fraction or an exponent",
        "count in a smaller unit, as 250 hundredths for 2.5",
    ),
    (
        '["tell",1,[1,1],[["path",1,"anna",2]]]',
        28,
        31,
        "argument 2 of `path` is a whole number of 64 bits; this is a text",
        "give each name a number of its own, and write that",
    ),
    ('["tell",1,[1,1],[["a",9223372036854775808]]]', 23, 31, f"{ARGUMENT}; this is too large", ""),
    ('["tell",1,[1,1],[["a",true]]]', 23, 31, f"{ARGUMENT}; this is `true` or `false`", ""),
    ('["tell",1,[1,1],[["a",[1]]]]', 23, 31, f"{ARGUMENT}; this is an array", ""),
    (
        '["tell",1,[1,1],[["a","7"]]]',
        23,
        31,
        f"{ARGUMENT}; this is a text of digits",
        "write the number without double quotes",
    ),
    (
        '["lacks",1,[[1,[[5,3]]]]]',
        20,
        31,
        "the last number of a range is no less than its first, as in `[1,5]`; this is a number",
        "",
    ),
    ('["lacks",1,[],3]', 15, 31, "a version is 1 or 2; this is a number", ""),
    ('["merge",1,[1,[]]]', 13, 31, "a delta that begins with a number begins with 2; this is a number", ""),
    (
        '["merge",1,[2,[[1,[[1,["coin"]]]]]]]',
        24,
        31,
        'an atom is an array of its name and its arguments, as `["path",1,2,7]`; this is a text',
        'a pair of brackets is missing: write `[["coin"]]` for `["coin"]`',
    ),
    # what isn't declared, and replicas
    ('["tell",1,[1,1],[["b"]]]', 19, 32, "`b/0` is not declared; declared are `a/1`, `coin/0`, `path/3`", ""),
    ('["tell",1,[1,1],[["coin"],["a",1,2]]]', 28, 32, "`a/2` is not declared; declared are `a/1`", ""),
    (
        '["merge",1,[[[1,1],[["coin"]]],[[1,2],[["coin"],["b",7]]]]]',
        50,
        32,
        "`b/1` is not declared; declared are `a/1`, `coin/0`, `path/3`",
        "",
    ),
    (
        '["merge",1,[2,[[1,[[1,[["coin"]]],[2,[["Coin"]]]]]]]]',
        40,
        32,
        "`Coin/0` is not declared; declared are `a/1`, `coin/0`, `path/3`",
        "",
    ),
    ('["show",0]', 9, 35, "there is no replica 0: they have the numbers from 1 on, up to 16", ""),
    ('["sync",1,17]', 11, 35, "there is no replica 17: they have the numbers from 1 on, up to 16", ""),
]
"""A line, the column at which it is refused, by which number and in what words, and what would be right."""

TOLD = re.compile(r"^line (\d+), column (\d+), refused (\d+): (.*)$", re.M)
WANTED = re.compile(r"^The lines want `--replicas (\d+)`: .* line (\d+) is the first\.$", re.M)
BY_LINE = (30, 31, 32, 35)
"""The numbers by which a line is refused for what it says."""
MOST = 16
"""The greatest number of replicas."""

PIECE = re.compile(rb'"(?:\\.|[^"\\\x00-\x1f])*"|[\w.+\x80-\xff-]+|.', re.DOTALL)
ENDINGS = (b"", b'"', b"0", b'":0', b":0", b'"k":0')


def explained(lines: bytes, *options: str) -> str:
    """What is told of lines behind the program."""
    return run("explain", PROGRAM + lines, *options)[1].partition("Command lines: ")[2]


def brackets(text: bytes) -> bytes:
    """The brackets that close all that are open outside texts."""
    closing: list[bytes] = []
    for bracket in re.findall(rb"[][{}]", re.sub(rb'"(?:\\.|[^"\\])*"?', b"", text, flags=re.DOTALL)):
        if bracket in b"[{":
            closing.append(b"]" if bracket == b"[" else b"}")
        elif closing:
            closing.pop()
    return b"".join(reversed(closing))


def can_go_on(front: bytes) -> bool:
    """Whether some bytes behind these make a JSON value of them."""
    for ending in ENDINGS:
        try:
            value_of(front + ending + brackets(front))
        except Refused:
            continue
        return True
    return False


def refused_by(given: bytes, replicas: int) -> dict[int, int]:
    """By which number a run with `replicas` replicas refuses lines for what they say, by the model."""
    text, lines = parts(given)
    world = World(read(text), [{} for _ in range(replicas)])
    first = text.count(b"\n") + 2
    found = {}
    for number, line in enumerate(lines, first):
        answer = world.answer(line)
        if answer is not None and answer.startswith("refused ") and int(answer.split()[1]) in BY_LINE:
            found[number] = int(answer.split()[1])
    return found


class Rows(unittest.TestCase):
    maxDiff = None

    def test_each_mistake(self) -> None:
        for line, column, number, words, advice in ROWS:
            with self.subTest(line[:60]):
                told = explained(line.encode())
                self.assertEqual(told.partition("\n")[0], "1, of which `run` refuses 1, whatever came before:")
                first, _shown, caret, *rest = told.splitlines()[1:]
                self.assertEqual(first, f"line {FIRST}, column {column}, refused {number}: {words}")
                self.assertEqual(caret, " " * (INDENT + min(column - 1, MAX_SHOWN)) + "^")
                self.assertEqual(rest[:-1], [f"    {advice}"] if advice else [])
                self.assertEqual(f"{rest[-1]}\n", HANGING)

    def test_names_of_columns(self) -> None:
        """An argument has the name of its column, where the text names those of a symbol with as many arguments."""
        named = PROGRAM.replace(b"% Offers\n", b"% chr_columns path(from, to, km), a(offer)\n")
        whole = "is a whole number of 64 bits; this"
        offer, path = "`a/1` (offer)", "`path/3` (from, to, km)"
        rows = [
            ('["tell",1,[1,1],[["path",1,"anna",2]]]', 28, 31, f"argument 2 (to) of `path` {whole}"),
            ('["tell",1,[1,1],[["coin"],["a",2.5]]]', 32, 31, f"argument 1 (offer) of `a` {whole}"),
            ('["merge",1,[2,[[1,[[1,[["path",1,2,[]]]]]]]]]', 36, 31, f"argument 3 (km) of `path` {whole}"),
            ('["tell",1,[1,1],[["path",1,"anna"]]]', 28, 31, f"argument 2 of `path` {whole}"),
            ('["tell",1,[1,1],[["pa\\u0074h",1,2,true]]]', 35, 31, f"argument 3 of `pa\\u0074h` {whole}"),
            ('["tell",1,[1,1],[["path",1,2]]]', 19, 32, f"`path/2` is not declared; declared are {path}"),
            ('["tell",1,[1,1],[["b"]]]', 19, 32, f"`b/0` is not declared; declared are {offer}, `coin/0`, {path}"),
        ]  # fmt: skip
        for line, column, number, words in rows:
            with self.subTest(line):
                told = run("explain", named + line.encode())[1].partition("Command lines: ")[2].splitlines()[1]
                self.assertTrue(told.startswith(f"line {FIRST}, column {column}, refused {number}: {words}"), told)

    def test_lines_that_are_taken(self) -> None:
        taken = b'["show",1]\r\n\n \t\r\n["tell",1,[1,1],[["coin"]]]\n["tell",1,[1,1],[["a",1]]]\n'
        self.assertEqual(explained(taken), f"3, none of them refused for what it says.\n{HANGING}")

    def test_no_lines(self) -> None:
        for lines in (b"", b"\n", b" \t\r\n\n"):
            self.assertNotIn("Command lines", run("explain", PROGRAM + lines)[1])
        self.assertNotIn("Command lines", run("explain", PROGRAM.partition(b"---")[0])[1])

    def test_a_refused_program(self) -> None:
        """A run answers no lines of it."""
        for text in (b":- chr_constraint a/0.\na <=> a.\n", b"a <=> true.\n"):
            status, told = run("explain", text + b"---\nshow 1\n")
            self.assertEqual((status, told), run("explain", text))

    def test_replicas(self) -> None:
        lines = b'["show",1]\n["show",2]\n["sync",3,1]\n["show",17]\n'
        told = explained(lines)
        self.assertEqual([row[:3] for row in TOLD.findall(told)], [("8", "9", "35")])
        self.assertEqual(WANTED.findall(told), [("3", "6")])

    def test_a_long_line(self) -> None:
        told = explained(b" " * 1_048_577 + b'["show",1]\n' + b" " * 1_048_566 + b'["show",1]\n')
        self.assertEqual(
            TOLD.findall(told),
            [("5", "1048577", "30", "the line has more than 1048576 bytes: write several")],
        )

    def test_many_lines(self) -> None:
        told = explained(b"show 1\n" * 3_000)
        self.assertEqual(told.partition("\n")[0], "3000, of which `run` refuses 3000, whatever came before:")
        self.assertEqual([int(row[0]) for row in TOLD.findall(told)], [*range(FIRST, FIRST + 100)])
        self.assertIn("\nand 2900 more\n", told)

    def test_bytes_that_are_no_text(self) -> None:
        told = explained(b'["sh\xff\x1b[31mow",1]\n')
        self.assertEqual(TOLD.findall(told), [("5", "5", "30", "this byte is no UTF-8")])
        self.assertTrue(all(" " <= sign <= "~" or sign == "\n" for sign in told))


class RandomLines(unittest.TestCase):
    def check(self, given: bytes) -> Counter[int]:
        told = run("explain", given)[1]
        expected = refused_by(given, MOST)
        self.assertEqual({int(row[0]): int(row[2]) for row in TOLD.findall(told)}, expected)
        lines = dict(enumerate(given.split(b"\n"), 1))
        for number, column, refusal, _ in TOLD.findall(told):
            if refusal == "30":
                self.check_place(lines[int(number)].removesuffix(b"\r"), int(column) - 1)
        self.check_replicas(given, told, expected)
        return Counter(expected.values())

    def check_place(self, line: bytes, at: int) -> None:
        """Up to there it may be the front of a JSON value, and with what stands there it is none."""
        self.assertTrue(can_go_on(line[:at]), (line, at))
        piece = PIECE.match(line, at)
        if piece and piece.end() < len(line) and not (piece[0] == b'"'):
            self.assertFalse(can_go_on(line[: piece.end() + 1]), (line, at))

    def check_replicas(self, given: bytes, told: str, expected: dict[int, int]) -> None:
        """The least number of replicas that refuses no more lines."""
        wanted = next(count for count in range(1, MOST + 1) if refused_by(given, count) == expected)
        found = WANTED.search(told)
        self.assertEqual(int(found[1]) if found else 1, wanted)
        if found:
            self.assertEqual(int(found[2]), min(refused_by(given, 1).items() - expected.items())[0])

    def test_random_lines(self) -> None:
        chance = random.Random(76)
        kinds: Counter[int] = Counter()
        texts = [text.encode() for text in (run_rows.MINIMUM_TEXT, run_rows.PATHS_TEXT, run_rows.ONE_TEXT)]
        for number, text in zip(range(PROGRAMS), itertools.cycle([*texts, PROGRAM.partition(b"---")[0]])):
            lines = Lines(chance, symbols_of(text), 3)
            lines.odd = chance.choice((0.02, 0.2, 0.6))
            with self.subTest(number):
                kinds += self.check(text + b"\n---\n" + lines.lines())
        self.assertGreater(min(kinds[number] for number in BY_LINE), PROGRAMS // 100, kinds)


if __name__ == "__main__":
    unittest.main()
