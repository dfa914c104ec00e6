"""Names of columns, as `explain` reads them from comments: beside the package's own reader, on random comments."""

import os
import random
import re
import unittest
from collections import Counter
from concurrent.futures import ThreadPoolExecutor

from chrrep.columns import Columns
from test_explanations import PROGRAMS, TEXTS, run

DECLARED = ":- chr_constraint a/2, b/1, a/1, c/0, long_name/6.\n"
SYMBOLS = {("a", 2), ("b", 1), ("a", 1), ("c", 0), ("long_name", 6)}
SEED = 77
HEADING = "These names of columns don't fit the program, and are left out:\n"
FAULT = re.compile(r"^line (\d+), column (\d+): (.*)\n(?:    |  \.\.)(.*)\n    ([ \t]*)\^$", re.M)
WORDS = ("x", "y", "place", "time_2", "X", "_x", "", "x y", "\u00e9", "\u00a0x", "a" * 32, "a" * 33, "true", "x\x1c")
LAYOUT = ("", "", "", " ", "\t", "\x0b\x0c", " \r ")
SIGNS = "%(),. \txX_\u00e9\x00\r<>&\""


def naming(numbers: random.Random) -> str:
    """A comment that may name columns, most likely with something wrong."""
    items = []
    for _ in range(numbers.choice((1, 1, 2, 3))):
        name, arity = numbers.choice(sorted(SYMBOLS) + [("d", 1), ("b", 2)])
        words = [numbers.choice(WORDS[:4] if numbers.random() < 0.7 else WORDS) for _ in range(max(arity, 1))]
        if arity > 1 and numbers.random() < 0.6:
            words = [f"{word}{place}" for place, word in enumerate(words)]
        items.append(f"{name}{numbers.choice(LAYOUT)}({', '.join(words)}{numbers.choice(LAYOUT)})")
    before, behind = numbers.choice(("", "%", " ", " % ")), numbers.choice((" ", "", ": ", "x "))
    text = f"%{before}chr_columns{behind}{', '.join(items)}"
    text += numbers.choice(("", "", "", ".", " ", ". .", ","))
    for _ in range(numbers.choice((0, 0, 0, 1, 2))):
        at = numbers.randrange(1, len(text) + 1)
        text = text[:at] + numbers.choice(SIGNS) + text[at + numbers.randrange(2) :]
    return text


def fact(columns: Columns, name: str, arity: int) -> str:
    """A fact of zeros, with the names of its columns."""
    names = columns.named.get((name, arity))
    values = [f"{column}=0" for column in names] if names else ["0"] * arity
    return f"{name}({(', ' if names else ',').join(values)})" if arity else name


class ColumnsTold(unittest.TestCase):
    def check(self, text: bytes) -> Counter[str]:
        """Names and faults are those that the package reads; a fault's column is that of its caret."""
        status, told = run("explain", text)
        columns = Columns(text)
        self.assertEqual(status, 0, told)
        for name, arity in SYMBOLS:
            example = fact(columns, name, arity)
            twice = f"a fact that is told twice may stay twice, as {example}, {example}\n"
            self.assertIn(f"  {name}/{arity}: {twice}", told)
        found = FAULT.findall(told.partition(HEADING)[2])
        self.assertEqual([f"line {row[0]}" for row in found], [said.partition(":")[0] for said in columns.faults])
        for _, column, _, shown, blanks in found:
            self.assertTrue(all(" " <= sign <= "~" or sign == "\t" for sign in shown), shown)
            if int(column) <= 60:
                self.assertEqual(len(blanks), int(column) - 1)
        return Counter({"named": len(columns.named), "faults": len(found)})

    def test_random_comments(self) -> None:
        numbers = random.Random(SEED)
        texts = []
        for _ in range(PROGRAMS):
            lines = [naming(numbers).replace("\n", " ") for _ in range(numbers.choice((1, 2, 4)))]
            lines.insert(numbers.randrange(len(lines) + 1), DECLARED.strip())
            texts.append("\n".join(lines).encode())
        with ThreadPoolExecutor(os.cpu_count() or 1) as workers:
            kinds = sum(workers.map(self.check, texts), Counter[str]())
        self.assertGreater(min(kinds["named"], kinds["faults"]), PROGRAMS // 10, kinds)

    def test_many_comments(self) -> None:
        """Of many that are wrong 20 are told; a text has at most 65,536 bytes, and is read in a moment."""
        told = run("explain", DECLARED.encode() + b"%chr_columns\n" * 5000)[1]
        self.assertEqual([row[0] for row in FAULT.findall(told)], [str(line) for line in range(2, 22)])
        deep = run("explain", DECLARED.encode() + b"% chr_columns " + b"a(" * 30_000)[1]
        self.assertEqual([row[:2] for row in FAULT.findall(deep)], [("2", "15")])
        many = b"".join(b"%% chr_columns a(x%d, y%d)\n" % (i, i) for i in range(2000))
        self.assertIn("as a(x0=0, y0=0)", run("explain", DECLARED.encode() + many)[1])

    def test_the_verdict_is_the_same(self) -> None:
        """Names mean nothing to it."""
        for named in ("named_parcels", "named_rooms", "named_throngs", "misnamed"):
            text = (TEXTS / f"{named}.chr").read_bytes()
            bare = b"".join(line for line in text.splitlines(keepends=True) if b"% chr_columns" not in line[:20])
            self.assertEqual(run("check", text), run("check", bare), named)


if __name__ == "__main__":
    unittest.main()
