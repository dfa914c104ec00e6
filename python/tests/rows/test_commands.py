"""Whole commands: words and standard input in, standard output, words of error and status out."""

import subprocess
import tempfile
import tomllib
import unittest
from dataclasses import dataclass
from pathlib import Path

from chrrep.node import program_path

EXAMPLES = Path(__file__).resolve().parents[3] / "examples"
PROJECT = Path(__file__).resolve().parents[2] / "pyproject.toml"
SECONDS = 60.0

COINS = """:- chr_constraint coin/0, note/0.
coin, coin <=> note.
---
"""


@dataclass(frozen=True)
class Row:
    """A command and what it does."""

    words: tuple[str, ...]
    input: str
    status: int
    output: str


ROWS = (
    Row(("check",), COINS + '["show",1]\n', 0, "accepted: rules 1, cases 6\n"),
    Row(
        ("run",),
        COINS + '["tell",1,[1,1],[["coin"],["coin"],["coin"],["coin"],["coin"]]]\n["show",1]\n',
        0,
        "accepted: rules 1, cases 6\ntold\ncoin, note, note\n",
    ),
    Row(
        ("run",),
        ':- chr_constraint coin/0, note/0.\ncoin <=> note.\n---\n["show",1]\n',
        1,
        "refused 20: rule 1; before 1; after 1\n",
    ),
    # the last line has no end
    Row(
        ("serve", "--replicas", "2"),
        COINS
        + '["tell",1,[1,1],[["coin"],["coin"],["coin"]]]\n["tell",2,[2,1],[["coin"],["coin"]]]\n'
        + '["sync",1,2]\n["show",2]\n["show",3]',
        0,
        "accepted: rules 1, cases 6\ntold\ntold\nsynced 1\ncoin, note, note\nrefused 35\n",
    ),
    Row(("run", "run"), COINS + '["show",1]\n', 2, ""),
    Row(("--version",), COINS, 2, ""),
    Row(
        ("explain",),
        ":- chr_constraint a/1, b/1.\npair @ a(X), a(Y) <=> X < Y | b(X).\n---\n",
        1,
        """refused 21: one store comes to two ends
  rule 1: pair @ a(X), a(Y) <=> X < Y | b(X).
  rule 1, again: pair @ a(X'), a(Y') <=> X' < Y' | b(X').
One fact is matched by two heads:
  head 2, `a(Y)`, of rule 1 and head 1, `a(X')`, of rule 1, again
Values with which they disagree: X = 0, Y = 1, X' = 1, Y' = 2
The store: a(0), a(1), a(2)
One way:
  1. rule 1 (pair) takes a(0), a(1), and leaves a(2), b(0)
  end: a(2), b(0)
The other way:
  1. rule 1 (pair) takes a(1), a(2), and leaves a(0), b(1)
  end: a(0), b(1)
Two replicas that took these rules in another order would disagree for ever.
Add a rule that takes one end to the other, or write a guard under which only one of the two steps is possible.
No change of one rule was found with which the program is accepted.
""",
    ),
)


def run(words: tuple[str, ...], given: bytes) -> subprocess.CompletedProcess[bytes]:
    return subprocess.run([program_path(), *words], input=given, capture_output=True, timeout=SECONDS, check=False)


class Commands(unittest.TestCase):
    def test_rows(self) -> None:
        for row in ROWS:
            with self.subTest(words=row.words, output=row.output[:40]):
                end = run(row.words, row.input.encode())
                self.assertEqual((end.returncode, end.stdout.decode()), (row.status, row.output))
                # only words that are refused are told with a reason
                self.assertEqual(end.stderr != b"", row.status == 2)

    def test_version(self) -> None:
        """The program's version is that of the package, and its usage names it whatever its file is called."""
        project = tomllib.loads(PROJECT.read_text())["project"]
        self.assertEqual(run(("--version",), b"").stderr.decode(), f"chrrep {project['version']}\n")
        with tempfile.TemporaryDirectory() as folder:
            other = Path(folder) / "other"
            other.symlink_to(Path(program_path()).resolve())
            end = subprocess.run([other, "--help"], capture_output=True, timeout=SECONDS, check=False)
            self.assertIn("Usage: chrrep ", end.stderr.decode())

    def test_examples(self) -> None:
        examples = sorted(EXAMPLES.glob("*.out"))
        self.assertTrue(examples)
        for expected in examples:
            with self.subTest(expected.stem):
                words = expected.with_suffix(".words")
                options = words.read_text().split() if words.exists() else []
                end = run(("run", *options), expected.with_suffix(".chr").read_bytes())
                self.assertEqual(end.stdout, expected.read_bytes())


if __name__ == "__main__":
    unittest.main()
