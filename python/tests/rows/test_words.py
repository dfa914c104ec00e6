"""Words of the command line: which are taken, and what is told of refused ones on standard error."""

import subprocess
import unittest

from chrrep.node import program_path

SECONDS = 60.0
VERDICT = b"accepted: rules 0, cases 0\n"

Words = tuple[str, ...]

TAKEN: tuple[Words, ...] = (
    ("check",),
    ("check", "--"),
    ("check", "--wide"),
    ("run",),
    ("run", "--"),
    ("run", "--replicas", "16"),
    ("run", "--replicas", "02", "--"),
    ("run", "--replicas=2", "--wide"),
    ("run", "--workers=16"),
    ("run", "--parts=64", "--workers", "4", "--"),
    ("serve",),
    ("serve", "--"),
    ("serve", "--replicas", "+2"),
    ("serve", "--parts", "03"),
)
"""Commands that tell the verdict alone where nothing is given to them."""

EXPLAINED: tuple[tuple[Words, bytes], ...] = (
    (("explain",), b"accepted"),
    (("explain", "--"), b"accepted"),
    (("explain", "--dot"), b"graph "),
    (("explain", "--all", "--dot"), b"graph "),
    (("explain", "--wide", "--dot"), b"graph "),
    (("explain", "--html"), b"<!DOCTYPE html>"),
)
"""Explanations of the empty text, and how they begin."""

FROM_STANDARD_INPUT = "The input comes from standard input"
TRY_HELP = "For more information, try '--help'."

CAUSES: tuple[tuple[Words, str], ...] = (
    (("coins.chr",), f"{FROM_STANDARD_INPUT}: chrrep run < coins.chr"),
    (("check", "coins"), f"{FROM_STANDARD_INPUT}: chrrep check < coins"),
    (("run", "--replicas", "2", "a/coins.chr"), f"{FROM_STANDARD_INPUT}: chrrep run < a/coins.chr"),
    (("check", "--wide", "coins"), f"{FROM_STANDARD_INPUT}: chrrep check < coins"),
    (("serve", "-"), f"{FROM_STANDARD_INPUT}, without '-': chrrep serve"),
    (("run", "--file", "coins.chr"), f"{FROM_STANDARD_INPUT}: chrrep run < coins.chr"),
    (("check", "--replicas", "3"), "'--replicas' is an option of 'run' and 'serve'"),
    (("run", "--dot", "coins.chr"), "'--dot' is an option of 'explain'"),
    (("explain", "--parts=2"), "'--parts' is an option of 'run' and 'serve'"),
    (("--wide", "check"), "Options stand behind the command: chrrep check --wide"),
    (("--replicas=3",), "Options stand behind the command: chrrep run --replicas=3"),
    (("run", "--replicas", "x"), TRY_HELP),
    (("weigh",), TRY_HELP),
)
"""Refused words, and the last line that is told of them."""

SHOWN = (
    ("0123456789" * 7, "'012345678901234567890123456789012345678901234567890123456789...'"),
    ("a\x1b[2Jb", "'a\\u{1b}[2Jb'"),
    ("a\nb", "'a\\u{a}b'"),
    ("café 1", "'café 1'"),
)
"""A word that is no command, and how it is shown."""

STATUSES = "\nExit status: 0 the program is accepted, 1 it is refused"

HELP: tuple[tuple[Words, str], ...] = (
    (("--help",), "  chrrep run < FILE"),
    (("help",), "  chrrep run < FILE"),
    (("check", "--help"), "Example: chrrep check < FILE"),
    (("explain", "--help"), "Example: chrrep explain < FILE"),
    (("run", "--help"), "Example: chrrep run < FILE"),
    (("serve", "--help"), "Example: cat FILE - | chrrep serve"),
)
"""Words that ask for help, and a line of it."""

OPTIONS_IN_HELP: tuple[tuple[Words, str, bool], ...] = (
    (("check", "--help"), "refused as 22", True),
    (("explain", "--help"), "--wide", True),
    (("--help",), "--wide", False),
    (("serve", "--help"), "--workers <N>", True),
    (("run", "--help"), "--parts <N>", True),
    (("explain", "--help"), "--parts <N>", False),
)
"""Words that ask for help, a text, and whether the help has it."""

REFUSED: tuple[tuple[Words, str], ...] = (
    ((), "requires a subcommand"),
    (("--help",), "Usage: chrrep"),
    (("help",), "Usage: chrrep"),
    (("check", "--help"), "Usage: chrrep check"),
    (("explain", "--help"), "Usage: chrrep explain"),
    (("run", "--help"), "Usage: chrrep run"),
    (("serve", "--help"), "Usage: chrrep serve"),
    (("--version",), "chrrep 0.1.0"),
    (("-V",), "chrrep 0.1.0"),
    (("check", "--version"), "'--version'"),
    (("ru",), "'ru'"),
    (("chec",), "'chec'"),
    (("weigh",), "'weigh'"),
    (("run", "run"), "'run'"),
    (("check", "run"), "'run'"),
    (("check", "--replicas", "2"), "'--replicas'"),
    (("explain", "--dot=true"), "'--dot'"),
    (("explain", "--dot", "--dot"), "'--dot'"),
    (("check", "--dot"), "'--dot'"),
    (("--replicas", "2", "run"), "'--replicas'"),
    (("run", "--replicas", "0"), "0 is not in 1..=16"),
    (("run", "--replicas", "17"), "17 is not in 1..=16"),
    (("run", "--replicas=-1"), "-1 is not in 1..=16"),
    (("run", "--replicas", "2.0"), "'2.0'"),
    (("run", "--replicas"), "--replicas <N>"),
    (("run", "--replicas", "1", "--replicas", "2"), "--replicas <N>"),
    (("run", "--replicas", "1", "2"), "'2'"),
    (("run", "--replica", "2"), "'--replica'"),
    (("run", "--workers", "0"), "0 is not in 1..=16"),
    (("run", "--workers", "17"), "17 is not in 1..=16"),
    (("serve", "--parts", "0"), "0 is not in 1..=64"),
    (("serve", "--parts=65"), "65 is not in 1..=64"),
    (("run", "--workers"), "--workers <N>"),
    (("run", "--parts=1", "--parts=1"), "--parts <N>"),
    (("check", "--workers", "2"), "'--workers'"),
    (("explain", "--parts", "2"), "'--parts'"),
    (("check", "--wide=true"), "'--wide'"),
    (("run", "--wide", "--wide"), "'--wide'"),
    (("serve", "--wid"), "'--wid'"),
    (("explain", "--wide=true"), "'--wide'"),
    (("check", "--wide", "true"), "'true'"),
)
"""Words that are no command, and a text that is told of them."""


def ended(words: Words) -> tuple[int, bytes, str]:
    """The status of a command to which nothing is given, its output, and what it tells on standard error."""
    end = subprocess.run([program_path(), *words], input=b"", capture_output=True, timeout=SECONDS, check=False)
    return end.returncode, end.stdout, end.stderr.decode()


class CommandLines(unittest.TestCase):
    def told(self, words: Words) -> str:
        """What is told of words that are refused. Nothing is written."""
        status, output, told = ended(words)
        self.assertEqual((status, output), (2, b""))
        return told

    def test_taken(self) -> None:
        for words in TAKEN:
            with self.subTest(words=words):
                self.assertEqual(ended(words), (0, VERDICT, ""))
        for words, start in EXPLAINED:
            with self.subTest(words=words):
                status, output, told = ended(words)
                self.assertEqual((status, output[: len(start)], told), (0, start, ""))

    def test_refused(self) -> None:
        for words, text in REFUSED:
            with self.subTest(words=words):
                self.assertIn(text, self.told(words))

    def test_causes(self) -> None:
        """The likely cause stands in the last line."""
        for words, line in CAUSES:
            with self.subTest(words=words):
                self.assertEqual(self.told(words).splitlines()[-1], line)

    def test_words_are_cut_and_escaped(self) -> None:
        for word, shown in SHOWN:
            with self.subTest(word=word):
                first = self.told((word,)).splitlines()[0]
                self.assertTrue(first.startswith("error: unrecognized subcommand "), first)
                self.assertTrue(first.endswith(shown), first)

    def test_help(self) -> None:
        for words, line in HELP:
            with self.subTest(words=words):
                told = self.told(words)
                self.assertIn(line, told.splitlines())
                self.assertIn(STATUSES, told)
        for words, text, expected in OPTIONS_IN_HELP:
            with self.subTest(words=words, text=text):
                self.assertEqual(text in self.told(words), expected)


if __name__ == "__main__":
    unittest.main()
