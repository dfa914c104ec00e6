"""Runs with little stack: with less than is asked for nothing is done, and just that much is enough for any input."""

import itertools
import resource
import subprocess
import tempfile
import unittest
from collections.abc import Sequence
from dataclasses import dataclass
from pathlib import Path

from chrrep.node import program_path
from shims import is_script

EXAMPLES = Path(__file__).resolve().parents[3] / "examples"
SECONDS = 60.0
KIB = 1_024
ENOUGH = 256 * KIB
TOO_LITTLE = (64 * KIB, 128 * KIB, ENOUGH - 1)
WANT_OF_STACK = 4
MOST_BRACKETS = 127
TEXT = ":- chr_constraint a/1.\na(X) \\ a(Y) <=> X < Y | true.\n---\n"


@dataclass(frozen=True)
class End:
    status: int
    output: str
    errors: str


def ended(words: Sequence[str], given: str, stack: int | None = None) -> End:
    """How a command ends that may have so much stack."""

    def limit() -> None:
        if stack is not None:
            resource.setrlimit(resource.RLIMIT_STACK, (stack, stack))

    command = [program_path(), *words]
    end = subprocess.run(
        command, input=given, capture_output=True, text=True, timeout=SECONDS, check=False, preexec_fn=limit
    )
    return End(end.returncode, end.stdout, end.stderr)


def rules_of_four_heads(count: int) -> str:
    """Rules of one symbol whose sorted cases are looked at by several threads."""
    names = ", ".join(f"a{number}/4" for number in range(count))
    rules = "".join(
        f"a{number}(A,B,C,D), a{number}(E,F,G,H), a{number}(I,J,K,L), a{number}(M,N,O,P) <=> A < {number} | true.\n"
        for number in range(count)
    )
    return f":- chr_constraint {names}.\n{rules}"


class Stacks(unittest.TestCase):
    @classmethod
    def setUpClass(cls) -> None:
        if is_script(program_path()):
            raise unittest.SkipTest("a shell would get the stack too: CHRREP has to name the program itself")

    def check_enough(self, words: Sequence[str], given: str) -> End:
        """With just enough stack a command ends as with ample."""
        end = ended(words, given, ENOUGH)
        self.assertEqual(end, ended(words, given))
        return end

    def test_too_little_stack(self) -> None:
        """Nothing is written, on standard error neither, and nothing is read."""
        commands = ["check", "explain", "run", "serve", "--version", "--help", "nothing"]
        for stack, command in itertools.product(TOO_LITTLE, commands):
            with self.subTest(command, stack=stack), tempfile.TemporaryFile() as file:
                file.write(TEXT.encode())
                file.seek(0)
                end = subprocess.run(
                    [program_path(), command],
                    stdin=file,
                    capture_output=True,
                    timeout=SECONDS,
                    check=False,
                    preexec_fn=lambda stack=stack: resource.setrlimit(resource.RLIMIT_STACK, (stack, stack)),
                )
                self.assertEqual((end.returncode, end.stdout, end.stderr), (WANT_OF_STACK, b"", b""))
                self.assertEqual(file.tell(), 0)

    def test_examples(self) -> None:
        for file in sorted(EXAMPLES.glob("*.chr")):
            words = file.with_suffix(".words")
            options = words.read_text().split() if words.exists() else []
            given = file.read_text()
            with self.subTest(file.name):
                self.assertEqual(ended(["run", *options], given, ENOUGH).output, file.with_suffix(".out").read_text())
                self.check_enough(["explain", *[option for option in options if option == "--wide"]], given)

    def test_as_many_brackets_as_may_be(self) -> None:
        """Lines of brackets in brackets, read in their turn and by threads that read ahead."""
        arrays = "[" * MOST_BRACKETS + "]" * MOST_BRACKETS
        objects = '{"a":' * MOST_BRACKETS + "1" + "}" * MOST_BRACKETS
        answers = ["refused 31", "refused 31", "told", "refused 30"]
        lines = [arrays, objects, '["tell",1,[1,{}],[["a",1]]]', f"[{arrays}]"]
        given = TEXT + "".join(f"{line}\n" for number in range(500) for line in lines).replace("{}", "1")
        for words in (["run"], ["serve"], ["run", "--workers", "4", "--parts", "16"]):
            with self.subTest(words):
                told = self.check_enough(words, given).output.splitlines()
                self.assertEqual(told[1:5], answers)
                self.assertEqual(set(told[5:]), {"refused 31", "again", "refused 30"})
                self.assertEqual(len(told), 2001)

    def test_threads_of_a_verdict(self) -> None:
        for count, words in itertools.product((8, 64), (["check"], ["check", "--wide"], ["explain", "--wide"])):
            with self.subTest(words, rules=count):
                self.check_enough(words, rules_of_four_heads(count))


if __name__ == "__main__":
    unittest.main()
