"""A stranger's path: each command of a document is run in a fresh folder, and writes what the document shows.

A fenced block's language says what it is:

    console           lines `$ COMMAND`, which are run in turn, each with what it writes on standard output below it
    LANGUAGE FILE     a file that the reader writes before; of a file in examples/, lines that stand there together
    text              what can't be run here

The folder has what a clone has: `./chrrep`, `examples` and `python`.
"""

import os
import re
import subprocess
import sys
import unittest
from collections.abc import Iterator
from dataclasses import dataclass
from pathlib import Path
from tempfile import TemporaryDirectory

from chrrep.node import program_path

TOP = Path(__file__).resolve().parents[2]
EXAMPLES = TOP / "examples"
FIRST_FORMS = TOP / "python" / "tests" / "rows" / "explanations"
SECONDS = 60.0

# each document with the least number of its commands
PATHS = {"README.md": 3, "docs/GUIDE.md": 11, "docs/REFERENCE.md": 1, "examples/README.md": 2}
DOCUMENTS = ("README.md", "CONTRIBUTING.md", "LICENSE.md", "examples/README.md") + tuple(
    f"{folder}/{path.name}" for folder in ("bench", "docs") for path in sorted((TOP / folder).glob("*.md"))
)
MAX_README = 8 * 1024
MAX_COLUMNS = 120
MAX_CELL = 200
LEAST_ACCEPTED = 32
LEAST_SOURCES = 1000
# a first form is accepted after two explanations at most
ROUNDS = ("first", "second")
LEAST_FIRST_FORMS = 32

BLOCK = re.compile(r"^```([^\n]*)\n(.*?)^```$", re.MULTILINE | re.DOTALL)
CELL_END = re.compile(r"(?<!\\)\|")
NAMES = re.compile(r"(`\w+`(, )?)*")
LINK = re.compile(r"\]\(([^)#]+)\)")
SOURCES = ("src/**/*.rt", "specs/**/*.antt", "proofs/**/*.antt")
# a comment, a quote as a character, or a string, whose width is that of what it says
QUOTED = re.compile(r"""(?://|--)[^\n]*|'\\?"'|"(?:[^"\\]|\\.)*\"""", re.DOTALL)
# (NAME stands for any)
QUOTED_FILE = re.compile(r"`((?:docs|examples|tools|python|bench|release)/(?!\S*NAME)[^`\s*{}.]+\.[a-z]+|[A-Z]+\.md)`")


@dataclass(frozen=True)
class Block:
    language: str
    file: str
    text: str


def read(name: str) -> str:
    return (TOP / name).read_text(encoding="utf-8")


def blocks(name: str) -> Iterator[Block]:
    for words, text in BLOCK.findall(read(name)):
        language, _, file = words.partition(" ")
        yield Block(language, file, text)


def commands(text: str) -> Iterator[tuple[str, str]]:
    """Each command of a block, and what it is to write."""
    for part in re.split(r"^\$ ", text, flags=re.MULTILINE)[1:]:
        command, _, output = part.partition("\n")
        yield command, output


class Stranger:
    """A reader in a fresh folder."""

    def __init__(self, room: Path) -> None:
        self.folder = room / "clone"
        self.folder.mkdir()
        for name in ("examples", "python"):
            (self.folder / name).symlink_to(TOP / name)
        self.script(self.folder / "chrrep", program_path())
        self.script(room / "bin" / "python3", sys.executable, "-B")
        path = f"{room / 'bin'}:{os.environ['PATH']}"
        self.env = {**os.environ, "PATH": path, "CHRREP": program_path(), "HOME": str(room)}

    def script(self, at: Path, *words: str) -> None:
        at.parent.mkdir(exist_ok=True)
        quoted = " ".join(f"'{word}'" for word in words)
        at.write_text(f'#!/bin/sh\nexec {quoted} "$@"\n')
        at.chmod(0o755)

    def write(self, name: str, text: str) -> None:
        (self.folder / name).write_text(text)

    def run(self, command: str) -> str:
        ended = subprocess.run(
            ["sh", "-c", command],
            cwd=self.folder,
            env=self.env,
            stdin=subprocess.DEVNULL,
            capture_output=True,
            timeout=SECONDS,
            check=False,
        )
        return ended.stdout.decode()


class Paths(unittest.TestCase):
    maxDiff = None

    def walk(self, name: str) -> int:
        """How many commands were run."""
        count = 0
        with TemporaryDirectory() as room:
            stranger = Stranger(Path(room))
            for block in blocks(name):
                if block.language == "console":
                    for command, output in commands(block.text):
                        with self.subTest(f"{name}: {command}"):
                            self.assertEqual(stranger.run(command), output)
                        count += 1
                elif block.file.startswith("examples/"):
                    with self.subTest(f"{name}: {block.file}"):
                        self.assertIn("\n" + block.text, "\n" + read(block.file))
                elif block.file:
                    stranger.write(block.file, block.text)
                else:
                    self.assertEqual(block.language, "text", f"{name}: neither run nor marked:\n{block.text}")
        return count

    def test_each_command(self) -> None:
        for name, least in PATHS.items():
            count = self.walk(name)
            print(f"{name}: {count} commands were run ..", end=" ")
            self.assertGreaterEqual(count, least)


class Documents(unittest.TestCase):
    def test_sizes(self) -> None:
        """Lines and cells are short; a row of a table may be longer than a line, and a list of crates than a cell."""
        self.assertLessEqual(len(read("README.md").encode()), MAX_README)
        for name in DOCUMENTS:
            for number, line in enumerate(read(name).splitlines(), 1):
                with self.subTest(f"{name}: {number}"):
                    if line.startswith("|"):
                        cells = [cell.strip() for cell in CELL_END.split(line)]
                        self.assertLessEqual(max(len(NAMES.sub("", cell)) for cell in cells), MAX_CELL)
                    else:
                        self.assertLessEqual(len(line), MAX_COLUMNS)

    def test_files_that_are_named(self) -> None:
        for name in DOCUMENTS:
            text = read(name)
            folder = (TOP / name).parent
            for file in LINK.findall(text):
                with self.subTest(f"{name}: {file}"):
                    self.assertTrue("://" in file or (folder / file).exists())
            for file in QUOTED_FILE.findall(text):
                with self.subTest(f"{name}: {file}"):
                    self.assertTrue(any((place / file).exists() for place in (TOP, folder, TOP / "docs")))


def unquoted(text: str) -> str:
    """The text with its strings empty, in as many lines."""
    return QUOTED.sub(lambda it: '"' + "\n" * it[0].count("\n") + '"' if it[0].startswith('"') else it[0], text)


class Sources(unittest.TestCase):
    def test_lines(self) -> None:
        """Lines are as short as those of documents, but for strings, and for the only name of an import."""
        paths = [path for pattern in SOURCES for path in (TOP / "crates").glob(f"*/{pattern}")]
        self.assertGreaterEqual(len(paths), LEAST_SOURCES)
        for path in paths:
            for number, line in enumerate(unquoted(path.read_text(encoding="utf-8")).split("\n"), 1):
                if len(line) > MAX_COLUMNS and not (line.startswith("use ") and ", " not in line):
                    self.fail(f"{path.relative_to(TOP)}: {number}: {len(line)} columns")


class Examples(unittest.TestCase):
    def test_list(self) -> None:
        """Each example has its output, whose first line a check writes, and a row in the list; most are accepted."""
        told = read("examples/README.md")
        accepted = 0
        for example in sorted(EXAMPLES.glob("*.chr")):
            with self.subTest(example.stem):
                self.assertIn(f"| `{example.stem}` |", told)
                words = example.with_suffix(".words")
                options = [word for word in (words.read_text().split() if words.exists() else []) if word == "--wide"]
                verdict = subprocess.run(
                    [program_path(), "check", *options], input=example.read_bytes(), capture_output=True, check=False
                ).stdout.decode()
                self.assertEqual(verdict, example.with_suffix(".out").read_text().splitlines(keepends=True)[0])
                accepted += verdict.startswith("accepted: ")
        self.assertGreaterEqual(accepted, LEAST_ACCEPTED)

    def test_first_forms(self) -> None:
        """What one writes first, and then, is refused, if only without `--wide`, and names the example of that name,
        which is accepted."""
        rounds = [{form.stem.partition("_")[2]: form for form in FIRST_FORMS.glob(f"{it}_*.chr")} for it in ROUNDS]
        self.assertGreaterEqual(len(rounds[0]), LEAST_FIRST_FORMS)
        self.assertLessEqual(rounds[1].keys(), rounds[0].keys())
        for name, form in sorted(rounds[0].items()):
            with self.subTest(form.stem):
                self.assertIn(f"examples/{name}.chr", form.read_text())
                self.assertTrue((EXAMPLES / f"{name}.out").read_text().startswith("accepted"))
                for refused in (it[name] for it in rounds if name in it):
                    self.assertFalse(refused.with_suffix(".out").read_text().startswith("accepted:"))


if __name__ == "__main__":
    unittest.main()
