"""Nodes over folders: what the tests of them share.

The program counts what it is told in bits, so that each operation that is lost or told twice changes the store.
"""

import json
import os
import shutil
import subprocess
import unittest
from collections.abc import Callable, Mapping, Sequence
from functools import cache
from pathlib import Path
from tempfile import TemporaryDirectory
from typing import Any

from chrrep import Atom
from chrrep.node import program_path

KILLS = int(os.environ.get("CHRREP_KILLS", "40"))
SECONDS = 10.0
"""Far longer than anything here takes."""

KILL_SECONDS = float(os.environ.get("CHRREP_KILL_SECONDS", "8"))
"""How long nodes of two folders are killed at random."""

BITS = 26
COUNTED = (
    f":- chr_constraint path/3, {', '.join(f'b{bit}/0' for bit in range(BITS))}.\n"
    "shorter @ path(X,Y,D) \\ path(X,Y,E) <=> D =< E | true.\n"
    + "".join(f"b{bit}, b{bit} <=> b{bit + 1}.\n" for bit in range(BITS - 1))
)
OTHER = ":- chr_constraint coin/0, note/0.\ncoin, coin <=> note.\n"
TURNED = ":- chr_constraint a/0, b/0, c/0.\na, a <=> b.\na, a <=> c.\n"


@cache
def has_node() -> bool:
    """Whether the program has the command."""
    said = subprocess.run([program_path(), "node", "--help"], capture_output=True, text=True, check=False)
    return "--data" in said.stdout + said.stderr


def counted(count: int) -> list[Atom]:
    """The store of so many b0."""
    return [(f"b{bit}",) for bit in range(BITS) if count >> bit & 1]


def number_in(store: Sequence[Atom]) -> int:
    """How many b0 a store stands for."""
    return sum(1 << int(str(atom[0])[1:]) for atom in store if str(atom[0]).startswith("b"))


class Node:
    """`chrrep node`, asked line by line."""

    def __init__(
        self,
        folder: Path,
        *words: str,
        before: Callable[[], None] | None = None,
        under: Mapping[str, str] = {},
        passed: Sequence[int] = (),
    ) -> None:
        self.process = subprocess.Popen(
            [program_path(), "node", "--data", os.fspath(folder), *words],
            stdin=subprocess.PIPE, stdout=subprocess.PIPE, stderr=subprocess.PIPE, text=True, preexec_fn=before,
            env={**os.environ, **under}, pass_fds=passed,
        )

    def ask(self, *words: object) -> Any:
        """The answer to a line; None where the node has ended."""
        assert self.process.stdin and self.process.stdout
        try:
            self.process.stdin.write(json.dumps(words) + "\n")
            self.process.stdin.flush()
        except BrokenPipeError:
            return None
        line = self.process.stdout.readline()
        return json.loads(line) if line.endswith("\n") else None

    def end(self) -> tuple[int, str]:
        """The status, and what was said on the standard error."""
        _, said = self.process.communicate(timeout=60)
        return self.process.returncode, said

    def __enter__(self) -> "Node":
        return self

    def __exit__(self, *_: object) -> None:
        self.process.kill()
        self.process.communicate()


@unittest.skipUnless(has_node(), "the program has no command node")
class Folders(unittest.TestCase):
    def setUp(self) -> None:
        room = TemporaryDirectory()
        self.addCleanup(room.cleanup)
        self.room = Path(room.name)
        self.folder = self.room / "shop"
        self.program = self.room / "counted.chr"
        self.program.write_text(COUNTED)

    def begun(self, *words: str, **more: Any) -> Node:
        node = Node(self.folder, "--program", os.fspath(self.program), *words, **more)
        self.addCleanup(node.__exit__)
        return node

    def feeds(self) -> list[Path]:
        return sorted((self.folder / "feeds").iterdir())

    def shown(self, folder: Path | None = None) -> list[Atom]:
        with Node(folder or self.folder) as node:
            return [tuple(atom) for atom in node.ask("show")[1]]


def bring(source: Path, target: Path) -> None:
    """Copies feeds as `rsync -au` does: whole files, which take the place of older ones alone. A copy has the time that
    its feed had before it was read, so that what is written meanwhile is copied the next time."""
    for feed in (source / "feeds").glob("*.feed"):
        there, time = target / "feeds" / feed.name, feed.stat().st_mtime_ns
        if not there.exists() or there.stat().st_mtime_ns < time:
            draft = target / f".{feed.name}"
            shutil.copyfile(feed, draft)
            os.utime(draft, ns=(time, time))
            draft.rename(there)
