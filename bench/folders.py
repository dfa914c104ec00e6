#!/usr/bin/env python3
"""Times `chrrep node` beside SQLite and beside plain appends, on the disk that a folder lies on, in one run:

    ./bench/folders.py release/chrrep-x86_64-linux FOLDER [--count 100000] [--single 1000]

- *told*: facts are told by 100 lines a write, and one by one, each awaited. SQLite (WAL, `synchronous=FULL`) commits
  as many rows of the same facts, and the plain way appends the same bytes as the node's feed has, with one `fdatasync`
  a batch.
- *opened*: a folder with those facts is opened by another run, up to its first answer, beside a `run` of the same
  lines.
- *seen*: two processes on the folder: how long after a tell of the one was acknowledged the other shows it.

FOLDER is made and removed. Ends with 1 where an answer isn't the one that is due.
"""

import argparse
import json
import os
import shutil
import sqlite3
import subprocess
import sys
import time
from collections.abc import Callable
from pathlib import Path

PROGRAM = """:- chr_constraint path/3.
shorter @ path(X,Y,D) \\ path(X,Y,E) <=> D =< E | true.
"""
BATCH = 100
SEEN = 50


class Node:
    """A node's process."""

    def __init__(self, program: str, folder: Path) -> None:
        words = [program, "node", "--data", str(folder)]
        self.process = subprocess.Popen(words, stdin=subprocess.PIPE, stdout=subprocess.PIPE)
        assert self.process.stdin and self.process.stdout
        self.lines, self.answers = self.process.stdin, self.process.stdout

    def ask(self, lines: list[bytes]) -> list[bytes]:
        self.lines.write(b"".join(lines))
        self.lines.flush()
        return [self.answers.readline() for _ in lines]

    def tell(self, lines: list[bytes]) -> None:
        for answer in self.ask(lines):
            if not answer.startswith(b'["told",'):
                sys.exit(f"folders: {answer!r} came to a tell")

    def end(self) -> None:
        self.lines.close()
        if self.process.wait() != 0:
            sys.exit(f"folders: the node ended with {self.process.returncode}")


def tell(number: int) -> bytes:
    return json.dumps(["tell", [["path", number % 1000, number, number]]], separators=(",", ":")).encode() + b"\n"


def timed(step: Callable[[int], None], count: int, batch: int) -> float:
    """Facts a second, where a step takes the number of its first."""
    start = time.monotonic()
    for first in range(0, count, batch):
        step(first)
    return count / (time.monotonic() - start)


def node_rate(program: str, folder: Path, count: int, batch: int) -> float:
    node = Node(program, folder)
    rate = timed(lambda first: node.tell([tell(first + place) for place in range(batch)]), count, batch)
    node.end()
    return rate


def sqlite_rate(file: Path, count: int, batch: int) -> float:
    base = sqlite3.connect(file, isolation_level=None)
    base.execute("PRAGMA journal_mode=WAL")
    base.execute("PRAGMA synchronous=FULL")
    base.execute("CREATE TABLE IF NOT EXISTS told (number INTEGER PRIMARY KEY, x INTEGER, y INTEGER, d INTEGER)")

    def step(first: int) -> None:
        base.execute("BEGIN IMMEDIATE")
        rows = ((number % 1000, number, number) for number in range(first, first + batch))
        base.executemany("INSERT INTO told (x, y, d) VALUES (?, ?, ?)", rows)
        base.execute("COMMIT")

    rate = timed(step, count, batch)
    base.close()
    return rate


def append_rate(file: Path, record: bytes, count: int, batch: int) -> float:
    """Over room that is laid before, as a feed's is, so that the length stays."""
    there = os.open(file, os.O_RDWR | os.O_CREAT | os.O_TRUNC, 0o644)
    os.write(there, bytes(len(record) * count))
    os.fsync(there)
    bytes_of_batch = record * batch

    def step(first: int) -> None:
        os.pwrite(there, bytes_of_batch, first * len(record))
        os.fdatasync(there)

    rate = timed(step, count, batch)
    os.close(there)
    return rate


def told(program: str, folder: Path, count: int, single: int) -> None:
    for batch, facts in ((BATCH, count), (1, single)):
        node = node_rate(program, folder, facts, batch)
        feed = max((folder / "feeds").iterdir(), key=lambda path: path.stat().st_mtime)
        record = feed.read_bytes().split(b"\n", 2)[1] + b"\n"
        sqlite = sqlite_rate(folder / f"told{batch}.sqlite", facts, batch)
        plain = append_rate(folder / "plain", record, facts, batch)
        print(f"told by {batch}: {node:,.0f} facts a second, SQLite {sqlite:,.0f}, plain appends {plain:,.0f}")
        print(f"told by {batch}: {node / plain:.2f} of plain appends, {node / sqlite:.2f} of SQLite")


def opened(program: str, folder: Path, count: int) -> None:
    start = time.monotonic()
    node = Node(program, folder)
    node.ask([b'["count",["path",null,null,null]]\n'])
    first = time.monotonic() - start
    node.end()
    lines = [f'["tell",1,[1,{number + 1}],[["path",{number % 1000},{number},{number}]]]\n' for number in range(count)]
    text = (PROGRAM + "---\n" + "".join(lines) + '["summary",1]\n').encode()
    start = time.monotonic()
    subprocess.run([program, "run"], input=text, stdout=subprocess.DEVNULL, check=True)
    run = time.monotonic() - start
    print(f"opened: {count} facts in {first:.2f} s, {first / run:.2f} times a run of the same lines ({run:.2f} s)")


def seen(program: str, folder: Path) -> None:
    one, other = Node(program, folder), Node(program, folder)
    took = []
    for number in range(SEEN):
        one.tell([f'["tell",[["path",{-1 - number},0,0]]]\n'.encode()])
        start = time.monotonic()
        while other.ask([f'["count",["path",{-1 - number},0,0]]\n'.encode()]) != [b'["count",1]\n']:
            pass
        took.append(time.monotonic() - start)
    one.end()
    other.end()
    print(f"seen by another process that asks: after {max(took) * 1000:.1f} ms at most, of {SEEN}")


def main() -> None:
    words = argparse.ArgumentParser(description=__doc__, formatter_class=argparse.RawDescriptionHelpFormatter)
    words.add_argument("program")
    words.add_argument("folder", type=Path)
    words.add_argument("--count", type=int, default=100_000)
    words.add_argument("--single", type=int, default=1000)
    said = words.parse_args()
    said.folder.mkdir()
    try:
        text = said.folder / "made.chr"
        text.write_text(PROGRAM)
        made = subprocess.Popen(
            [said.program, "node", "--data", said.folder / "node", "--program", text], stdin=subprocess.DEVNULL
        )
        if made.wait() != 0:
            sys.exit(f"folders: the folder is not made: status {made.returncode}")
        told(said.program, said.folder / "node", said.count, said.single)
        opened(said.program, said.folder / "node", said.count)
        seen(said.program, said.folder / "node")
    finally:
        shutil.rmtree(said.folder)


if __name__ == "__main__":
    main()
