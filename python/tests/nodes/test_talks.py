"""The command of a node: lines that nobody should send, and how it ends."""

import json
import os
import re
import signal
import sqlite3
import subprocess
import sys
import time
import unittest
from collections.abc import Callable
from contextlib import closing
from pathlib import Path
from tempfile import TemporaryDirectory
from urllib.request import urlopen

from chrrep.link import connect, join
from chrrep.names import NameFault
from chrrep.texts import LINE_LIMIT
from kills import PACKAGE, SECONDS, Command
from programs import PATHS

STAYS_UP = 2.0
"""Seconds that a service is looked at after its input has ended."""


class Talks(unittest.TestCase):
    def setUp(self) -> None:
        room = TemporaryDirectory()
        self.addCleanup(room.cleanup)
        self.program = Path(room.name) / "routes.chr"
        self.program.write_text(PATHS)
        self.url = f"sqlite:///{room.name}/log.sqlite"
        self.words = [sys.executable, "-m", "chrrep.link", "--engine", self.url, str(self.program)]

    def command(self) -> Command:
        command = Command.of(self.words)
        self.addCleanup(command.kill)
        return command

    def send(self, command: Command, text: bytes) -> None:
        assert command.process.stdin
        command.process.stdin.write(text)
        command.process.stdin.flush()

    def next_origin(self) -> int:
        """The origin that a member is allotted now: the first that nobody holds."""
        with connect(self.url) as link:
            return link.origin

    def service(self) -> tuple["subprocess.Popen[bytes]", str]:
        """A node whose input has ended from the start, and its page."""
        service: subprocess.Popen[bytes] = subprocess.Popen(
            [*self.words, "--page", "0"],
            stdin=subprocess.DEVNULL,
            stdout=subprocess.DEVNULL,
            stderr=subprocess.PIPE,
            env={**os.environ, "PYTHONPATH": str(PACKAGE), "PYTHONDONTWRITEBYTECODE": "1"},
        )
        self.addCleanup(service.communicate)
        self.addCleanup(service.kill)
        assert service.stderr
        return service, service.stderr.readline().decode().rpartition("the page is ")[2].strip()


class Lines(Talks):
    def test_a_line_that_is_too_long(self) -> None:
        command = self.command()
        refused = f"refused: a line has at most {LINE_LIMIT} bytes"
        self.send(command, b"x" * 8_000_000)
        self.assertEqual(command.answer(), refused)
        # what it goes on with is no line of its own
        self.assertEqual(command.ask("path(1,2,7)\n?"), "true")
        line = "path(1,2,7)"
        self.assertEqual(command.ask(line + " " * (LINE_LIMIT - len(line))), "told 1:1")
        self.assertEqual(command.ask(line + " " * (LINE_LIMIT - len(line) + 1)), refused)
        self.send(command, b" " * LINE_LIMIT + b" path(1,2,3)")
        self.assertEqual(command.answer(), refused)
        self.assertEqual(command.ask("\n?"), line)
        self.assertEqual(command.end(), (0, ""))

    def test_bytes_that_are_no_text(self) -> None:
        """Two names of such bytes are not taken for one."""
        command = self.command()
        self.send(command, b'path("\xff",1,2)\npath("\xfe",1,3)\npath("S\xc3\xa3o",1,4)\n?\n')
        answers = [command.answer() for _ in range(4)]
        refused = ["refused: byte 6 of the line is no UTF-8"] * 2
        self.assertEqual(answers, [*refused, "told 1:1", 'path("S\u00e3o",1,4)'])
        self.send(command, b"\xff")
        self.assertEqual(command.process.communicate(timeout=SECONDS)[0], b"refused: byte 0 of the line is no UTF-8\n")
        self.assertEqual(command.process.returncode, 0)

    def test_names_and_numbers_that_are_none(self) -> None:
        command = self.command()
        said = command.ask('path("\\ud800",1,2)') or ""
        self.assertRegex(said, "^refused: .* character .* in position 0: surrogates not allowed$")
        self.assertRegex(command.ask(f"path(1,2,{'9' * 5000})") or "", "^refused: the number .* does not fit 64 bits$")
        self.assertEqual(command.ask("?"), "true")
        with join(self.url) as member:
            calls: list[Callable[[], object]] = [
                lambda: member.tell(("path", 1, 2, 3), ("path", "\ud800", 1, 2)),
                lambda: member.tell_many([[("path", 1, 2, 3)], [("path", "\ud800", 1, 2)]]),
                lambda: member.show("path", "\ud800", None, None),
            ]
            for call in calls:
                with self.assertRaises(NameFault):
                    call()
            self.assertEqual(member.show(), ())


class Ends(Talks):
    def test_signals_give_the_origin_back(self) -> None:
        for number, status in ((signal.SIGTERM, 143), (signal.SIGINT, 130)):
            command = self.command()
            self.assertRegex(command.ask("path(1,2,3)") or "", "^told 1:[12]$")
            command.process.send_signal(number)
            self.assertEqual(command.process.wait(SECONDS), status)
            self.assertEqual(command.end(), (status, ""))
            self.assertEqual(self.next_origin(), 1)

    def test_a_signal_before_the_node_is_up(self) -> None:
        """It waits for a log that another one has locked."""
        with closing(sqlite3.connect(self.url.removeprefix("sqlite:///"), isolation_level=None)) as locks:
            locks.execute("PRAGMA journal_mode = WAL")
            locks.execute("BEGIN IMMEDIATE")
            command = self.command()
            self.until(lambda: has_handler(command.process.pid, signal.SIGTERM))
            command.process.send_signal(signal.SIGTERM)
            self.assertEqual(command.process.wait(SECONDS), 143)
            self.assertEqual(command.end(), (143, ""))

    def test_a_service_has_no_input(self) -> None:
        """With a page a node stays up when its input has ended."""
        service, url = self.service()
        assert service.stderr
        end = time.monotonic() + STAYS_UP
        while time.monotonic() < end:
            self.assertIsNone(service.poll())
            with urlopen(url + "store", timeout=SECONDS) as answer:
                self.assertEqual(json.load(answer), {"tables": []})
            time.sleep(0.1)
        with join(self.url) as other:
            self.assertEqual(other.origin, 2)
            other.tell(("path", 1, 2, 3))
            self.until(lambda: b'["path","1","2","3"]' in self.read(url + "store"))
        service.terminate()
        self.assertEqual((service.wait(SECONDS), service.stderr.read()), (143, b""))
        self.assertEqual(self.next_origin(), 1)

    def read(self, url: str) -> bytes:
        with urlopen(url, timeout=SECONDS) as answer:
            return bytes(answer.read())

    def until(self, holds: Callable[[], bool]) -> None:
        end = time.monotonic() + SECONDS
        while not holds():
            self.assertLess(time.monotonic(), end)
            time.sleep(0.05)


def has_handler(pid: int, number: int) -> bool:
    """Whether a process takes this signal by a handler of its own."""
    found = re.search("^SigCgt:\\s*([0-9a-f]+)$", Path(f"/proc/{pid}/status").read_text(), re.MULTILINE)
    return found is not None and bool(int(found[1], 16) >> (number - 1) & 1)
