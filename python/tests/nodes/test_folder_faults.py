"""What goes wrong under a node in a folder: kills at each call of the system, disks that fail, files that were changed.

Nothing that was acknowledged is lost, and nothing is told twice.
"""

import errno
import itertools
import json
import os
import shutil
import signal
import tempfile
import threading
import time
import unittest
import zlib
from collections.abc import Iterator
from functools import partial
from pathlib import Path
from typing import Any, NamedTuple
from unittest.mock import patch

from chrrep import NodeDied
from chrrep.link import FolderMember, LogUnusable
from folders import COUNTED, SECONDS, Folders, Node, counted, number_in
from shims import HERE as SHIMS
from shims import made_shim, why_not

FILES = SHIMS / "files.c"
NOBODY = 65_534
MOST_CALLS = 200
"""Far more calls than a run here makes."""
FEEDS = int(os.environ.get("CHRREP_FEEDS", "1000"))
TALK: list[list[Any]] = [["tell", [["b0"]]], ["tell", [["b0"]]], ["show"], ["tell", [["b0"]]]]


class Run(NamedTuple):
    """A run whose calls went wrong."""

    acknowledged: int
    asked: int
    status: int
    said: str
    calls: str
    """A letter for each call that was made, behind `!` where it failed."""


class Faults(Folders):
    """Calls of the system that fail, or that are the last ones of a run."""

    shim: Path

    @classmethod
    def setUpClass(cls) -> None:  # noqa: N802
        if why := why_not():
            raise unittest.SkipTest(why)
        room = tempfile.TemporaryDirectory()
        cls.addClassCleanup(room.cleanup)
        cls.shim = made_shim(FILES, Path(room.name))

    def faulted(self, **environment: object) -> Run:
        """A run over the folder, talked with until it ends."""
        mark = os.memfd_create("mark")
        self.addCleanup(os.close, mark)
        texts = {name: str(value) for name, value in environment.items()}
        under = {"LD_PRELOAD": os.fspath(self.shim), "FAULT_MARK": str(mark), **texts}
        asked = acknowledged = 0
        with Node(self.folder, "--program", os.fspath(self.program), under=under, passed=(mark,)) as node:
            for line in TALK:
                asked += line[0] == "tell"
                answer = node.ask(*line)
                if answer is None:
                    break
                self.assertIn(answer[0], ("told", "store"))
                acknowledged += answer[0] == "told"
            status, said = node.end()
        os.lseek(mark, 0, os.SEEK_SET)
        return Run(acknowledged, asked, status, said, os.read(mark, 1 << 16).decode())

    def each(self, before: int, **environment: object) -> Iterator[Run]:
        """A run for each of its calls, over a folder that was told so many facts before. What was acknowledged is there
        after it, and nothing is there twice."""
        if before:
            with self.begun() as node:
                for _ in range(before):
                    node.ask("tell", [["b0"]])
        kept = Path(tempfile.mkdtemp(dir=self.room)) / "kept"
        if before:
            self.folder.rename(kept)
        for number in range(1, MOST_CALLS):
            shutil.rmtree(self.folder, ignore_errors=True)
            if before:
                shutil.copytree(kept, self.folder)
            run = self.faulted(FAULT_AT=number, **environment)
            if run.status == 0 and "!" not in run.calls:
                return
            with self.subTest(number=number, run=run), self.begun() as node:
                count = number_in([tuple(atom) for atom in node.ask("show")[1]])
                self.assertTrue(before + run.acknowledged <= count <= before + run.asked, count)
            yield run
        self.fail("it came to no end")

    def test_a_kill_at_each_call(self) -> None:
        for before, moment in ((2, "after"), (2, "torn"), (0, "torn")):
            with self.subTest(before=before, moment=moment):
                ends = [run.status for run in self.each(before, FAULT_DO=moment)]
                self.assertEqual(set(ends), {-signal.SIGKILL})
                self.assertGreater(len(ends), 25)
            shutil.rmtree(self.folder)

    def test_each_call_that_fails(self) -> None:
        """A node whose own file or whose output fails ends with 3, and names what failed. What of others can't be read
        is left out. A feed whose sync has failed is never written again."""
        for error in (errno.EIO, errno.ENOSPC):
            runs = list(self.each(2, FAULT_DO=error))
            shutil.rmtree(self.folder)
            for run in runs:
                with self.subTest(run=run):
                    if run.status:
                        self.assertEqual(run.status, 3)
                        self.assertRegex(run.said, f"^chrrep node: ({self.room}|standard output).*\n$")
                    else:
                        self.assertIn(run.calls[run.calls.index("!") + 1], "odrxu")
            self.assertGreater(sum(run.status == 3 for run in runs), 15)
            unsynced = [run.calls.partition("!s")[2] for run in runs if "!s" in run.calls]
            self.assertGreater(len(unsynced), 4)
            self.assertEqual({letter for calls in unsynced for letter in calls} & set("wsta"), set())

    def member(self, **environment: object) -> FolderMember:
        texts = {name: str(value) for name, value in environment.items()}
        with patch.dict(os.environ, {"LD_PRELOAD": os.fspath(self.shim), **texts} if texts else {}):
            member = FolderMember(self.folder, COUNTED)
        self.addCleanup(member.close)
        return member

    def test_what_a_member_says_of_a_failed_sync(self) -> None:
        """What its disk has not kept is unsure, and told after that on at most once."""
        told = 1
        self.member().tell(("b0",))
        for number in range(1, MOST_CALLS):
            try:
                member = self.member(FAULT_AT=number, FAULT_DO=errno.EIO, FAULT_ON=1)
                member.tell(("b0",))
            except LogUnusable as fault:
                self.assertRegex(str(fault), "the folder .* can't be used: .*: ")
            except NodeDied as fault:
                self.assertRegex(str(fault), "has not kept|standard output")
                self.assertEqual((fault.status, fault.told), (3, ()))
                self.assertLessEqual(len(fault.unsure), 1)
                self.member().tell(("b0",), after=fault)
                told += 1
            else:
                told += 1
                if number > 40:
                    break
        self.assertGreater(told, 5)
        self.assertEqual(number_in(self.member().show()), told)

    def test_a_full_disk_ends_a_member_and_loses_nothing(self) -> None:
        """What doesn't fit is unsure or not there, and is told on once there is room."""
        operations = [[("b0",)]] * 6000
        self.member().tell(("b0",))
        told, said = 1, "has not kept|standard output"
        # a write, a sync and an answer, in some order
        for number in (31, 32, 33):
            member = self.member(FAULT_AT=number, FAULT_DO=errno.ENOSPC, FAULT_ON=1)
            with self.assertLogs("chrrep.link", "WARNING"), self.assertRaisesRegex(NodeDied, said) as caught:
                member.tell_many(operations)
            self.assertGreater(len(caught.exception.told), 0)
            self.assertLess(len(caught.exception.told), 6000)
            with FolderMember(self.folder) as other:
                other.tell_many(operations, after=caught.exception)
                told += 6000
                self.assertEqual(number_in(other.show()), told)


class Disks(Folders):
    """Folders that can't be written."""

    @unittest.skipUnless(os.geteuid() == 0, "who isn't root has no other user's rights")
    def test_a_folder_that_may_only_be_read(self) -> None:
        with self.begun() as node:
            node.ask("tell", [["b0"]])
        for path in (self.room, self.folder, self.folder / "feeds"):
            path.chmod(0o755)
        node = Node(self.folder, before=partial(os.setuid, NOBODY))
        status, said = node.end()
        self.assertEqual(status, 3)
        self.assertRegex(said, f"^chrrep node: {self.folder}/feeds/.*: Permission denied")
        self.assertEqual(self.shown(), counted(1))


class Changed(Folders):
    """Files that were changed by something else."""

    def test_a_feed_that_shrinks_under_a_reader(self) -> None:
        with self.begun() as one, self.begun() as other:
            for _ in range(3):
                one.ask("tell", [["b0"]])
            self.assertEqual(other.ask("show")[1], [["b0"], ["b1"]])
            (feed,) = [path for path in self.feeds() if b"=" in path.read_bytes()]
            whole = feed.read_bytes()
            for size in (len(whole) // 2, 100, 1, 0):
                os.truncate(feed, size)
                self.assertEqual(other.ask("show")[1], [["b0"], ["b1"]])
            feed.write_bytes(whole)
            one.ask("tell", [["b0"]])
            self.assertEqual(other.ask("show")[1], [["b2"]])
            self.assertEqual(other.ask("status")[2], [])

    def test_times_of_files_mean_nothing(self) -> None:
        """Also where a clock was set back, or forward by years."""
        with FolderMember(self.folder, COUNTED) as member, FolderMember(self.folder) as other:
            changes = other.changes(SECONDS)
            for count, moment in enumerate((0, 2**33, 1, time.time() + 1e6), 1):
                member.tell(("b0",))
                for path in self.feeds():
                    os.utime(path, (moment, moment))
                next(changes)
                self.assertEqual(number_in(other.show()), count)

    def test_a_folder_that_is_copied_while_it_is_written(self) -> None:
        """Each copy has a beginning of what was told, and goes on for itself."""
        over, told = threading.Event(), [0]
        with FolderMember(self.folder, COUNTED) as member:

            def tell() -> None:
                while not over.is_set():
                    told[0] += len(member.tell_many([[("b0",)]] * 7))

            teller = threading.Thread(target=tell)
            teller.start()
            try:
                for number in range(8):
                    copy, before = self.room / f"copy{number}", told[0]
                    shutil.copytree(self.folder, copy)
                    with Node(copy) as node:
                        count = number_in([tuple(atom) for atom in node.ask("show")[1]])
                        self.assertLessEqual(before, count)
                        node.ask("tell", [["b0"]])
                        self.assertEqual(number_in([tuple(atom) for atom in node.ask("show")[1]]), count + 1)
            finally:
                over.set()
                teller.join()
            self.assertEqual(number_in(member.show()), told[0])

    def test_an_old_copy_that_is_put_back(self) -> None:
        """What was told since is missing until it is copied back, and then is there once."""
        with self.begun() as node:
            node.ask("tell", [["b0"]])
            shutil.copytree(self.folder, self.room / "old")
            node.ask("tell", [["b0"]])
        shutil.copytree(self.folder, self.room / "new")
        shutil.rmtree(self.folder)
        shutil.copytree(self.room / "old", self.folder)
        with self.begun() as node:
            self.assertEqual(node.ask("show")[1], [["b0"]])
            node.ask("tell", [["b0"]])
            shutil.copytree(self.room / "new" / "feeds", self.folder / "feeds", dirs_exist_ok=True)
            self.assertEqual(node.ask("show")[1], [["b0"], ["b1"]])
        self.assertEqual(self.shown(), counted(3))

    def test_many_feeds(self) -> None:
        """The environment's CHRREP_FEEDS is how many."""
        with self.begun() as node:
            node.ask("tell", [["b0"]])
        digest = self.feeds()[0].name.partition("-")[0]
        for origin in range(1, FEEDS + 1):
            write_feed(self.folder / "feeds" / f"{digest}-{origin:08x}-00000001.feed", origin, [[["b0"]]])
        begin = time.monotonic()
        with Node(self.folder) as node:
            self.assertEqual(number_in([tuple(atom) for atom in node.ask("show")[1]]), FEEDS + 1)
            opened = time.monotonic()
            node.ask("show")
            again = time.monotonic()
        print(f"({FEEDS} feeds: opened in {opened - begin:.2f} s, asked again in {again - opened:.2f} s)", end=" ")

    def test_two_writers(self) -> None:
        """Under one origin, too, where they begin at once: a later one is refused it."""
        with self.begun("--origin", "7") as one, self.begun("--origin", "7") as other:
            answers = [node.ask("tell", [["b0"]]) for node in (one, other)]
            told = [answer for answer in answers if answer]
            self.assertGreaterEqual(len(told), 1)
            self.assertEqual(len({str(answer) for answer in told}), len(told))
        status, said = self.begun("--origin", "7").end()
        self.assertEqual((status, "origin 7 is that of" in said), (2, True))
        self.assertEqual(self.shown(), counted(len(told)))


def write_feed(path: Path, origin: int, operations: list[list[list[object]]]) -> None:
    """Writes a feed as its format is described: a line for each operation, behind `=` and its checksum."""
    lines = []
    for number, atoms in zip(itertools.count(2**32 + 1), operations):
        delta = json.dumps([2, [[origin, [[number, atoms]]]]], separators=(",", ":")).encode()
        lines.append(b"=%08x %s\n" % (zlib.crc32(delta), delta))
    path.write_bytes(b"".join(lines))
