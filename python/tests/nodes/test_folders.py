"""Nodes that keep their facts in a folder: what is on the disk after kills, tears, copies and a full disk.

The program counts what it is told in bits, so that each operation that is lost or told twice changes the store.
"""

import json
import os
import random
import resource
import shutil
import signal
import threading
from pathlib import Path

from chrrep.link.feeds import records_in
from folders import COUNTED, KILLS, OTHER, TURNED, Folders, Node, counted, number_in


class Lines(Folders):
    """What a node answers, line by line."""

    def test_each_word_is_answered(self) -> None:
        node = self.begun("--origin", "7")
        word, (origin, first) = node.ask("tell", [["path", 1, 2, 7], ["path", 1, 2, 9], ["b0"]])
        self.assertEqual((word, origin, first % 2**32), ("told", 7, 1))
        self.assertEqual(node.ask("tell", 2, [["b0"]]), ["told", [7, first + 1]])
        self.assertEqual(node.ask("tell", 2, [["b0"]]), ["again", [7, first + 1]])
        self.assertEqual(node.ask("tell", 2, [["b1"]])[:2], ["refused", 33])
        self.assertEqual(node.ask("tell", 4, [["b0"]])[:2], ["refused", 41])
        self.assertEqual(node.ask("last"), ["last", 2])
        self.assertEqual(node.ask("show"), ["store", [["b1"], ["path", 1, 2, 7]]])
        self.assertEqual(node.ask("show", "path"), ["store", [["path", 1, 2, 7]]])
        self.assertEqual(node.ask("find", ["path", 1, None, None]), ["found", [["path", 1, 2, 7]]])
        self.assertEqual(node.ask("count", ["path", 2, None, None]), ["count", 0])
        self.assertEqual(node.ask("changes"), ["changed", [["b1"], ["path", 1, 2, 7]], []])
        node.ask("tell", [["b0"], ["path", 1, 2, 5]])
        self.assertEqual(node.ask("changes"), ["changed", [["b0"], ["path", 1, 2, 5]], [["path", 1, 2, 7]]])
        self.assertEqual(node.ask("changes"), ["changed", [], []])
        self.assertEqual(node.ask("status"), ["status", [], [], 6, 3])
        self.assertEqual(node.ask("tell", [["nobody"]])[:2], ["refused", 32])
        self.assertEqual(node.ask("tell", [["path", 1]])[:2], ["refused", 44])
        self.assertEqual(node.ask("sing")[:2], ["refused", 31])
        self.assertEqual(node.end(), (0, ""))

    def test_what_was_told_is_there_again(self) -> None:
        with self.begun() as node:
            for _ in range(5):
                node.ask("tell", [["b0"]])
        self.assertEqual(self.shown(), counted(5))
        with Node(self.folder) as node:
            self.assertEqual(node.ask("last"), ["last", 0])
            node.ask("tell", [["b0"]])
        self.assertEqual(self.shown(), counted(6))

    def test_a_run_that_told_nothing_leaves_no_feed(self) -> None:
        node = self.begun()
        node.ask("show")
        node.end()
        self.assertEqual(self.feeds(), [])

    def test_many_lines_are_kept_by_one_sync(self) -> None:
        node = self.begun()
        assert node.process.stdin and node.process.stdout
        node.process.stdin.write('["tell",[["b0"]]]\n' * 1000)
        node.process.stdin.flush()
        told = [json.loads(node.process.stdout.readline()) for _ in range(1000)]
        self.assertEqual([one[0] for one in told], ["told"] * 1000)
        self.assertEqual([one[1][1] - told[0][1][1] for one in told], list(range(1000)))
        node.process.kill()
        self.assertEqual(self.shown(), counted(1000))


class Beginnings(Folders):
    """Folders and programs that a node doesn't begin with."""

    def test_a_new_folder_wants_a_program(self) -> None:
        status, said = Node(self.folder).end()
        self.assertEqual(status, 2)
        self.assertIn(f"{self.folder} has no program yet", said)
        self.assertFalse(self.folder.exists())

    def test_a_refused_program_makes_no_folder(self) -> None:
        self.program.write_text(TURNED)
        status, said = self.begun().end()
        self.assertEqual(status, 1)
        self.assertIn(f"{self.program}: the program is refused", said)
        self.assertFalse(self.folder.exists())

    def test_the_program_stays(self) -> None:
        self.begun().end()
        self.program.write_text(OTHER)
        status, said = self.begun().end()
        self.assertEqual(status, 2)
        self.assertIn("is another program", said)
        # layout and comments make no other program
        self.program.write_text("% the same\n" + COUNTED.replace(" <=> ", "  <=>  "))
        self.assertEqual(self.begun().end()[0], 0)

    def test_a_file_is_no_folder(self) -> None:
        self.folder.write_text("")
        status, said = self.begun().end()
        self.assertEqual(status, 3)
        self.assertIn(os.fspath(self.folder), said)

    def test_no_words_no_node(self) -> None:
        for words in (["--origin", "x"], ["--data"], ["--nothing"]):
            with self.subTest(words=words):
                self.assertEqual(self.begun(*words).end()[0], 2)
        self.assertFalse(self.folder.exists())


class Tears(Folders):
    """Feeds that are cut, damaged, copied or another's."""

    def small(self) -> Path:
        node = self.begun()
        for _ in range(3):
            node.ask("tell", [["b0"]])
        node.end()
        feed, = self.feeds()
        return feed

    def test_a_cut_feed_is_its_whole_records(self) -> None:
        feed = self.small()
        whole = feed.read_bytes().rstrip(b"\0")
        for cut in range(len(whole) + 1):
            with self.subTest(cut=cut):
                feed.write_bytes(whole[:cut])
                self.assertEqual(self.shown(), counted(len(list(records_in(whole[:cut])))))

    def test_a_damaged_byte_is_told_of(self) -> None:
        feed = self.small()
        whole = feed.read_bytes().rstrip(b"\0")
        for place in range(len(whole)):
            with self.subTest(place=place):
                feed.write_bytes(whole[:place] + bytes([whole[place] ^ 1]) + whole[place + 1:])
                with Node(self.folder) as node:
                    self.assertLess(number_in([tuple(atom) for atom in node.ask("show")[1]]), 4)

    def test_a_feed_of_another_program_is_named_and_left(self) -> None:
        self.small()
        other = self.room / "other"
        self.program.write_text(OTHER)
        with Node(other, "--program", os.fspath(self.program)) as node:
            node.ask("tell", [["coin"]])
        feed, = (other / "feeds").iterdir()
        shutil.copy(feed, self.folder / "feeds")
        (self.folder / "feeds" / "note.txt").write_text("no feed")
        with Node(self.folder) as node:
            self.assertEqual(node.ask("show"), ["store", [list(atom) for atom in counted(3)]])
            left = dict(node.ask("status")[2])
        self.assertEqual(set(left), {feed.name, "note.txt"})

    def test_copies_of_feeds_bring_two_folders_together(self) -> None:
        self.small()
        second = self.room / "second"
        with Node(second, "--program", os.fspath(self.program)) as node:
            for _ in range(4):
                node.ask("tell", [["b0"]])
            for feed in self.feeds():
                shutil.copy(feed, second / "feeds")
            self.assertEqual(node.ask("show"), ["store", [list(atom) for atom in counted(7)]])
            for feed in (second / "feeds").iterdir():
                shutil.copy(feed, self.folder / "feeds")
        self.assertEqual(self.shown(), counted(7))
        # an old copy that is put back changes nothing
        for feed in self.feeds():
            shutil.copy(feed, second / "feeds")
        self.assertEqual(self.shown(second), counted(7))

    def test_a_full_disk_loses_nothing_that_was_told(self) -> None:
        def little_room() -> None:
            signal.signal(signal.SIGXFSZ, signal.SIG_IGN)
            resource.setrlimit(resource.RLIMIT_FSIZE, (200_000, 200_000))

        node = self.begun(before=little_room)
        told = 0
        for place in range(20_000):
            answer = node.ask("tell", [["path", place, place, 1]] * 20)
            if answer is None:
                break
            self.assertEqual(answer[0], "told")
            told += 1
        status, said = node.end()
        self.assertEqual((status, told > 10), (3, True))
        self.assertIn("disk", said)
        self.assertGreaterEqual(len(self.shown()), told)


class Crowds(Folders):
    """Several nodes of one folder."""

    def test_two_nodes_see_each_other(self) -> None:
        one = self.begun()
        one.ask("tell", [["b0"]])
        with Node(self.folder) as other:
            self.assertEqual(other.ask("show"), ["store", [["b0"]]])
            other.ask("tell", [["b0"]])
            self.assertEqual(one.ask("changes"), ["changed", [["b1"]], []])

    def test_killed_nodes_lose_nothing(self) -> None:
        self.begun().end()
        acknowledged, asked = 0, 0
        chance = random.Random(79)
        for _ in range(KILLS):
            with Node(self.folder) as node:
                timer = threading.Timer(chance.random() * 0.2, node.process.kill)
                timer.start()
                while True:
                    asked += 1
                    if node.ask("tell", [["b0"]]) is None:
                        break
                    acknowledged += 1
                timer.join()
        kept = number_in(self.shown())
        self.assertTrue(acknowledged <= kept <= asked, (acknowledged, kept, asked))
