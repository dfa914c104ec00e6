"""What `python/tests` tells of tests that it runs in several processes: all, or briefly what fails and how many have
ended; and what ./check makes of that on a terminal."""

import io
import multiprocessing
import sys
import unittest
from pathlib import Path
from tempfile import TemporaryDirectory
from unittest.mock import patch

from running import Progress, Tally, run_at_once

SAMPLE = '''
import unittest


class Samples(unittest.TestCase):
    def test_good(self) -> None:
        print("said by a good test")

    def test_bad(self) -> None:
        print("said by a bad test")
        self.fail("it is bad")

    def test_left_out(self) -> None:
        self.skipTest("it has no machine")


class Others(unittest.TestCase):
    def test_good(self) -> None:
        pass

    def test_well(self) -> None:
        pass
'''
TASKS = {
    "sample_of_tests.Samples.test_good": 1,
    "sample_of_tests.Samples.test_bad": 1,
    "sample_of_tests.Samples.test_left_out": 1,
    "sample_of_tests.Others": 2,
}


class Terminal(io.StringIO):
    def isatty(self) -> bool:
        return True


def shown(written: str) -> str:
    """What a terminal shows of a line in the end."""
    line: list[str] = []
    at = 0
    for sign in written:
        if sign == "\r":
            at = 0
        else:
            line[at : at + 1] = sign
            at += 1
    return "".join(line).rstrip()


class Running(unittest.TestCase):
    def setUp(self) -> None:
        room = TemporaryDirectory()
        self.addCleanup(room.cleanup)
        (Path(room.name) / "sample_of_tests.py").write_text(SAMPLE)
        sys.path.insert(0, room.name)
        self.addCleanup(sys.path.remove, room.name)
        # where this test is run by one of several processes itself, that one may begin others all the same
        changed = patch.dict(getattr(multiprocessing.current_process(), "_config"), daemon=False)
        changed.start()
        self.addCleanup(changed.stop)

    def ran(self, is_brief: bool, terminal: io.StringIO) -> tuple[Tally, str]:
        written = io.StringIO()
        return run_at_once(TASKS, 2, is_brief, written, terminal), written.getvalue()

    def test_all(self) -> None:
        """Each test is told, with what it printed, and no progress; what fails stands at the end, too."""
        terminal = Terminal()
        tally, written = self.ran(False, terminal)
        self.assertEqual((tally.passed, tally.failed, len(tally.skipped)), (3, 1, 1))
        for said in ("said by a good test", "test_well", "it has no machine"):
            self.assertIn(said, written)
        self.assertEqual(written.count("said by a bad test"), 2)
        self.assertIn("FAILED (failures=1)", written.splitlines()[-1])
        self.assertEqual(shown(terminal.getvalue()), "")
        self.assertNotIn(" of ", terminal.getvalue())

    def test_briefly(self) -> None:
        """What fails is told whole, and of the others how many have ended, on a line that is empty in the end."""
        terminal = Terminal()
        tally, written = self.ran(True, terminal)
        self.assertEqual((tally.passed, tally.failed, len(tally.skipped)), (3, 1, 1))
        self.assertIn("said by a bad test", written)
        self.assertIn("it is bad", written)
        for said in ("said by a good test", "test_well", "it has no machine"):
            self.assertNotIn(said, written)
        told = terminal.getvalue()
        self.assertIn("5 of 5, 1 failed", told)
        self.assertNotIn("\n", told)
        self.assertEqual(shown(told), "")
        self.assertTrue(told.endswith("\r"))

    def test_without_a_terminal(self) -> None:
        terminal = io.StringIO()
        self.ran(True, terminal)
        self.assertEqual(terminal.getvalue(), "")

    def test_a_shorter_text(self) -> None:
        """It leaves nothing of a longer one before it."""
        terminal = Terminal()
        progress = Progress(120, terminal)
        progress.add(119, 0)
        self.assertEqual(shown(terminal.getvalue()), "119 of 120")
        progress.show("7 of 9")
        self.assertEqual(shown(terminal.getvalue()), "7 of 9")
        progress.clear()
        self.assertEqual(shown(terminal.getvalue()), "")


if __name__ == "__main__":
    unittest.main()
