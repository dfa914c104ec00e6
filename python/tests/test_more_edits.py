"""`tools/more_edits` over a small repository of its own, with an `rt` that is a script: it refuses the edits that the
test says, and no others. What is listed, tried and written down."""

import os
import shutil
import subprocess
import unittest
from datetime import date
from pathlib import Path
from tempfile import TemporaryDirectory

TOP = Path(__file__).resolve().parents[2]
SECONDS = 60.0
EDIT = "file: src/lib.rt\nold: one\nnew: two\n"
SEEN = "seen: 2026-01-02\n"

RT = """#!/bin/sh
status=0
for crate in "$@"; do
    [ "$crate" != must-fail ] || continue
    for edit in crates/"$crate"/must-fail/*.edit; do
        name=$crate/${edit##*/}
        case " $REFUSED " in
            *" $name "*) echo "rt: must-fail $name: refused, as it must be: src/lib.rt:1:1: error" ;;
            *)
                echo "rt: must-fail $name: NOT REFUSED: the crate is still proved with this edit"
                status=1
                ;;
        esac
    done
done
exit "$status"
"""


class MoreEdits(unittest.TestCase):
    def setUp(self) -> None:
        room = TemporaryDirectory()
        self.addCleanup(room.cleanup)
        # (a space in its name)
        self.top = Path(room.name) / "the repository"
        self.bin = Path(room.name) / "bin"
        self.write("crates.txt", "one:\ntwo: one\n")
        self.write("HANDLES", "Handles allowed: none.\n")
        for crate in ("one", "two"):
            self.write(f"crates/{crate}/src/lib.rt", "one\n")
            self.write(f"crates/{crate}/must-fail/of_the_gate.edit", EDIT)
        self.write("tools/edits/one/new.edit", EDIT)
        self.write("tools/edits/one/old.edit", EDIT + SEEN)
        self.write("tools/edits/two/other.edit", EDIT + SEEN)
        shutil.copy(TOP / "tools" / "more_edits", self.top / "tools" / "more_edits")
        self.bin.mkdir()
        (self.bin / "rt").write_text(RT)
        (self.bin / "rt").chmod(0o755)

    def write(self, name: str, text: str) -> None:
        file = self.top / name
        file.parent.mkdir(parents=True, exist_ok=True)
        file.write_text(text)

    def read(self, name: str) -> str:
        return (self.top / "tools" / "edits" / name).read_text()

    def ran(self, *words: str, refused: str = "") -> tuple[int, list[str]]:
        """The status, and the lines on standard output."""
        env = {**os.environ, "PATH": f"{self.bin}:{os.environ['PATH']}", "REFUSED": refused}
        ended = subprocess.run(
            [self.top / "tools" / "more_edits", *words],
            env=env,
            capture_output=True,
            text=True,
            timeout=SECONDS,
            check=False,
        )
        return ended.returncode, ended.stdout.splitlines()

    def test_list(self) -> None:
        """By crate, with the day of each, which a new one has not. Nothing is tried or written."""
        one = ["one", "    2026-01-02  old", "    not seen    new"]
        two = ["two", "    2026-01-02  other"]
        self.assertEqual(self.ran("--list"), (0, [*one, *two]))
        self.assertEqual(self.ran("--list", "two"), (0, two))
        self.assertEqual(self.read("one/new.edit"), EDIT)

    def test_all_refused(self) -> None:
        """Each has the day of this run then, once."""
        before = date.today()
        status, told = self.ran(refused="one/new.edit one/old.edit two/other.edit")
        self.assertEqual((status, told[-1]), (0, "more_edits: 3 edits, each refused"))
        days = {f"{EDIT}seen: {day}\n" for day in (before, date.today())}
        for name in ("one/new.edit", "one/old.edit", "two/other.edit"):
            self.assertIn(self.read(name), days)

    def test_some_refused(self) -> None:
        """The others keep what they had. Edits of the gate are not tried."""
        status, told = self.ran("one", refused="one/new.edit")
        self.assertEqual(status, 1)
        self.assertEqual(len(told), 2)
        self.assertTrue(self.read("one/new.edit").startswith(EDIT + "seen: "))
        self.assertEqual(self.read("one/old.edit"), EDIT + SEEN)
        self.assertEqual(self.read("two/other.edit"), EDIT + SEEN)

    def test_bad_words(self) -> None:
        self.assertEqual(self.ran("three"), (2, []))
        self.assertEqual(self.ran("--list", "three"), (2, []))
        self.assertEqual(self.ran("--other"), (2, []))


if __name__ == "__main__":
    unittest.main()
