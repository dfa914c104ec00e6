"""`bench/figures.py`, which writes the tables of what was measured."""

import subprocess
import sys
import unittest
from pathlib import Path

from chrrep.node import program_path

TOP = Path(__file__).resolve().parents[2]
SECONDS = 120.0
HEADS = (
    "| Input | Bytes | Million instructions | Seconds | Peak memory | Verdict |",
    "|---|---|---|---|---|---|",
)
OF_FACTS = (
    "| Input | Facts | Instructions a fact | Seconds | Peak memory |",
    "|---|---|---|---|---|",
)


class Figures(unittest.TestCase):
    def test_a_row(self) -> None:
        """A row of each input that is asked for, with the verdict that the program writes, and both heads."""
        words = [program_path(), "--only", "layout", "--times", "1"]
        command = [sys.executable, str(TOP / "bench" / "figures.py"), *words]
        ended = subprocess.run(command, capture_output=True, text=True, timeout=SECONDS, check=True)
        lines = ended.stdout.splitlines()
        self.assertEqual((*lines[:2], *lines[-2:]), HEADS + OF_FACTS)
        rows = [[cell.strip() for cell in line.split("|")[1:-1]] for line in lines[2:-3]]
        told = [(row[0], row[1], row[-1]) for row in rows]
        self.assertEqual(told, [("`layout`", "65,535", "`accepted: rules 2, cases 12`")])


if __name__ == "__main__":
    unittest.main()
