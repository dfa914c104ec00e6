"""Nodes as commands, over whatever engine."""

import random

from chrrep import Id
from kills import KILLS, Kills
from links import Links
from programs import COUNTED, PATHS


class Commands(Links):
    """Nodes as processes."""

    def test_a_command(self) -> None:
        command = self.command("--origin", "3")
        for line, answer in (
            ("?", "true"),
            ("path(1,2,7), path(2,3,1)", "told 3:1"),
            ("", None),
            (" path( 1, 2, 5 )", "told 3:2"),
            ("?", "path(1,2,5), path(2,3,1)"),
            (
                "path(1,2)",
                "refused: UnknownSymbol: refused 32: 'path' is declared with 3 arguments, and not with 2",
            ),
            (
                "Path",
                "refused: character 1: Path begins no fact: that is a word with a small first letter, as `a(1,b)` or "
                "`c`",
            ),
            (
                ", ".join(["path(1,1,1)"] * 65),
                "refused: Shape: refused 31: an operation has 1 to 64 atoms, and this one has 65",
            ),
            ("path(9,9,9)", "told 3:3"),
        ):
            command.send(line)
            if answer is not None:
                self.assertEqual(command.answer(), answer)
        self.assertEqual(command.end(), (0, ""))
        self.assertEqual(self.ids(), [Id(3, 1), Id(3, 2), Id(3, 3)])

    def test_lines_that_come_at_once(self) -> None:
        command = self.command()
        command.send("path(1,2,7)\n?\npath(1,2,5)\npath(1)\npath(1,2,6)\nx y\n\npath(1,2,4)\n?")
        for start in (
            "told 1:1",
            "path(1,2,7)",
            "told 1:2",
            "refused: UnknownSymbol",
            "told 1:3",
            "refused: character 3: a comma is missing before y",
            "told 1:4",
            "path(1,2,4)",
        ):
            self.assertTrue((answer := command.answer() or "").startswith(start), answer)
        self.assertEqual(command.end(), (0, ""))

    def test_a_command_that_cannot_run(self) -> None:
        self.program.write_text("a.")
        status, said = self.command().end()
        self.assertEqual((status, "refused 3: clause 1" in said), (1, True))
        self.program.write_text(PATHS)
        one = self.command()
        self.assertEqual(one.ask("path(1,1,1)"), "told 1:1")
        self.program.write_text(PATHS + "% changed\n")
        status, said = self.command().end()
        self.assertEqual((status, "line 3 is '% changed' here" in said), (3, True))
        self.assertEqual(one.ask("?"), "path(1,1,1)")

    def test_nodes_that_are_killed_at_random_moments(self) -> None:
        self.program.write_text(COUNTED)
        Kills(self.engine, self.log, self.program, random.Random(KILLS)).run(KILLS)
