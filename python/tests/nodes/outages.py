"""Engines that are away, as servers can be."""

import threading
from collections.abc import Callable

from chrrep import Id
from chrrep.link import LinkLost
from engines import Server
from kills import SECONDS, chance_of_stop
from links import Links
from programs import PLAIN

STOPPED = "FATAL:  terminating connection due to administrator command\n"
"""What libpq itself writes on standard error where it hears between two requests that PostgreSQL is stopped."""


class Outages(Links):
    """Engines that are servers, and go away."""

    engine: Server

    def test_an_engine_that_is_stopped_and_started(self) -> None:
        members = [self.member(PLAIN) for _ in range(2)]
        for round_ in range(3):
            members[0].tell(("a", 2 * round_))
            self.engine.stop(chance_of_stop(round_))
            starts = threading.Timer(0.5, self.engine.start)
            starts.start()
            try:
                members[1].tell(("a", 2 * round_ + 1))
            finally:
                starts.join()
            for member in members:
                self.assertEqual(member.show(), tuple(("a", value) for value in range(2 * round_ + 2)))
        self.assertEqual(self.member().show(), members[0].show())

    def test_an_engine_that_stays_away(self) -> None:
        member = self.member(PLAIN, 1)
        member.tell(("a", 1))
        before = member._replica.show()
        self.engine.stop()
        member.link.patience = 0.5
        try:
            calls: list[Callable[[], object]] = [
                lambda: member.tell(("a", 2)), member.follow, member.show, lambda: self.link(2, patience=0.2)
            ]  # fmt: skip
            for call in calls:
                with self.assertRaises(LinkLost):
                    call()
            self.assertEqual(member._replica.show(), before)
        finally:
            self.engine.start()
            # a busy machine may take long to answer
            member.link.patience = SECONDS
        self.assertEqual(member.tell(("a", 3)), Id(1, 2))
        self.assertEqual(member.show(), (("a", 1), ("a", 3)))

    def test_a_command_whose_engine_is_not_there(self) -> None:
        """At first, or later on: a sentence at once and one at the end, and what was acknowledged stays."""
        command = self.command("--patience", "3")
        self.assertEqual(command.ask("path(1,2,3)"), "told 1:1")
        self.engine.stop()
        try:
            ends = [command.end(), self.command("--patience", "1").end()]
        finally:
            self.engine.start()
        for status, told in ends:
            said = told.removeprefix(STOPPED)
            self.assertEqual((status, said.count("\n")), (3, 2), told)
            away = "chrrep.link: the engine doesn't answer, and is asked again for [0-9]+ seconds: .*\n"
            self.assertRegex(said, f"^{away}chrrep.link: LinkLost: the engine doesn't answer: ")
        self.assertEqual(self.member().show(), (("path", 1, 2, 3),))
