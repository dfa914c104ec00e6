"""Logs that go over to another program, over whatever engine."""

import random
import threading
import time
from collections.abc import Callable
from unittest.mock import patch

import chrrep
from chrrep import Id
from chrrep.link import Batch, LinkLost, Member, OtherProgram, ProgramChanged, State
from chrrep.link.log import SEAL_SECONDS
from kills import KILLS, Command
from links import Links
from programs import MARKED, PATHS


class Upgrades(Links):
    """Logs that go over to another program."""

    LONGER = PATHS.replace("D =< E", "D >= E") + ":- chr_constraint mark/1.\n"
    """The longest way stays."""

    def test_a_log_goes_over_to_another_program(self) -> None:
        one, two = self.member(PATHS), self.member()
        one.tell(("path", 1, 2, 5), ("path", 3, 4, 5))
        two.tell(("path", 1, 2, 7))
        one.upgrade(self.LONGER)
        self.assertEqual((one.program.text, one.show()), (self.LONGER.encode(), (("path", 1, 2, 5), ("path", 3, 4, 5))))
        with self.assertRaises(ProgramChanged):
            two.tell(("path", 1, 2, 9))
        self.assertTrue(two.rejoin())
        self.assertFalse(two.rejoin())
        self.assertEqual(two.tell(("path", 1, 2, 8), ("mark", 1)), Id(two.origin, 2))
        wanted = (("mark", 1), ("path", 1, 2, 8), ("path", 3, 4, 5))
        for member in (one, two, self.member(self.LONGER)):
            self.assertEqual(member.show(), wanted)
        with self.assertRaises(OtherProgram):
            self.member(PATHS)
        one.upgrade(self.LONGER, wide=True)
        self.assertEqual((one.program.is_wide, one.show()), (True, wanted))

    def test_upgrades_that_are_refused(self) -> None:
        member = self.member(MARKED)
        member.tell(("mark", 1), ("path", 1, 2, 5))
        before = member.link.state()
        for program, kind in ((PATHS, chrrep.UnknownSymbol), (MARKED + "a.", chrrep.Syntax)):
            with self.assertRaises(kind):
                member.upgrade(program)
        self.assertEqual(member.link.state(), before)
        self.assertEqual(member.tell(("mark", 2)).number, 2)

    def test_an_upgrade_beside_others_who_tell(self) -> None:
        """None of what they tell is lost or told twice, and they wait in the meantime."""
        members = [self.member(MARKED) for _ in range(3)]
        over = threading.Event()
        told: list[int] = []

        def tell(member: Member, mark: int) -> None:
            while not over.is_set():
                try:
                    member.tell(("mark", mark), ("path", 1, 2, mark))
                    told.append(mark)
                    mark += 1
                except ProgramChanged:
                    member.rejoin()

        threads = [threading.Thread(target=tell, args=(member, 10**6 * at)) for at, member in enumerate(members)]
        for thread in threads:
            thread.start()
        changes = self.member(MARKED)
        for program in (self.LONGER, MARKED, self.LONGER):
            time.sleep(0.2)
            changes.upgrade(program)
        over.set()
        for thread in threads:
            thread.join()
        for member in (*members, changes):
            self.assertEqual(sorted(mark for _, mark in member.show("mark")), sorted(told))
        self.assertEqual(changes.link.mark().epoch, 4)
        self.assertEqual(changes.link.refused(), [])

    def test_a_tell_just_before_an_upgrade(self) -> None:
        """What was appended is told, though no snapshot can be taken after it: to tell it again would be twice."""
        one, two = self.member(MARKED, snapshot_after=1), self.member()
        append = one.link.append

        def append_and_upgrade(batch: Batch) -> None:
            append(batch)
            two.upgrade(self.LONGER)

        with patch.object(one.link, "append", append_and_upgrade), self.assertLogs("chrrep.link", "WARNING"):
            self.assertEqual(one.tell(("mark", 1)), Id(one.origin, 1))
        with self.assertRaises(ProgramChanged):
            one.tell(("mark", 2))
        self.assertEqual(two.show(), (("mark", 1),))

    def test_an_upgrade_while_another_joins(self) -> None:
        """Whoever joins, or joins again, goes on with the program that the log has by then."""
        one, two = self.member(MARKED), self.member()
        one.tell(("mark", 1), ("path", 1, 2, 5))
        one.upgrade(self.LONGER)
        programs = [f"{MARKED}% another\n", f"{self.LONGER}% the last\n"]
        link = self.link()
        for joining, join in ((two.link, two.rejoin), (link, lambda: self.stack.enter_context(Member(link)))):
            state = joining.state

            def state_and_upgrade(state: Callable[[], State] = state, program: str = programs.pop(0)) -> State:
                found = state()
                if one.program.text != program.encode():
                    one.upgrade(program)
                return found

            with patch.object(joining, "state", state_and_upgrade):
                join()
        self.assertEqual(one.program.text, f"{self.LONGER}% the last\n".encode())
        for member in (two, self.member()):
            self.assertEqual(member.going_over(member.show), (("mark", 1), ("path", 1, 2, 5)))

    def test_a_seal_has_others_wait_for_a_while(self) -> None:
        one, two = self.link(1), self.link(2, patience=0.3)
        one.seal(SEAL_SECONDS)
        with self.assertRaisesRegex(LinkLost, "its program is being changed"):
            self.put(two, [two.entry(1, [("a", 1)])])
        self.put(one, [one.entry(1, [("a", 1)])])
        one.seal(0.0)
        self.put(two, [two.entry(1, [("a", 1)])])
        one.seal(0.4)
        patient = self.link(3)
        self.put(patient, [patient.entry(1, [("a", 1)])])
        self.assertEqual(self.ids(), [Id(1, 1), Id(2, 1), Id(3, 1)])

    def test_a_command_goes_over(self) -> None:
        command = self.command()
        self.assertEqual(command.ask("path(1,2,5)"), "told 1:1")
        other = self.program.with_name("other.chr")
        other.write_text(self.LONGER)
        upgrade = Command(self.engine, self.log, None, "--upgrade", str(other))
        self.assertEqual(upgrade.answer(), "upgraded: rules 1, cases 541")
        self.assertEqual(upgrade.end(), (0, ""))
        command.send("path(1,2,8)\npath(1,2,7)\nmark(3)\n?")
        for answer in ("told 1:2", "told 1:3", "told 1:4", "mark(3), path(1,2,8)"):
            self.assertEqual(command.answer(), answer)
        said = "chrrep.link: the log went over to another program: rules 1, cases 541\n"
        self.assertEqual(command.end(), (0, said))

    def test_upgrades_that_are_killed(self) -> None:
        """The log is before the upgrade or after it, and goes on."""
        chance = random.Random(5)
        other = self.program.with_name("other.chr")
        self.program.write_text(MARKED)
        with self.member(MARKED) as member:
            texts = [MARKED, self.LONGER]
            for round_ in range(max(4, KILLS // 4)):
                member.tell(("mark", round_), ("path", 1, 2, 5))
                now = member.program.text.decode()
                other.write_text(texts[now == texts[0]])
                upgrade = Command(self.engine, self.log, None, "--upgrade", str(other))
                time.sleep(0.2 + chance.random() / 3)
                upgrade.kill()
                member.rejoin()
                self.assertIn(member.program.text.decode(), texts)
                wanted = (*(("mark", mark) for mark in range(round_ + 1)), ("path", 1, 2, 5))
                self.assertEqual(member.show(), wanted)
