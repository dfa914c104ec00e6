"""The program of a log, over whatever engine."""

from collections.abc import Callable

import chrrep
from chrrep import Verdict
from chrrep.link import Member, NewerFormat, NoProgram, OtherProgram, Program, ProgramChanged, State
from links import Links
from programs import COINS, MARKED, PATHS, PLAIN, REGISTER


class Programs(Links):
    """One program a log."""

    def test_a_program_is_taken_from_the_log(self) -> None:
        with self.assertRaises(NoProgram):
            self.member()
        text = b"% \xff\x00 \r\n---" + COINS.encode()
        programs: list[str | bytes] = [COINS + "coin <=> true.", text]
        for program in programs:
            with self.assertRaises(chrrep.Refused):
                self.stack.enter_context(Member(self.link(), program))
        with self.assertRaises(NoProgram):
            self.member()
        odd = b"% \xff \xc3\xa9\r\n" + COINS.encode()
        first = self.stack.enter_context(Member(self.link(), odd))
        first.tell(("coin",), ("coin",))
        second = self.member()
        self.assertEqual((second.program, second.verdict), (Program(odd), first.verdict))
        self.assertEqual(second.show(), (("note",),))

    def test_another_program_is_refused(self) -> None:
        first = self.member(PATHS)
        first.tell(("path", 1, 2, 3))
        for text, said in (
            (PATHS.replace("D =< E", "D < E"), "line 2 is"),
            (PATHS + "% more\n", "line 3 is '% more' here and '' in the log"),
            (PATHS.rstrip(), "line 3 is not there here and '' in the log"),
        ):
            with self.assertRaisesRegex(OtherProgram, said) as raised:
                self.member(text)
            self.assertEqual((raised.exception.ours, raised.exception.theirs), (text.encode(), PATHS.encode()))
        self.assertEqual(len(self.entries()), 1)
        self.assertEqual(self.member(PATHS).show(), first.show())

    def test_the_log_knows_how_its_program_is_judged(self) -> None:
        first = self.stack.enter_context(Member(self.link(), PATHS, wide=True))
        self.assertEqual((self.member().verdict, self.member(PATHS).verdict), (first.verdict, first.verdict))
        with self.assertRaisesRegex(OtherProgram, "judged in two ways: leave --wide out"):
            Member(self.link(), PATHS, wide=False)

    def test_a_log_is_judged_by_the_cases_that_decide(self) -> None:
        """Its members judge as the first one did."""
        first = self.member(REGISTER)
        self.assertEqual((first.verdict, first.program), (Verdict(3, 1230, True), Program(REGISTER.encode(), True)))
        first.tell(("reg", "title", 4, 900, 1), ("reg", "title", 5, 900, 2))
        for member in (self.member(), self.member(REGISTER), Member(self.link(), REGISTER, wide=True)):
            self.stack.callback(member.close)
            self.assertEqual((member.verdict, member.show()), (first.verdict, (("reg", "title", 5, 900, 2),)))
        with self.assertRaises(OtherProgram):
            Member(self.link(), REGISTER, wide=False)
        first.upgrade(f"{REGISTER}% more\n")
        self.assertEqual((first.program.is_wide, first.show()), (True, (("reg", "title", 5, 900, 2),)))
        with self.assertRaises(chrrep.TooManyTypes):
            first.upgrade(f"{REGISTER}% the last\n", wide=False)
        first.upgrade(REGISTER + PATHS)
        self.assertEqual((first.link.state().program, first.program.is_wide), (first.program, True))
        self.program.write_text(REGISTER + PATHS)
        command = self.command()
        self.assertRegex(command.ask("reg(title,6,901,3)") or "", r"^told \d+:1$")
        self.assertEqual(command.ask("?"), "reg(title,6,901,3)")
        self.assertEqual(command.end(), (0, ""))

    def test_a_log_of_a_later_format(self) -> None:
        member = self.member(PLAIN)
        member.tell(("a", 1))
        last = member.link.format
        self.engine.set_format(self.log, last + 1)
        with self.assertRaisesRegex(NewerFormat, f"format {last + 1}"):
            self.link()
        self.engine.set_format(self.log, last)
        self.assertEqual(self.member().show(), (("a", 1),))

    def test_a_log_of_another_epoch(self) -> None:
        one, two = self.member(PLAIN), self.member()
        one.tell(("a", 1))
        changed = State(2, Program(MARKED.encode()), 1, one.link.newest(), "mark(1)")
        self.assertTrue(one.link.keep(changed, is_last=True))
        calls: list[Callable[[], object]] = [lambda: one.tell(("a", 2)), two.follow, one.show, one.snapshot]
        for call in calls:
            with self.assertRaises(ProgramChanged):
                call()
        three = self.member()
        self.assertEqual((three.program.text, three.show()), (MARKED.encode(), (("mark", 1),)))
        self.assertEqual(three.tell(("mark", 2)).number, 1)
