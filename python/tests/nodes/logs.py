"""What is appended to a log and read from it, over whatever engine."""

import queue
import threading
import time
from unittest.mock import patch

from chrrep import Id
from chrrep.link import Entry, LinkLost, Mark, Member, OriginShared, Program, ProgramChanged, SetAside, State, connect
from kills import SECONDS
from links import Links
from programs import MARKED, PATHS, PLAIN


class Logs(Links):
    """The calls of a link."""

    def test_what_is_appended_is_read(self) -> None:
        one, two = self.link(1), self.link(2)
        self.assertEqual((one.newest(), one.read({})), ({}, ([], 0)))
        told = [one.entry(number, [("a", -number), ("b",)]) for number in range(1, 4)]
        for entry in told:
            self.put(one, [entry])
        other = two.entry(1, [("a", 2**63 - 1)])
        self.put(two, [other])
        for link in (one, two):
            self.assertEqual(link.newest(), {1: 3, 2: 1})
            self.assertEqual(sorted(link.read({}).entries), [*told, other])
            self.assertEqual(link.read({1: 2, 2: 1}).entries, told[2:])
            self.assertEqual(link.read({1: 3, 2: 1}).entries, [])
        one.close()
        one.close()
        with self.assertRaises(LinkLost):
            one.newest()

    def test_a_number_is_used_once(self) -> None:
        link = self.link(1)
        first = link.entry(1, [("a", 1)])
        self.put(link, [first])
        self.put(link, [first])
        with self.assertRaises(OriginShared) as raised:
            self.put(link, [first._replace(atoms='[["a",5]]')])
        self.assertEqual(raised.exception.origin, 1)
        self.put(link, [link.entry(9, [("a", 9)])])
        with self.assertRaises(OriginShared):
            self.put(link, [link.entry(8, [("a", 8)])])
        self.assertEqual(self.ids(), [Id(1, 1), Id(1, 9)])

    def test_batches_are_appended_whole_or_not(self) -> None:
        link = self.link(1)
        batch = [link.entry(number, [("a", number)]) for number in range(1, 301)]
        self.put(link, batch)
        self.put(link, batch)
        for bad in (batch[:150], batch[150:] + [link.entry(301, [("a", 1)])], [link.entry(300, [("a", 0)])]):
            with self.assertRaises(OriginShared):
                self.put(link, bad)
        self.assertEqual(self.entries(), batch)

    def test_new_origins_are_read_at_once(self) -> None:
        one = self.link(1)
        for origin in (2, 3):
            other = self.link(origin)
            self.put(other, [other.entry(1, [("a", 1)])])
            after = {2: 1} if origin > 2 else {}
            self.assertEqual([entry.id for entry in one.read(after).entries], [Id(origin, 1)])

    def test_long_logs_are_read_in_parts(self) -> None:
        links = [self.link(origin) for origin in (1, 2)]
        for link in links:
            self.put(link, [link.entry(number, [("a", number)]) for number in range(1, 1301)])
        self.assertEqual(len(links[0].read({}).entries), 2000)
        self.assertEqual(len(self.entries()), 2600)

    def test_who_waits_is_woken(self) -> None:
        waits, tells = self.link(1), self.link(2)
        for number in (1, 2):
            came: queue.Queue[list[Entry]] = queue.Queue()
            after = {2: number - 1} if number > 1 else {}
            thread = threading.Thread(target=lambda: came.put(waits.read(after, 4.0).entries), daemon=True)
            begin = time.monotonic()
            thread.start()
            time.sleep(0.3)
            self.put(tells, [tells.entry(number, [("a", number)])])
            entries = came.get(timeout=SECONDS)
            while not entries:  # an origin's first comes may wake by its name alone
                entries = waits.read(after).entries
            self.assertEqual([entry.id for entry in entries], [Id(2, number)])
            self.assertLess(time.monotonic() - begin, 3.5)
        begin, busy = time.monotonic(), time.thread_time()
        self.assertEqual(waits.read({2: 2}, 1.0).entries, [])
        self.assertGreaterEqual(time.monotonic() - begin, 0.9)
        self.assertLess(time.thread_time() - busy, 0.1)

    def test_logs_of_other_names_are_apart(self) -> None:
        link = self.link(1)
        self.put(link, [link.entry(1, [("a", 1)])])
        with connect(self.engine.url, 1, log=self.log + "_") as other:
            self.assertEqual(other.newest(), {})

    def test_a_snapshot_takes_the_place_of_entries(self) -> None:
        one, two = self.link(1), self.link(2)
        self.assertEqual(one.mark(), Mark(1, 0, {}))
        self.assertEqual(one.state(), State(1, None, 0, {}, "true"))
        for link in (one, two):
            self.put(link, [link.entry(number, [("a", number)]) for number in range(1, 11)])
        first = State(1, Program(PLAIN.encode()), 1, {1: 10, 2: 4}, "a(1), a(2)")
        self.assertTrue(one.keep(first))
        self.assertEqual((two.state(), two.mark()), (first, Mark(1, 1, {1: 10, 2: 4})))
        # the last of each origin, up to where it came, tells how far that is
        self.assertEqual(self.ids(), [Id(1, 10), *(Id(2, number) for number in range(4, 11))])
        self.assertEqual(one.newest(), {1: 10, 2: 10})
        for generation in (1, 3):
            self.assertFalse(two.keep(first._replace(generation=generation, store="true")))
        self.assertFalse(two.keep(first._replace(generation=2), is_last=True))
        self.assertEqual(two.state(), first)
        last = first._replace(epoch=2, generation=2, position={1: 10, 2: 10})
        self.assertTrue(two.keep(last, is_last=True))
        self.assertEqual(one.state(), last)
        self.assertEqual(self.ids(), [Id(1, 10), Id(2, 10)])
        with self.assertRaises(ProgramChanged):
            self.put(one, [one.entry(11, [("a", 1)])])
        with self.assertRaises(OriginShared):
            self.put(one, [one.entry(9, [("a", 1)])], 2)
        self.put(one, [one.entry(11, [("a", 1)])], 2)
        self.assertEqual(two.read({1: 10, 2: 10}), ([one.entry(11, [("a", 1)])], 2))

    def test_an_id_is_drawn_with_the_program(self) -> None:
        """In one step; links that were there before come to know it, and a log never has another."""
        early, other = self.link(), self.link()
        self.assertEqual((early.log_id, other.log_id), ("", ""))
        with patch("chrrep.link.log.new_log_id", side_effect=ZeroDivisionError):
            with self.assertRaises(ZeroDivisionError):
                early.begin(Program(PATHS.encode()))
        self.assertEqual((early.state().program, early.log_id), (None, ""))
        member = self.stack.enter_context(Member(early, PLAIN))
        self.assertRegex(early.log_id, "^[0-9a-f]{32}$")
        other.begin(Program(MARKED.encode()))
        self.assertEqual((other.state().program, other.log_id), (Program(PLAIN.encode()), early.log_id))
        self.assertEqual(self.link().log_id, early.log_id)
        member.upgrade(PLAIN + "% other\n")
        self.assertEqual(self.link().log_id, early.log_id)

    def test_an_id_that_was_drawn_before_the_program_stays(self) -> None:
        self.link().close()
        self.engine.write_id(self.log, "x" * 32)
        member = self.member(PLAIN)
        member.tell(("a", 1))
        self.assertEqual((member.link.log_id, self.link().log_id), ("x" * 32, "x" * 32))

    def test_a_link_that_was_there_before_the_program_appends(self) -> None:
        early = self.link()
        member = self.member(PLAIN)
        self.put(early, [early.entry(1, [("a", 1)])])
        self.assertEqual(member.show(), (("a", 1),))

    def test_a_log_that_is_lost_before_it_has_a_program(self) -> None:
        link = self.link()
        self.engine.lose(self.log)
        with self.assertRaisesRegex(LinkLost, "has lost"):
            Member(link, PLAIN)

    def test_what_is_set_aside_is_kept_once(self) -> None:
        link = self.link(1)
        self.assertEqual(link.refused(), [])
        one, two = (SetAside(Entry(Id(7, number), "x", "y"), "why") for number in (1, 2))
        for refused in (two, one, one._replace(reason="again")):
            link.set_aside(refused)
        self.assertEqual(link.refused(), [one, two])
