"""The twins for asyncio."""

import asyncio
import inspect
import os
import threading
import unittest
import unittest.mock
from contextlib import suppress
from pathlib import Path
from tempfile import TemporaryDirectory

import chrrep
from chrrep import Id, Node
from chrrep.asynchronous import AsyncMember, AsyncNode, join
from chrrep.link import LogUnusable, Member, NoProgram
from forks import said_in_fork
from programs import COINS, PATHS, PLAIN

SECONDS = 60.0


def is_alive(pid: int) -> bool:
    with suppress(ProcessLookupError):
        os.kill(pid, 0)
        return True
    return False


class Nodes(unittest.IsolatedAsyncioTestCase):
    async def test_a_node_has_the_calls_of_its_twin(self) -> None:
        with Node(COINS, 2) as other:
            other.tell(("coin",))
            async with AsyncNode(COINS, 1, timeout=SECONDS) as node:
                self.assertEqual((node.origin, node.verdict), (1, other.verdict))
                self.assertEqual(await node.tell(("coin",), ("coin",)), Id(1, 1))
                self.assertEqual(await node.tell_many([[("coin",)], [("note",)]]), [Id(1, 2), Id(1, 3)])
                self.assertEqual(await node.show(), (("coin",), ("note",), ("note",)))
                self.assertEqual(await node.show_text(), "coin, note, note")
                self.assertEqual((await node.show("coin"), await node.count("note")), ((("coin",),), 2))
                lacking = await node.lacks(other.summary())
                self.assertEqual([operation.id for operation in lacking], [Id(1, 1), Id(1, 2), Id(1, 3)])
                self.assertEqual(await node.merge(other.lacks(await node.summary())), 1)
                self.assertEqual(await node.show(), (("note",),) * 3)
                await node.admit(("coin",))
                with self.assertRaises(chrrep.UnknownSymbol):
                    await node.tell(("coins",))
                self.assertIn("origin 1", repr(node))
                pid = node.pid
                self.assertTrue(is_alive(pid))
            self.assertFalse(is_alive(pid))

    async def test_twins_lack_few_calls(self) -> None:
        """Those that they have take the same arguments, and are awaited."""
        texts = {"admit_texts", "merge_texts", "merge_soon", "merge_text_soon"}
        elsewhere = {"going_over", "listen", "named", "following", "change_from", "watch"}
        for twin, of, lacks in ((AsyncNode, Node, texts), (AsyncMember, Member, elsewhere)):
            calls = {name for name, _ in inspect.getmembers(of, inspect.isfunction) if name[0] != "_"}
            self.assertEqual(calls - vars(twin).keys(), lacks)
            for name in calls - lacks - {"changes", "close", "follow"}:
                call = getattr(twin, name)
                self.assertEqual(inspect.signature(call), inspect.signature(getattr(of, name)))
                self.assertTrue(inspect.iscoroutinefunction(call))
                self.assertEqual(call.__doc__, f"As `{getattr(of, name).__qualname__}`.")

    async def test_a_node_that_has_not_begun(self) -> None:
        node = AsyncNode(COINS, 1)
        with self.assertRaisesRegex(RuntimeError, "has not begun"):
            await node.tell(("coin",))
        await node.close()
        with self.assertRaises(chrrep.Syntax):
            await AsyncNode("a.", 1).start()

    async def test_many_calls_at_once(self) -> None:
        async with AsyncNode(PLAIN, 1) as node:
            ids = await asyncio.gather(*(node.tell(("a", value)) for value in range(50)))
            self.assertEqual(ids, [Id(1, number) for number in range(1, 51)])
            self.assertEqual(await node.show(), tuple(("a", value) for value in range(50)))

    async def test_a_fork_has_no_node_of_its_parent(self) -> None:
        async with AsyncNode(PLAIN, 1) as node:
            said = said_in_fork(lambda: asyncio.run(node.tell(("a", 1))))
            self.assertEqual(said, "WrongProcess: this node is another process's: a fork makes its own")
            self.assertEqual(said_in_fork(lambda: asyncio.run(node.close())), "None")
            self.assertEqual(await node.tell(("a", 2)), Id(1, 1))
            self.assertEqual(await node.show(), (("a", 2),))

    async def test_a_start_that_is_cancelled_leaves_no_process(self) -> None:
        node = AsyncNode(COINS, 1)
        make, close = node._make, Node.close
        begun, goes_on, closed = threading.Event(), threading.Event(), threading.Event()
        made: list[Node] = []

        def make_late() -> Node:
            begun.set()
            goes_on.wait(SECONDS)
            made.append(make())
            return made[0]

        def close_and_tell(closing: Node) -> None:
            close(closing)
            closed.set()

        node._make = make_late  # type: ignore[assignment]
        with unittest.mock.patch.object(Node, "close", close_and_tell):
            start = asyncio.create_task(node.start())
            self.assertTrue(await asyncio.to_thread(begun.wait, SECONDS))
            start.cancel()
            with self.assertRaises(asyncio.CancelledError):
                await start
            goes_on.set()
            self.assertTrue(await asyncio.to_thread(closed.wait, SECONDS))
        self.assertFalse(is_alive(made[0].pid))
        await node.close()


class Members(unittest.IsolatedAsyncioTestCase):
    def setUp(self) -> None:  # noqa: N802
        room = TemporaryDirectory()
        self.addCleanup(room.cleanup)
        self.room = Path(room.name)
        self.url = f"sqlite:///{self.room}/log.sqlite"

    async def test_a_member_has_the_calls_of_its_twin(self) -> None:
        async with join(self.url, PATHS, timeout=SECONDS) as one, join(self.url) as other:
            self.assertEqual((one.origin, other.origin, one.verdict), (1, 2, other.verdict))
            self.assertEqual(await one.tell(("path", "berlin", "paris", 1050)), Id(1, 1))
            self.assertEqual(await one.tell_many([[("path", 1, 2, 7)], [("path", 1, 2, 5)]]), [Id(1, 2), Id(1, 3)])
            self.assertEqual(await other.follow(), 3)
            self.assertEqual(await other.catch_up(), 0)
            wanted = {("path", "berlin", "paris", 1050), ("path", 1, 2, 5)}
            self.assertEqual(set(await other.show()), wanted)
            self.assertIn("path(berlin,paris,1050)", await other.show_text())
            self.assertEqual(await other.show("path", 1, None, None), (("path", 1, 2, 5),))
            self.assertEqual(await other.count("path"), 2)
            self.assertTrue(await one.snapshot())
            await one.upgrade(PATHS + "% more")
            with self.assertRaises(chrrep.link.ProgramChanged):
                await other.tell(("path", 1, 2, 3))
            self.assertTrue(await other.rejoin())
            self.assertEqual((other.refused, other.link.origin), (0, 2))
            self.assertIn("origin 2", repr(other))

    async def test_changes_come_while_others_tell(self) -> None:
        async with join(self.url, PATHS) as one, join(self.url) as other:
            seen = []

            async def tell() -> None:
                for value in (9, 12, 4):
                    await one.tell(("path", "oslo", "rome", value))
                    await asyncio.sleep(0.1)

            telling = asyncio.create_task(tell())
            async for came, went in other.changes():
                seen.append((came, went))
                if came == (("path", "oslo", "rome", 4),):
                    break
            await telling
            self.assertEqual(seen[0], ((("path", "oslo", "rome", 9),), ()))
            self.assertEqual(seen[-1], ((("path", "oslo", "rome", 4),), (("path", "oslo", "rome", 9),)))
            self.assertEqual([change async for change in one.changes(0.05)], [((seen[-1][0]), ())])

    async def test_the_loop_goes_on_while_a_member_waits(self) -> None:
        async with join(self.url, PLAIN) as member:
            waiting = asyncio.create_task(member.follow(SECONDS))
            await asyncio.sleep(0.05)
            self.assertEqual(await member.tell(("a", 1)), Id(1, 1))
            # who waits is woken by what was told, which is known already
            self.assertEqual(await asyncio.wait_for(waiting, SECONDS), 0)
            waiting = asyncio.create_task(member.follow(0.3))
            waiting.cancel()
            with self.assertRaises(asyncio.CancelledError):
                await waiting
            self.assertEqual(await member.show(), (("a", 1),))

    async def test_what_fails_is_raised_and_closed(self) -> None:
        with self.assertRaises(LogUnusable):
            async with join(f"sqlite:///{self.room}/missing/log"):
                self.fail("there is no such folder")
        with self.assertRaises(NoProgram):
            async with join(self.url):
                self.fail("the log has no program")
        async with join(self.url, PLAIN, origin=1) as member:
            self.assertEqual(await member.tell(("a", 1)), Id(1, 1))
        # the origin was given back each time
        async with join(self.url, origin=1) as member:
            self.assertEqual(await member.show(), (("a", 1),))
