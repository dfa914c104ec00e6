"""Twins of `Node` and `Member` for asyncio: the same calls, awaited.

    from chrrep.asynchronous import join
    async with join("sqlite:///routes.sqlite", program) as member:
        await member.tell(("path", "berlin", "paris", 1050))
        async for came, went in member.changes():
            ...

Each twin has its calls made in a thread of its own, one after the other, and waits for the log in another one. A call
whose `await` is cancelled goes on there to its end: what it was telling may be told.
"""

import asyncio
import os
from collections.abc import AsyncIterator, Callable, Coroutine, Generator
from concurrent.futures import Future, ThreadPoolExecutor
from contextlib import suppress
from functools import partial, wraps
from types import TracebackType
from typing import Any, Concatenate, ParamSpec, Self, TypeVar

from .link.following import LOOK_SECONDS
from .link.log import LOG_NAME, PATIENCE, Link
from .link.member import SNAPSHOT_AFTER, Member
from .link.member import join as link_join
from .node import UNASKED, Node, Timeout
from .refusals import WrongProcess
from .texts import Change, ProgramText, Verdict

__all__ = ["AsyncMember", "AsyncNode", "join"]

P = ParamSpec("P")
T = TypeVar("T")


class Caller:
    """A thread that makes the calls of a node or member, one after the other. A fork has no such thread: there they are
    `WrongProcess`."""

    def __init__(self, what: str, does: str = "calls") -> None:
        self._what = what
        self._process = os.getpid()
        self._thread = ThreadPoolExecutor(1, f"chrrep {what} {does}")

    async def call(self, function: Callable[P, T], *args: P.args, **kwargs: P.kwargs) -> T:
        """The result of the call."""
        if os.getpid() != self._process:
            raise WrongProcess(self._what)
        return await asyncio.get_running_loop().run_in_executor(self._thread, partial(function, *args, **kwargs))

    async def make(self, function: Callable[[], T], undo: Callable[[T], object]) -> T:
        """The same for what is to be undone where nobody waits for it any more."""
        made = self._thread.submit(function)
        try:
            return await asyncio.wrap_future(made)
        except asyncio.CancelledError:
            made.add_done_callback(partial(_undo, undo))
            raise

    def end(self) -> None:
        """Takes no more calls, and doesn't wait for those that were cancelled."""
        self._thread.shutdown(wait=False, cancel_futures=True)


def _undo(undo: Callable[[T], object], made: "Future[T]") -> None:
    if not made.cancelled() and not made.exception():
        undo(made.result())


def _awaited(call: Callable[Concatenate[Any, P], T]) -> Callable[Concatenate[Any, P], Coroutine[Any, Any, T]]:
    """A call of a node or member, as its twin has it."""

    @wraps(call)
    async def called(twin: Any, /, *args: P.args, **kwargs: P.kwargs) -> T:
        result: T = await twin._caller.call(partial(getattr(twin._of, call.__name__), *args, **kwargs))
        return result

    called.__doc__ = f"As `{call.__qualname__}`."
    return called


class AsyncNode:
    """A `Node`, whose process begins with `async with` or `start`, and ends with the `async with` or `close`."""

    def __init__(
        self,
        program: ProgramText,
        origin: int,
        *,
        chrrep: str | os.PathLike[str] | None = None,
        wide: bool | None = None,
        timeout: Timeout = UNASKED,
    ) -> None:
        self._make = partial(Node, program, origin, chrrep=chrrep, wide=wide, timeout=timeout)
        self._made: Node | None = None
        self._caller = Caller("node")

    async def start(self) -> Self:
        """Begins the process. Raises what `Node` raises."""
        made: Node = await self._caller.make(self._make, Node.close)
        self._made = made
        return self

    @property
    def node(self) -> Node:
        """The node itself, once it has begun."""
        if self._made is None:
            raise RuntimeError("the node has not begun: await its start, or enter it by async with")
        return self._made

    _of = node

    @property
    def origin(self) -> int:
        """The node's own origin."""
        return self.node.origin

    @property
    def pid(self) -> int:
        """The id of the node's process."""
        return self.node.pid

    @property
    def verdict(self) -> Verdict:
        """What was said of the program."""
        return self.node.verdict

    tell = _awaited(Node.tell)
    tell_many = _awaited(Node.tell_many)
    admit = _awaited(Node.admit)
    show = _awaited(Node.show)
    show_text = _awaited(Node.show_text)
    count = _awaited(Node.count)
    summary = _awaited(Node.summary)
    lacks = _awaited(Node.lacks)
    merge = _awaited(Node.merge)

    async def close(self) -> None:
        """As `Node.close`."""
        with suppress(WrongProcess):
            if self._made:
                await self._caller.call(self._made.close)
        self._caller.end()

    def __repr__(self) -> str:
        return f"<chrrep.asynchronous.AsyncNode: {self._made!r}>"

    async def __aenter__(self) -> Self:
        return await self.start()

    async def __aexit__(
        self, kind: type[BaseException] | None, error: BaseException | None, trace: TracebackType | None
    ) -> None:
        await self.close()


class AsyncMember:
    """A `Member`, which `join` makes."""

    def __init__(self, member: Member, caller: Caller) -> None:
        self.member = self._of = member
        self._caller = caller
        self._waits = Caller("member", "waits")
        self._is_closed = False

    @property
    def link(self) -> Link:
        """The member's link to the log."""
        return self.member.link

    @property
    def origin(self) -> int:
        """The origin of the operations that this member tells."""
        return self.member.origin

    @property
    def verdict(self) -> Verdict:
        """What was said of the program."""
        return self.member.verdict

    @property
    def refused(self) -> int:
        """As `Member.refused`."""
        return self.member.refused

    tell = _awaited(Member.tell)
    tell_many = _awaited(Member.tell_many)
    catch_up = _awaited(Member.catch_up)
    show = _awaited(Member.show)
    show_named = _awaited(Member.show_named)
    show_text = _awaited(Member.show_text)
    count = _awaited(Member.count)
    snapshot = _awaited(Member.snapshot)
    upgrade = _awaited(Member.upgrade)
    rejoin = _awaited(Member.rejoin)

    async def follow(self, wait: float = 0.0) -> int:
        """As `Member.follow`."""
        return await self._waits.call(self.member.follow, wait)

    async def changes(self, wait: float | None = None) -> AsyncIterator[Change]:
        """As `Member.changes`."""
        watch = self.member.watch()
        while True:
            change = await self._waits.call(watch.look, LOOK_SECONDS if wait is None else wait)
            if change:
                yield change
            elif wait is not None:
                return

    async def close(self) -> None:
        """Ends the node, and closes the link. To close twice is no fault."""
        if not self._is_closed:
            await self._caller.call(self.member.close)
            self._is_closed = True
            self._waits.end()
            self._caller.end()

    def __repr__(self) -> str:
        return f"<chrrep.asynchronous.AsyncMember: {self.member!r}>"


class Joining:
    """A member that is yet to come: `async with` gives it, and closes it; so does `await`, for who closes it."""

    def __init__(self, makes: Callable[[], Member]) -> None:
        self._makes = makes
        self._member: AsyncMember | None = None

    def __await__(self) -> Generator[object, None, AsyncMember]:
        return self._made().__await__()

    async def __aenter__(self) -> AsyncMember:
        self._member = await self._made()
        return self._member

    async def __aexit__(
        self, kind: type[BaseException] | None, error: BaseException | None, trace: TracebackType | None
    ) -> None:
        if self._member:
            await self._member.close()

    async def _made(self) -> AsyncMember:
        caller = Caller("member")
        try:
            return AsyncMember(await caller.make(self._makes, lambda member: member.close()), caller)
        except BaseException:
            caller.end()
            raise


def join(
    url: str,
    program: ProgramText | None = None,
    *,
    origin: int | None = None,
    log: str = LOG_NAME,
    patience: float = PATIENCE,
    wide: bool | None = None,
    timeout: Timeout = UNASKED,
    snapshot_after: int = SNAPSHOT_AFTER,
) -> Joining:
    """A member of the log in the engine that the address names, as `chrrep.link.join`: `async with join(..) as member`,
    or `member = await join(..)` and later `await member.close()`."""
    return Joining(partial(
        link_join, url, program, origin=origin, log=log, patience=patience, wide=wide, timeout=timeout,
        snapshot_after=snapshot_after,
    ))  # fmt: skip
