"""Keeps facts by the rules of a program, together with all nodes that have the same folder or log.

Type facts, on one line between commas. The answer `told ORIGIN:NUMBER` says that they are on the disk, and safe.

  path(1,2,7), path(rome,"São Paulo",1)   tells two facts
  ?                                       shows all facts that the rules have left
  ? path                                  shows those of one symbol
  ? path(rome,_,_)                        shows those with this argument; _ is any
  help                                    shows the facts that this program has

A line that is refused is answered by what is wrong with it. The end of the input (control-D) ends the node; with a page
it goes on until Ctrl-C or a SIGTERM.
"""

import argparse
import logging
import os
import signal
import sys
import threading
import warnings
from collections.abc import Callable, Iterator, Sequence
from contextlib import AbstractContextManager, nullcontext, suppress
from functools import partial
from pathlib import Path
from typing import Self

from .. import Atom, Id, Refused, RefusedProgram
from ..lines import Lines, text_of
from ..names import NameClash, named_atoms_of, named_text, pattern_of
from ..prompt import example_of, fault_words, help_of
from .any_member import AnyMember
from .faults import LogUnusable
from .folder import PREFIX as FOLDER_PREFIX
from .log import LOG_NAME, PATIENCE, one_line
from .member import BATCH, SNAPSHOT_AFTER, join
from .sqlite import PREFIX

ACCEPTED, REFUSED, FAULT, INTERRUPTED, TERMINATED = 0, 1, 3, 130, 143
_STANDARD_INPUT, _STANDARD_OUTPUT = 0, 1
_CHUNK = 65_536
_LOOK_SECONDS = 0.2
_QUESTION, _HELP = "?", "help"
_INSTALLED = "chrrep-link"
_STATUSES = (
    "Exit status: 0 the input has ended, 1 the program is refused, 2 these words are no command, 3 something failed and"
    " is\ntold on standard error, 130 Ctrl-C, 143 SIGTERM. docs/NODES.md has the rest."
)


class Terminated(BaseException):
    """The command got a SIGTERM."""


def main(words: list[str] | None = None) -> int:
    """Runs the command, and gives its exit status: 0 at the input's end, 1 for a refused program, 3 for a fault, 130
    and 143 after Ctrl-C and SIGTERM."""
    settings = _settings(words)
    logging.basicConfig(format="chrrep.link: %(message)s")
    warnings.showwarning = _warn
    try:
        with Signals() as signals:
            _run(settings, signals)
    except KeyboardInterrupt:
        return INTERRUPTED
    except Terminated:
        return TERMINATED
    except RefusedProgram as refusal:
        print(f"chrrep.link: the program is refused: {refusal}", file=sys.stderr)
        return REFUSED
    except Exception as fault:  # those of the engine's client too
        print(f"chrrep.link: {type(fault).__name__}: {one_line(fault)}", file=sys.stderr)
        return FAULT
    return ACCEPTED


def _warn(message: Warning | str, *_: object, **__: object) -> None:
    print(f"chrrep.link: {' '.join(str(message).split())}", file=sys.stderr, flush=True)


class Signals:
    """Ctrl-C and SIGTERM. Until the node is up they are raised where they come. Then they end what goes on, and are
    raised once that has ended, since an exception in the middle of it could leave a lock held, or get lost. The second
    one is raised at once."""

    def __init__(self) -> None:
        self._over: threading.Event | None = None
        self._noticed: BaseException | None = None

    def end(self, over: threading.Event) -> None:
        """From now on has the first signal set the event."""
        self._over = over

    def raise_noticed(self) -> None:
        if self._noticed:
            raise self._noticed

    def __enter__(self) -> Self:
        # no other thread gets signals
        is_main = threading.current_thread() is threading.main_thread()
        numbers = (signal.SIGINT, signal.SIGTERM) if is_main else ()
        self._before = {number: signal.signal(number, self._notice) for number in numbers}
        return self

    def __exit__(self, *_: object) -> None:
        for number, handler in self._before.items():
            signal.signal(number, handler)

    def _notice(self, number: int, _: object) -> None:
        fault = KeyboardInterrupt() if number == signal.SIGINT else Terminated()
        if self._over is None or self._noticed:
            raise fault
        self._noticed = fault
        self._over.set()


def _settings(words: list[str] | None) -> argparse.Namespace:
    parser = argparse.ArgumentParser(
        prog=_INSTALLED if Path(sys.argv[0]).name == _INSTALLED else "python -m chrrep.link",
        description=__doc__,
        epilog=_STATUSES,
        formatter_class=argparse.RawDescriptionHelpFormatter,
    )
    add = parser.add_argument
    rules = "the file with the rules; without it, those that are kept with the facts"
    add("program", nargs="?", type=Path, metavar="PROGRAM", help=rules)
    engine = (
        "where the facts are: a folder, dir:///PATH, or a log that nodes share, sqlite:///PATH, redis://HOST:PORT/DB "
        "or postgresql://USER@HOST:PORT/DB; without it, a folder in .chrrep beside PROGRAM, or the log of an earlier "
        "version there"
    )
    add("--engine", metavar="URL", help=engine)
    add("--log", default=LOG_NAME, metavar="NAME", help=f"which log, where the engine has several ({LOG_NAME})")
    page = "show the facts in a browser too, at http://127.0.0.1:PORT/; 0 takes a free port"
    add("--page", type=int, metavar="PORT", help=page)
    add("--upgrade", type=Path, metavar="NEW", help="have the log go over to the rules in the file NEW, and end")
    wide = (
        "decide by the columns that rules compare: more programs are decided; without it, only where there would be "
        "too many cases"
    )
    add("--wide", action="store_true", help=wide)
    away = f"how long to wait for a log's engine that doesn't answer ({PATIENCE:.0f})"
    add("--patience", default=PATIENCE, type=float, metavar="SECONDS", help=away)
    add("--origin", type=int, metavar="N", help="the ORIGIN of what this node tells; without it, a free one")
    after = f"after how many told facts the log keeps what is left of all in their place ({SNAPSHOT_AFTER})"
    add("--snapshot-after", default=SNAPSHOT_AFTER, type=int, metavar="N", help=after)
    settings = parser.parse_args(words)
    if settings.upgrade and settings.program:
        parser.error("with --upgrade NEW the log has the PROGRAM")
    if settings.upgrade and settings.page is not None:
        parser.error("with --upgrade NEW there is no node for a --page")
    if not (settings.engine or settings.program or settings.upgrade):
        parser.error("without a PROGRAM the folder or log is to be named: --engine URL")
    return settings


def _run(settings: argparse.Namespace, signals: Signals) -> None:
    if settings.engine:
        return _serve(settings, settings.engine, signals)
    program = settings.program or settings.upgrade
    beside = _folder_beside(program)
    try:
        _serve(settings, _engine_in(beside, program.stem, settings.upgrade is not None), signals)
    finally:
        # one without facts was made in vain
        with suppress(OSError):
            beside.rmdir()


def _engine_in(beside: Path, name: str, is_upgrade: bool) -> str:
    """Where the facts of a program of this name are: in a folder, but for a log that is there already. Only a log goes
    over to another program."""
    folder, log = beside / name, beside / f"{name}.sqlite"
    is_log = log.exists() or is_upgrade
    return f"{PREFIX}{log}" if is_log and not folder.exists() else f"{FOLDER_PREFIX}{folder}"


def _serve(settings: argparse.Namespace, engine: str, signals: Signals) -> None:
    options = {name: getattr(settings, name) for name in ("origin", "log", "patience", "snapshot_after")}
    is_wide = settings.wide or None
    if settings.upgrade and engine.startswith(FOLDER_PREFIX):
        raise ValueError(f"the folder of {engine} keeps its program: --upgrade is for logs")
    with join(engine, settings.program, wide=None if settings.upgrade else is_wide, **options) as member:
        if not settings.engine:
            place = "folder" if engine.startswith(FOLDER_PREFIX) else "log"
            print(f"chrrep.link: the {place} is {engine}, and this node's origin {member.origin}", file=sys.stderr)
        if settings.upgrade:
            member.upgrade(settings.upgrade, wide=is_wide)
            _say(f"upgraded: rules {member.verdict.rules}, cases {member.verdict.cases}")
        else:
            member.when_rejoined = partial(_say_program, member)
            _begin_prompt(member)
            with _page(member, settings.page):
                _converse(member, signals, settings.page is not None)


def _page(member: AnyMember, port: int | None) -> AbstractContextManager[object]:
    """The page of the member, where one is asked for."""
    if port is None:
        return nullcontext()
    # who serves no page does without the modules for it
    from .page import Page

    page = Page(member, port)
    print(f"chrrep.link: the page is {page.url}", file=sys.stderr, flush=True)
    return page


def _folder_beside(program: Path) -> Path:
    """The folder `.chrrep` beside a program text, which is made where it isn't there."""
    folder = program.resolve().parent / ".chrrep"
    try:
        folder.mkdir(exist_ok=True)
    except OSError as fault:
        raise LogUnusable(f"the folder for the facts can't be made: {fault}") from fault
    return folder


def _converse(member: AnyMember, signals: Signals, goes_on: bool) -> None:
    """Follows the log until the input has ended, if it doesn't go on then, a signal has come, or something has
    failed."""
    over = threading.Event()
    signals.end(over)
    failures: list[BaseException] = []

    def answer_all() -> None:
        try:
            for lines in _lines():
                _answer(member, lines)
        except BaseException as failure:
            failures.append(failure)
        if failures or not goes_on:
            over.set()

    threading.Thread(target=answer_all, daemon=True).start()
    while not over.is_set():
        member.going_over(lambda: member.follow(_LOOK_SECONDS))
    signals.raise_noticed()
    if failures:
        raise failures[0]


def _begin_prompt(member: AnyMember) -> None:
    """Says to whoever sits at a terminal what may be typed."""
    if os.isatty(_STANDARD_INPUT):
        example = f"type {example_of(member.columns)} to tell a fact, ? to see all, {_HELP} for more"
        print(f"chrrep.link: {example}", file=sys.stderr, flush=True)


def _answer(member: AnyMember, lines: list[bytes]) -> None:
    """Answers lines that came at once. Operations that follow each other are told together."""
    tells: list[tuple[Atom, ...]] = []
    for line in lines:
        read = _read(member, line)
        if isinstance(read, tuple):
            tells.append(read)
        elif read:
            _tell(member, tells)
            _say(read())
    _tell(member, tells)


def _read(member: AnyMember, line: bytes) -> tuple[Atom, ...] | Callable[[], str] | None:
    """The atoms that a line tells, or what answers it; None where it is empty."""
    try:
        text = text_of(line).strip()
        if text.startswith(_QUESTION):
            return partial(_shown, member, text)
        if text == _HELP and 0 not in member.columns.symbols.get(_HELP, []):
            return partial(help_of, member.columns)
        return named_atoms_of(text) if text else None
    except ValueError as fault:
        said = f"refused: {fault_words(fault, member.columns)}"
        return lambda: said


def _shown(member: AnyMember, text: str) -> str:
    """The store, or what is asked for of it behind a question mark."""
    try:
        if text == _QUESTION:
            return member.going_over(member.show_text)
        symbol, pattern = pattern_of(text, len(_QUESTION))
        return named_text(member.going_over(lambda: member.show(symbol, *pattern)))
    except (ValueError, Refused) as fault:
        return f"refused: {fault_words(fault, member.columns)}"


def _tell(member: AnyMember, tells: list[tuple[Atom, ...]]) -> None:
    """Tells operations, each by itself where they aren't taken together, and forgets them."""
    for at in range(0, len(tells), BATCH):
        batch = tells[at:at + BATCH]
        try:
            ids = member.going_over(partial(member.tell_many, batch))
        except (Refused, NameClash) as refusal:
            _say_told(refusal.told)
            for atoms in batch[len(refusal.told):]:
                _tell_one(member, atoms)
        else:
            _say_told(ids)
    tells.clear()


def _say_told(ids: Sequence[Id]) -> None:
    if ids:
        _say("".join(f"told {id.origin}:{id.number}\n" for id in ids)[:-1])


def _tell_one(member: AnyMember, atoms: tuple[Atom, ...]) -> None:
    try:
        id = member.going_over(partial(member.tell, *atoms))
    except (Refused, NameClash) as refusal:
        _say(f"refused: {refusal}")
    else:
        _say(f"told {id.origin}:{id.number}")


def _say_program(member: AnyMember) -> None:
    program = f"rules {member.verdict.rules}, cases {member.verdict.cases}"
    print(f"chrrep.link: the log went over to another program: {program}", file=sys.stderr)


def _say(answer: str) -> None:
    # as the input is read, whatever the locale is; and by the descriptor, which no thread holds as the program ends
    left = memoryview(answer.encode() + b"\n")
    while left:
        left = left[os.write(_STANDARD_OUTPUT, left):]


def _lines() -> Iterator[list[bytes]]:
    """The input's lines as they come. Read by the descriptor, so that a fault can end the program while it waits."""
    lines = Lines()
    while chunk := os.read(_STANDARD_INPUT, _CHUNK):
        yield lines.cut(chunk)
    yield lines.last()


if __name__ == "__main__":
    sys.exit(main())
