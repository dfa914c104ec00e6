"""The names that are told to a folder."""

import json
import logging
import os
import secrets
from collections.abc import Iterable
from contextlib import suppress
from pathlib import Path

from ..names import Names, number_of
from ..texts import Atom
from .faults import LogUnusable

_LOG = logging.getLogger("chrrep.link")


class KeptNames:
    """The names that are told to a folder, in files beside its feeds: a line of JSON each.

    Each member writes a file of its own, and reads all. A name is on the disk before the fact that has it is told.
    """

    def __init__(self, folder: Path) -> None:
        self._folder = folder
        self._known = Names()
        # of the files of others nobody knows whether the disk has them
        self._kept: set[str] = set()
        self._read: dict[str, int] = {}
        self._file: int | None = None

    def keep(self, atoms: Iterable[Atom]) -> None:
        """Has the disk keep the names among the arguments of atoms. Raises `NameClash`, `NameFault` and
        `LogUnusable`."""
        self.learn()
        found = self._known.of(atoms)
        new = [name for name in found.values() if name not in self._kept]
        if new:
            self._write("".join(json.dumps(name) + "\n" for name in new).encode())
            self._known.learn(found.items())
            self._kept.update(new)

    def learn(self) -> None:
        """Takes in the names that others have told."""
        with suppress(FileNotFoundError), os.scandir(self._folder) as entries:
            for entry in entries:
                if entry.name.endswith(".names"):
                    self._learn_file(entry)

    def named(self, atoms: Iterable[Atom]) -> tuple[Atom, ...]:
        """The atoms with names in the place of numbers."""
        return self._known.named(atoms)

    def close(self) -> None:
        """Lets go of the file of this member."""
        file, self._file = self._file, None
        if file is not None:
            os.close(file)

    def _learn_file(self, entry: "os.DirEntry[str]") -> None:
        at = self._read.get(entry.name, 0)
        with suppress(FileNotFoundError):
            if entry.stat().st_size <= at:
                return
            with open(entry.path, "rb") as file:
                file.seek(at)
                whole, end, _ = file.read().rpartition(b"\n")
            names = [name for line in whole.split(b"\n") if line and (name := _name_in(line, entry.path)) is not None]
            self._known.learn((number_of(name), name) for name in names)
            self._read[entry.name] = at + len(whole) + len(end)

    def _write(self, lines: bytes) -> None:
        """Appends lines to the file of this member. One that was not written through is never written again."""
        try:
            file = self._opened()
            while lines:
                lines = lines[os.write(file, lines):]
            os.fsync(file)
        except OSError as fault:
            self.close()
            raise LogUnusable(f"the names in {self._folder} can't be written: {fault.strerror}") from fault
        except BaseException:
            self.close()
            raise

    def _opened(self) -> int:
        """The file of this member, which is made at its first name."""
        if self._file is None:
            self._folder.mkdir(exist_ok=True)
            path = self._folder / f"{secrets.token_hex(8)}.names"
            self._file = os.open(path, os.O_WRONLY | os.O_APPEND | os.O_CREAT | os.O_EXCL | os.O_CLOEXEC, 0o644)
            for folder in (self._folder, self._folder.parent):
                _sync_folder(folder)
        return self._file


def _name_in(line: bytes, path: str) -> str | None:
    """The name of a line; None where it is damaged, which is told."""
    with suppress(ValueError):
        name = json.loads(line)
        if isinstance(name, str):
            return name
    _LOG.warning("a line of %s is no name: %r", path, line[:80])
    return None


def _sync_folder(folder: Path) -> None:
    at = os.open(folder, os.O_RDONLY)
    try:
        os.fsync(at)
    finally:
        os.close(at)
