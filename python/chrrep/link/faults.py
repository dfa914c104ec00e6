"""What goes wrong between a node and its log."""

import errno

from ..refusals import ChrrepError
from ..words import file_words


class LinkLost(ChrrepError):
    """The engine didn't answer for as long as the link was patient, or it has lost what the log had."""


class LogLost(LinkLost):
    """The engine has lost what the log had: nothing is appended to what is there now."""

    def __init__(self, what: str) -> None:
        super().__init__(f"the engine has lost what the log had: {what}")


class LogUnusable(ChrrepError):
    """The log can't be used as it is: its file can't be opened or written, is damaged, or was taken away."""


class NewerFormat(ChrrepError):
    """The log was written by a later version of this package."""

    def __init__(self, format: int) -> None:
        super().__init__(f"the log has format {format}, which this version of chrrep doesn't know")


class OriginShared(ChrrepError):
    """Another node has this origin. What that one appended stays."""

    def __init__(self, origin: int) -> None:
        self.origin = origin
        super().__init__(f"origin {origin} is another node's: each needs its own")


class NoProgram(ChrrepError):
    """A log or a folder that has no program yet, and a member that brought none."""

    def __init__(self, place: str = "log") -> None:
        super().__init__(f"the {place} has no program yet: its first member brings one")


class OtherProgram(ChrrepError):
    """The member brought another program than that of the log or folder. Nothing was told."""

    def __init__(self, ours: bytes, theirs: bytes, place: str = "log") -> None:
        self.ours, self.theirs = ours, theirs
        super().__init__(f"the {place} has another program: {_first_difference(ours, theirs, place)}")


class ProgramChanged(ChrrepError):
    """The log went over to another program. A new member goes on, or this one by `rejoin`."""

    def __init__(self) -> None:
        super().__init__("the log went over to another program: join it again")


class Diverged(ChrrepError):
    """At one position of the log this member's store at rest, `ours`, is not the snapshot's, `theirs`."""

    def __init__(self, position: dict[int, int], ours: str, theirs: str) -> None:
        self.position, self.ours, self.theirs = position, ours, theirs
        super().__init__(f"two stores at position {position}: here {ours[:60]}, in the log {theirs[:60]}")


class NoDriver(ChrrepError, ImportError):
    """Python's client of an engine isn't installed."""

    def __init__(self, module: str, extra: str) -> None:
        super().__init__(
            f"this engine needs Python's {module}, which isn't installed: pip install {module}, or chrrep with its "
            f"extra, './python[{extra}]'"
        )


class PageUnusable(ChrrepError):
    """The page can't be served: its port is taken, or not to be had."""

    def __init__(self, port: int, fault: Exception) -> None:
        self.port = port
        is_taken = getattr(fault, "errno", None) == errno.EADDRINUSE
        why = "is taken by another program" if is_taken else f"is not to be had ({fault})"
        super().__init__(f"port {port} of this machine {why}: name another by --page PORT")


def _first_difference(ours: bytes, theirs: bytes, place_of: str) -> str:
    """Where two texts differ first, in words."""
    if ours == theirs:
        return "the texts are one, but judged in two ways: leave --wide out, and the program is judged as the log says"
    if is_file := file_words(ours):
        return is_file
    here, there = (text.decode(errors="replace").split("\n") for text in (ours, theirs))
    place = next((at for at, pair in enumerate(zip(here, there)) if pair[0] != pair[1]), min(len(here), len(there)))
    said = (repr(lines[place][:80]) if place < len(lines) else "not there" for lines in (here, there))
    return f"line {place + 1} is {next(said)} here and {next(said)} in the {place_of}"
