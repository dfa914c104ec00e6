"""What goes wrong: `refused N` as exceptions, and a node that died."""

import re
from collections.abc import Callable
from typing import ClassVar, NoReturn

from .texts import Atom, Id, Weight, atoms_of, numbers_of


class ChrrepError(Exception):
    """The base of all exceptions of this package.

    One that a tell into a log has raised says what became of its operations: those of the ids `told` are in the log, of
    those of `unsure` it isn't known, and the others aren't there.
    """

    told: tuple[Id, ...] = ()
    unsure: tuple[Id, ...] = ()


class NodeDied(ChrrepError):
    """The program ended, or was ended, before it answered. What the node held is gone with it.

    `status` is its exit status, the negative number of the signal that ended it, or None where it was closed.
    """

    _MEANINGS: ClassVar[dict[int, str]] = {
        2: "it doesn't know these words: does this program have the command?",
        3: "a device's fault",
        4: "want of memory",
        69: "it had to be built, and the command rt is missing",
        70: "it could not be built",
    }

    def __init__(self, what: str, status: int | None = None) -> None:
        self.what, self.status = what, status
        if status is not None:
            end = f"signal {-status}" if status < 0 else f"status {status}"
            meaning = self._MEANINGS.get(status)
            what = f"{what}: {end}" + (f", {meaning}" if meaning else "")
        super().__init__(what)


class WrongProcess(ChrrepError):
    """A fork went on with what only the process that made it may use, and makes its own. Nothing was done."""

    def __init__(self, what: str) -> None:
        super().__init__(f"this {what} is another process's: a fork makes its own")


class Refused(ChrrepError):
    """`refused N`. A refused line has changed nothing."""

    number: int = 0

    def __init__(self, answer: str, number: int | None = None) -> None:
        if number is not None:
            self.number = number
        self._answered = f"{type(self).__name__}: {answer}"
        super().__init__(self._answered)

    def say(self, words: str | None) -> None:
        """Has the exception say what is wrong, in the place of what it said of that before."""
        if words:
            self.args = (f"{self._answered}: {words}",)


class RefusedProgram(Refused):
    """A program text that is refused."""

    _explains: Callable[[], str] | None = None

    def explain(self) -> str:
        """What `chrrep explain` says of the text: why it is refused and where, in sentences."""
        return self._explains() if self._explains else str(self)

    def explained_by(self, explains: Callable[[], str]) -> None:
        """Says where an explanation comes from."""
        self._explains = explains


class TextFault(RefusedProgram):
    """The text is no program: its first bad clause, and the least fault of it."""

    def __init__(self, answer: str, clause: int | None = None) -> None:
        self.clause = clause
        super().__init__(answer)

    def explained_by(self, explains: Callable[[], str]) -> None:
        super().explained_by(explains)
        # it is told at once where the text is no program
        self.say(explains().partition("\n")[0])


class BadByte(TextFault):
    """A byte that may not stand outside a comment."""

    number = 1


class TooLong(TextFault):
    """More than 65,536 bytes; no clause is told."""

    number = 2


class Syntax(TextFault):
    """A clause that has none of the forms."""

    number = 3


class Propagation(TextFault):
    """A propagation rule."""

    number = 4


class Undeclared(TextFault):
    """An atom, or the symbol of a weight, that no earlier clause declares."""

    number = 5


class DeclaredTwice(TextFault):
    """A name that is declared a second time with that number of arguments."""

    number = 6


class Limit(TextFault):
    """A name, a rule or the program passes a limit of its size."""

    number = 7


class Unbound(TextFault):
    """A variable of a guard or a body that no head has."""

    number = 8


class NumberRange(TextFault):
    """A number outside 64 bits."""

    number = 9


class WeightFault(TextFault):
    """A weight outside its range, or a symbol's second one."""

    number = 10


class Unended(TextFault):
    """A last clause with no full stop."""

    number = 11


class NotLowered(RefusedProgram):
    """Rule `rule`'s removed heads, of the weight `before`, don't outweigh its body, of the weight `after`."""

    number = 20

    def __init__(self, answer: str, rule: int, before: Weight, after: Weight) -> None:
        self.rule, self.before, self.after = rule, before, after
        super().__init__(answer)
        self.say(f"rule {rule} does not lower the weight")


class Overlap(RefusedProgram):
    """The program is not confluent: from `store`, where the two `rules` overlap as `matching` says, one leads to `left`
    and the other to `right`, two different stores at rest."""

    number = 21

    def __init__(
        self,
        answer: str,
        rules: tuple[int, int],
        matching: tuple[int, ...],
        store: tuple[Atom, ...],
        left: tuple[Atom, ...],
        right: tuple[Atom, ...],
    ) -> None:
        self.rules, self.matching = rules, matching
        self.store, self.left, self.right = store, left, right
        super().__init__(answer)
        self.say("one store comes to two ends")


class TooManyTypes(RefusedProgram):
    """The two `rules` overlap as `matching` says, with `classes` free values: in too many cases to decide."""

    number = 22

    def __init__(
        self, answer: str, rules: tuple[int, int], matching: tuple[int, ...], classes: int, is_wide: bool = False
    ) -> None:
        self.rules, self.matching, self.classes = rules, matching, classes
        super().__init__(answer)
        self.say(_TOO_MANY_SORTED if is_wide else _TOO_MANY_JOINT)


class BadLine(Refused):
    """A line that is no JSON value, or is too long (a delta of more than a mebibyte: send it in `pieces`)."""

    number = 30


class Shape(Refused):
    """A line of no known form, such as an argument that is no whole number of 64 bits, or no atoms, or over 64."""

    number = 31


class UnknownSymbol(Refused):
    """An atom that the program doesn't declare with that number of arguments."""

    number = 32


class UnknownColumn(UnknownSymbol):
    """A column that no symbol has by this name: `% chr_columns ..` in the program names them."""


class Clash(Refused):
    """An id that stands for other atoms already."""

    number = 33


class Full(Refused):
    """More than 1,000,000 atoms would be told."""

    number = 34


class NoReplica(Refused):
    """There is no such replica."""

    number = 35


_TOO_MANY_JOINT = (
    "an overlap has too many joint cases to decide: judge by the columns that rules compare, with wide=True, or leave "
    "it out"
)
_TOO_MANY_SORTED = (
    "an overlap has too many cases to decide, also by the columns that rules compare: compare fewer columns, or compare"
    " them in fewer heads; `chrrep explain` tells which"
)
_TEXT_FAULTS: dict[int, type[TextFault]] = {kind.number: kind for kind in TextFault.__subclasses__()}
_OF_LINES: dict[int, type[Refused]] = {
    kind.number: kind for kind in (BadLine, Shape, UnknownSymbol, Clash, Full, NoReplica)
}
_TEXT_FAULT = re.compile(r"refused (\d+)(?:: clause (\d+))?")
_NOT_LOWERED = re.compile(r"refused 20: rule (\d+); before ([\d,]+); after ([\d,]+)")
_OVERLAP = re.compile(r"refused 21: rules (\d+) (\d+); matching \(([\d,]*)\); store (.*); left (.*); right (.*)")
_TOO_MANY = re.compile(r"refused 22: rules (\d+) (\d+); matching \(([\d,]*)\); classes (\d+)")


def raise_verdict(answer: str, is_wide: bool = False) -> NoReturn:
    """Raises what a verdict, by sorted cases or not, says that accepts nothing; ValueError where it is none."""
    if found := _NOT_LOWERED.fullmatch(answer):
        raise NotLowered(answer, int(found[1]), numbers_of(found[2]), numbers_of(found[3]))
    if found := _OVERLAP.fullmatch(answer):
        rules = (int(found[1]), int(found[2]))
        raise Overlap(answer, rules, numbers_of(found[3]), atoms_of(found[4]), atoms_of(found[5]), atoms_of(found[6]))
    if found := _TOO_MANY.fullmatch(answer):
        raise TooManyTypes(answer, (int(found[1]), int(found[2])), numbers_of(found[3]), int(found[4]), is_wide)
    found = _TEXT_FAULT.fullmatch(answer)
    if found and int(found[1]) in _TEXT_FAULTS:
        raise _TEXT_FAULTS[int(found[1])](answer, int(found[2]) if found[2] else None)
    raise ValueError(f"no verdict: {answer!r}")


def raise_refusal(answer: str) -> None:
    """Raises what the answer to a line refuses; nothing where it is no refusal."""
    if found := re.fullmatch(r"refused (\d+)", answer):
        number = int(found[1])
        raise _OF_LINES.get(number, Refused)(answer, number)
