"""Runs of a program under shims, which a C compiler makes: memory is refused to it, or its devices fail."""

import os
import shutil
import subprocess
from collections.abc import Mapping, Sequence
from dataclasses import dataclass
from pathlib import Path

from chrrep.node import program_path

HERE = Path(__file__).resolve().parent
MEMORY = HERE / "refuse.c"
DEVICES = HERE / "devices.c"
COMPILER = next(filter(None, map(shutil.which, ("cc", "gcc", "clang"))), None)
NO_COMPILER = "there is no C compiler to make a shim: cc, gcc or clang"
IN_A_SHELL = "a shim would be loaded into a shell: CHRREP has to name the program itself"
SECONDS = 240.0


@dataclass(frozen=True)
class Refusal:
    """The growth of this number is refused, and perhaps all later ones. All are counted, or those of a call alone."""

    number: int
    later: bool
    in_call: bool = False

    def __str__(self) -> str:
        return f"growth {self.number}" + " and all later ones" * self.later

    @property
    def environment(self) -> dict[str, str]:
        flags = {"REFUSE_ALL": self.later, "REFUSE_CALL": self.in_call}
        return {"REFUSE": str(self.number), **{name: "1" for name, is_set in flags.items() if is_set}}


@dataclass(frozen=True)
class End:
    status: int
    output: bytes
    errors: bytes
    met: bool
    """Whether the run came to what fails."""


def is_script(program: str) -> bool:
    """Whether a shim would be loaded into a shell."""
    with open(program, "rb") as file:
        return file.read(2) == b"#!"


def why_not() -> str | None:
    """Why no shim can be used, if so."""
    if not COMPILER:
        return NO_COMPILER
    return IN_A_SHELL if is_script(program_path()) else None


def made_shim(source: Path, folder: Path) -> Path:
    shim = folder / source.with_suffix(".so").name
    subprocess.run([str(COMPILER), "-O2", "-shared", "-fPIC", "-o", str(shim), str(source)], check=True)
    return shim


def run_under(shim: Path, words: Sequence[str], given: bytes, environment: Mapping[str, str], mark_name: str) -> End:
    mark = os.memfd_create("mark")
    try:
        end = subprocess.run(
            words,
            input=given,
            capture_output=True,
            timeout=SECONDS,
            env={"LD_PRELOAD": str(shim), mark_name: str(mark), **environment},
            pass_fds=(mark,),
            check=False,
        )
        met = os.fstat(mark).st_size > 0
    finally:
        os.close(mark)
    return End(end.returncode, end.stdout, end.stderr, met)


def run_refused(shim: Path, words: Sequence[str], given: bytes, refusal: Refusal) -> End:
    return run_under(shim, words, given, refusal.environment, "REFUSE_MARK")


def run_failing(shim: Path, words: Sequence[str], given: bytes, environment: Mapping[str, str]) -> End:
    return run_under(shim, words, given, environment, "FAILING_MARK")
