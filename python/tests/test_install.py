"""The package as people install it: into a bare environment, with no network and no repository beside it."""

import importlib.util
import os
import subprocess
import sys
import tarfile
import unittest
from pathlib import Path
from tempfile import TemporaryDirectory

from programs import COINS, PATHS

SOURCES = Path(__file__).resolve().parents[1]
SECONDS = 300.0
ACCEPTED = "accepted: rules 1, cases 6\n"


def run(*words: str | Path, said: str = "", folder: Path | None = None) -> str:
    """What a command writes, with an environment that names neither the program nor the package."""
    env = {name: value for name, value in os.environ.items() if name not in ("CHRREP", "PYTHONPATH")}
    ended = subprocess.run(
        [*map(str, words)],
        input=said,
        capture_output=True,
        text=True,
        env=env,
        cwd=folder,
        timeout=SECONDS,
        check=False,
    )
    if ended.returncode:
        raise AssertionError(f"{words[0]}: status {ended.returncode}\n{ended.stdout}{ended.stderr}")
    return ended.stdout


def without_network() -> list[str]:
    """Words before a command that has no network then; none where they are refused."""
    words = ["unshare", "--net"]
    try:
        return [] if subprocess.run([*words, "true"], capture_output=True, check=False).returncode else words
    except OSError:
        return []


@unittest.skipUnless(importlib.util.find_spec("ensurepip"), "this Python makes no environments with pip")
class Installation(unittest.TestCase):
    room: Path
    bin: Path

    @classmethod
    def setUpClass(cls) -> None:  # noqa: N802
        room = TemporaryDirectory()
        cls.addClassCleanup(room.cleanup)
        cls.room = Path(room.name)
        cls.bin = cls.room / "env" / "bin"
        run(sys.executable, "-m", "venv", cls.room / "env")

    def install(self, sources: Path) -> None:
        options = ("--no-index", "--disable-pip-version-check", "--force-reinstall")
        run(self.bin / "pip", "install", *options, sources, folder=self.room)

    def test_from_the_repository(self) -> None:
        self.install(SOURCES)
        self.assertEqual(run(self.bin / "chrrep", "check", said=COINS, folder=self.room), ACCEPTED)
        script = f"""
from pathlib import Path
import chrrep
from chrrep.link import join
assert Path(chrrep.__file__).is_relative_to({str(self.room)!r}), chrrep.__file__
assert Path(chrrep.node.program_path()).is_relative_to({str(self.room)!r})
with join("sqlite:///log.sqlite", {COINS!r}) as member:
    member.tell(("coin",), ("coin",))
    print(member.show())
"""
        said = run(self.bin / "python", "-c", script, folder=self.room)
        self.assertEqual(said, "(('note',),)\n")
        (self.room / "coins.chr").write_text(COINS)
        answers = run(self.bin / "chrrep-link", "coins.chr", said="coin, coin\n?", folder=self.room)
        self.assertRegex(answers, r"^told \d+:\d+\nnote\n$")

    def test_a_wheel_without_a_network(self) -> None:
        """As `python -m build` makes it, or `pip wheel` where that isn't installed, in an environment of its own."""
        wheels, fresh = self.room / "wheels", self.room / "fresh"
        made_by = self.build_wheel(wheels)
        (wheel,) = wheels.glob("*.whl")
        # pip of the other environment: to put one into this takes longer than all the rest
        run(sys.executable, "-m", "venv", "--without-pip", fresh)
        alone, into = without_network(), ("--python", fresh / "bin" / "python")
        run(*alone, self.bin / "pip", *into, "install", "--no-index", "--disable-pip-version-check", wheel)
        (self.room / "routes.chr").write_text(PATHS)
        said = run(*alone, fresh / "bin" / "chrrep", "check", said=PATHS, folder=self.room)
        self.assertEqual(said, "accepted: rules 1, cases 541\n")
        lines = "path(berlin,paris,9)\npath(berlin,paris,7)\n?"
        answers = run(*alone, fresh / "bin" / "chrrep-link", "routes.chr", said=lines, folder=self.room)
        self.assertRegex(answers, r"^(told \d+:\d+\n){2}path\(berlin,paris,7\)\n$")
        script = "import chrrep.link.page as page; print(page._PAGE.is_file(), page.__file__)"
        is_there, _, place = run(*alone, fresh / "bin" / "python", "-c", script, folder=self.room).partition(" ")
        self.assertEqual((is_there, Path(place).is_relative_to(fresh)), ("True", True))
        print(f"(by {made_by}{', with no network to be had' if alone else ''})", end=" ", flush=True)

    def build_wheel(self, folder: Path) -> str:
        """Builds the wheel, and says by what."""
        for python in (sys.executable, "/usr/bin/python3"):
            has_build = [python, "-c", "import build.__main__"]
            if Path(python).exists() and not subprocess.run(has_build, capture_output=True, check=False).returncode:
                run(python, "-m", "build", "--wheel", "--no-isolation", "--outdir", folder, SOURCES, folder=self.room)
                return "python -m build"
        options = ("--no-index", "--no-deps", "--no-build-isolation", "--disable-pip-version-check")
        run(self.bin / "pip", "wheel", *options, "--wheel-dir", folder, SOURCES, folder=self.room)
        return "pip wheel"

    def test_from_an_archive_of_sources(self) -> None:
        script = f"import build_backend; print(build_backend.build_sdist({str(self.room)!r}))"
        made = run(sys.executable, "-B", "-c", script, folder=SOURCES)
        with tarfile.open(self.room / made.strip()) as archive:
            archive.extractall(self.room / "sources")
        self.install(next((self.room / "sources").iterdir()))
        self.assertEqual(run(self.bin / "chrrep", "check", said=COINS, folder=self.room), ACCEPTED)
