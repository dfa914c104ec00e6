"""`./chrrep` over a small repository of its own: what it runs, what it remembers, and why it builds. `rt` and the two
programs are scripts that say who they are, and `git` is one that counts its calls."""

import hashlib
import os
import platform
import shutil
import subprocess
import time
import unittest
from pathlib import Path
from tempfile import TemporaryDirectory

TOP = Path(__file__).resolve().parents[2]
GIT = shutil.which("git")
RELEASE = "chrrep-x86_64-linux"
LOADER = Path("/lib64/ld-linux-x86-64.so.2")
HAS_RELEASE = platform.system() == "Linux" and platform.machine() == "x86_64" and LOADER.exists()
SECONDS = 60.0
# it remembers no file that has changed within two seconds
FRESH = 2.0
AGE = 2.2

SOURCE = "crates/one/src/lib.rt"
DEFINITION = "crates/one/specs/one.antt"
PROOF = "crates/one/proofs/one.antt"
BUILT = "crates/chrrep/out/chrrep"
BUILDING = ("proving and building the program, which takes some minutes ..", "1 of 1: chrrep ..", "built")


@unittest.skipUnless(GIT and HAS_RELEASE, "it needs git, and a machine that the release is for")
class Launcher(unittest.TestCase):
    def setUp(self) -> None:
        room = TemporaryDirectory()
        self.addCleanup(room.cleanup)
        self.room = Path(room.name)
        # (a space in its name)
        self.top = self.room / "the repository"
        self.top.mkdir()
        self.bin = self.room / "bin"
        self.calls = self.room / "calls"
        cache = str(self.room / "cache")
        self.env = {"PATH": f"{self.bin}:/usr/bin:/bin", "HOME": str(self.room), "XDG_CACHE_HOME": cache}
        self.script(self.bin / "git", f'echo "$1" >>"{self.calls}"\nexec "{GIT}" "$@"')
        said = "rt: chose --jobs 1 for chrrep"
        self.script(self.bin / "rt", f"mkdir -p out && cp ../../to_build out/chrrep && echo '{said}'")
        self.script(self.top / "to_build", 'echo "built: $*"')
        self.script(self.top / "release" / RELEASE, 'echo "release: $*"')
        self.sum_release()
        shutil.copy(TOP / "chrrep", self.top / "chrrep")
        self.write("crates.txt", "chrrep:\n")
        for name in (SOURCE, DEFINITION, PROOF, "crates/chrrep/src/main.rt", "crates/chrrep/specs/none"):
            self.write(name, "as it was\n")
        self.write(".gitignore", "out/\n")
        self.git("init", "--quiet")
        self.commit()

    def script(self, at: Path, text: str) -> None:
        at.parent.mkdir(parents=True, exist_ok=True)
        at.write_text(f"#!/bin/sh\n{text}\n")
        at.chmod(0o755)

    def sum_release(self) -> None:
        folder = self.top / "release"
        digest = hashlib.sha256((folder / RELEASE).read_bytes()).hexdigest()
        (folder / f"{RELEASE}.sha256").write_text(f"{digest}  {RELEASE}\n")

    def write(self, name: str, text: str) -> None:
        self.changed = time.monotonic()
        file = self.top / name
        file.parent.mkdir(parents=True, exist_ok=True)
        file.write_text(text)

    def git(self, *words: str) -> None:
        env = {**os.environ, "GIT_CONFIG_GLOBAL": "/dev/null", "GIT_CONFIG_NOSYSTEM": "1"}
        who = ("-c", "user.name=test", "-c", "user.email=test@localhost")
        subprocess.run([str(GIT), *who, *words], cwd=self.top, env=env, check=True, capture_output=True)

    def commit(self) -> None:
        self.git("add", "--all")
        self.git("commit", "--quiet", "--message", "all")

    def ran(self, *words: str) -> tuple[int, str, list[str], int]:
        """Its status, what it wrote, the lines of error, and how often it asked git."""
        self.calls.unlink(missing_ok=True)
        program = self.top / "chrrep"
        ended = subprocess.run(
            [program, *words], cwd=self.room, env=self.env, capture_output=True, text=True, timeout=SECONDS, check=False
        )
        lines = [line.removeprefix("chrrep: ") for line in ended.stderr.splitlines()]
        asked = len(self.calls.read_text().split()) if self.calls.exists() else 0
        return ended.returncode, ended.stdout, lines, asked

    def expect(self, who: str, *lines: str, asks: bool | None) -> None:
        """Where `asks` is None it may have remembered what it runs, or not."""
        status, written, told, asked = self.ran("run", "a b")
        self.assertEqual((status, written, told), (0, f"{who}: run a b\n", list(lines)))
        if asks is not None:
            self.assertEqual(asked > 0, asks)

    def asks_again(self) -> bool | None:
        """Whether the next run asks git: it does where those before it came too soon after a change to remember it. On
        a slow machine they may have come late."""
        return True if time.monotonic() - self.changed < FRESH else None

    def settle(self) -> None:
        time.sleep(AGE)

    def test_a_fresh_clone(self) -> None:
        """It is looked at until its files are old enough, and from then on git is not asked."""
        self.expect("release", asks=True)
        asks = self.asks_again()
        self.settle()
        self.expect("release", asks=asks)
        self.expect("release", asks=False)
        self.expect("release", asks=False)

    def test_without_git(self) -> None:
        shutil.rmtree(self.top / ".git")
        self.expect("release", asks=False)

    def test_changed_sources(self) -> None:
        """A build says why in one line. What was built is run until something changes again."""
        self.settle()
        self.expect("release", asks=True)
        for name, text in ((SOURCE, "changed\n"), (DEFINITION, "it was as\n"), ("crates/one/src/new.rt", "")):
            self.write(name, text)
            why = f"{name} is not as in the commit, and nothing was built yet: it has to be built"
            self.expect("built", why, *BUILDING, asks=True)
            self.expect("built", asks=True)
            if name == SOURCE:
                asks = self.asks_again()
                self.settle()
                self.expect("built", asks=asks)
                self.expect("built", asks=False)
            shutil.rmtree(self.top / "crates/chrrep/out")
            self.git("checkout", "--quiet", ".")
            self.git("clean", "--quiet", "--force", "crates")
            self.expect("release", asks=True)

    def test_sources_newer_than_what_was_built(self) -> None:
        self.write(SOURCE, "changed\n")
        self.ran()
        self.settle()
        self.write(SOURCE, "changed again\n")
        why = f"{SOURCE} is not as in the commit, and {SOURCE} is newer than what was built: it has to be built"
        self.expect("built", why, *BUILDING, asks=True)

    def test_what_makes_no_byte_of_the_program(self) -> None:
        self.settle()
        self.expect("release", asks=True)
        self.write(PROOF, "changed\n")
        self.expect("release", asks=False)

    def test_another_commit(self) -> None:
        """The same sources are looked at again where the commit is another one."""
        self.settle()
        self.write("README.md", "new\n")
        self.expect("release", asks=True)
        self.commit()
        self.expect("release", asks=True)
        self.expect("release", asks=False)

    def test_a_release_that_is_not_whole(self) -> None:
        self.settle()
        self.expect("release", asks=True)
        self.script(self.top / "release" / RELEASE, 'echo "another: $*"')
        status, written, lines, _ = self.ran()
        self.assertEqual((status, written, len(lines)), (70, "", 1))
        self.sum_release()
        self.expect("another", asks=True)
        (self.top / "release" / RELEASE).chmod(0o644)
        status, written, lines, _ = self.ran()
        self.assertEqual((status, written), (70, ""))
        self.assertEqual(lines, [f"release/{RELEASE} is not executable: 'chmod +x' makes it so"])

    def test_without_the_kit(self) -> None:
        (self.bin / "rt").unlink()
        (self.top / "release" / RELEASE).unlink()
        status, written, lines, _ = self.ran()
        self.assertEqual((status, written), (69, ""))
        self.assertEqual(
            lines,
            [
                f"there is no release/{RELEASE}, and nothing was built yet: it has to be built",
                "the Rattle kit's command 'rt' is not on the PATH: install the kit to build these sources",
            ],
        )


if __name__ == "__main__":
    unittest.main()
