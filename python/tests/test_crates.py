"""`tools/crates` over small crates of its own: layers, and the first sentence of each."""

import io
import unittest
from contextlib import redirect_stderr, redirect_stdout
from importlib.machinery import SourceFileLoader
from importlib.util import module_from_spec, spec_from_loader
from pathlib import Path
from tempfile import TemporaryDirectory
from typing import Any

TOOL = Path(__file__).resolve().parents[2] / "tools" / "crates"
LIST = """# NAME: the libraries that it uses.

# The lowest
one:
two staticlib: one

# Above
# them
three: one two
"""
SAID = {
    "one/src/lib.rt": "//! Of one: `a.b`, and more. Another sentence.\n//! And more.\n\nfn f() {}\n",
    "two/src/lib.rt": "//! Over two lines,\n//! with no second sentence.\n//!\n//! More.\n",
    "three/src/main.rt": "//! What is above.\n",
}
ALL = """
The lowest

  one                  Of one: `a.b`, and more.
  two                  Over two lines, with no second sentence.

Above them

  three                What is above.
"""


def crates() -> Any:
    """The tool as a module, which no other test shares."""
    loader = SourceFileLoader("crates", str(TOOL))
    spec = spec_from_loader("crates", loader)
    assert spec is not None
    module = module_from_spec(spec)
    loader.exec_module(module)
    return module


class Crates(unittest.TestCase):
    def setUp(self) -> None:
        room = TemporaryDirectory()
        self.addCleanup(room.cleanup)
        self.tool = crates()
        self.tool.TOP = Path(room.name)
        (self.tool.TOP / "crates.txt").write_text(LIST)
        for name, text in SAID.items():
            file = self.tool.TOP / "crates" / name
            file.parent.mkdir(parents=True)
            file.write_text(text)

    def told(self, *words: str) -> tuple[int, str]:
        out = io.StringIO()
        with redirect_stdout(out), redirect_stderr(io.StringIO()):
            status = self.tool.main(list(words))
        return status, out.getvalue()

    def test_all(self) -> None:
        self.assertEqual(self.told(), (0, ALL))

    def test_some(self) -> None:
        """A word in the name or in the sentence; a layer with no such crate isn't told."""
        three = ALL[ALL.index("\nAbove") :]
        self.assertEqual(self.told("above"), (0, three))
        self.assertEqual(self.told("three"), (0, three))
        self.assertEqual(self.told("none"), (0, ""))

    def test_words(self) -> None:
        for words in (("--help",), ("one", "two")):
            self.assertEqual(self.told(*words), (2, ""))


if __name__ == "__main__":
    unittest.main()
