"""`tools/tables` over small documents of its own: what differs is told."""

import unittest
from collections.abc import Iterator
from importlib.machinery import SourceFileLoader
from importlib.util import module_from_spec, spec_from_loader
from pathlib import Path
from tempfile import TemporaryDirectory
from typing import Any

TOP = Path(__file__).resolve().parents[2]

SPECS = """pub Step : ℕ → Type 0
Step n = n ≤ bound
"""
CODE = """pub fn step(rt: &R, n: u64) -> u64
    ensures ok { Step n }
{
    n
}
"""
DEFINITIONS = """# Definitions

## Step

*Source: CHR.*

A `Step` is one.
"""


def tables() -> Any:
    """The tool as a module, which no other test shares."""
    loader = SourceFileLoader("tables", str(TOP / "tools" / "tables"))
    spec = spec_from_loader("tables", loader)
    assert spec is not None
    module = module_from_spec(spec)
    loader.exec_module(module)
    return module


class Tables(unittest.TestCase):
    def setUp(self) -> None:
        room = TemporaryDirectory()
        self.addCleanup(room.cleanup)
        self.top = Path(room.name)
        self.tool = tables()
        self.tool.TOP = self.top
        for document in self.tool.OF_CODE:
            self.write(document, "")
        self.write("crates.txt", "one:\n")
        self.write("crates/one/specs/Rules.antt", SPECS)
        self.write("crates/one/src/lib.rt", CODE)
        self.write("docs/DEFINITIONS.md", DEFINITIONS)

    def write(self, name: str, text: str) -> None:
        file = self.top / name
        file.parent.mkdir(parents=True, exist_ok=True)
        file.write_text(text)

    def differences(self, told: Iterator[str | None]) -> list[str]:
        return [it for it in told if it is not None]

    def test_names(self) -> None:
        """A name of no code is told with its document; what is no name, or stands in a block, is not."""
        self.write("docs/PROOF.md", "`step`, `one::step`, `lib.rt`, `X < Y`, `gone`, `one::gone`\n```\n`hidden`\n```\n")
        told = self.differences(self.tool.names())
        self.assertEqual(told, [f"docs/PROOF.md: {it} is no word of the code" for it in ("gone", "one::gone")])

    def test_files_that_are_believed(self) -> None:
        """A file that a main contract reaches, and of which no word is named, is told; working words are not."""
        lines = "".join(f"crates/one/specs/{it}.antt: 1 definition\n" for it in ("Rules", "Others", "working/Ways"))
        self.write("crates/one/specs/Others.antt", SPECS.replace("Step", "Other"))
        self.tool.believed = lambda *words: (lines, None)
        told = self.differences(self.tool.reached())
        why = "it names no word of the file one/Others, which is believed"
        self.assertEqual(told, [f"docs/DEFINITIONS.md: {why}"])
        self.tool.believed = lambda *words: ("", "it ends with 1")
        self.assertEqual(self.differences(self.tool.reached()), ["docs/DEFINITIONS.md: it ends with 1"])

    def test_walk(self) -> None:
        """Functions of a row that are none of its crates, and a table that is gone."""
        head = "| Functions | Where | What they do |\n|---|---|---|\n"
        self.write("docs/ARCHITECTURE.md", head + "| `Board::step`, `rest` | `one`, `lib.rt` | .. |\n")
        told = self.differences(self.tool.walk())
        self.assertEqual(told, ["docs/ARCHITECTURE.md: rest is no function of one"])
        self.write("docs/ARCHITECTURE.md", "")
        self.assertEqual(len(self.differences(self.tool.walk())), 1)

    def test_promises(self) -> None:
        """Sections of the product's crates in their order, whose names are words of the crate's code."""
        self.write("docs/PROVED.md", "### `one`\n\n- `step` is `ok`, and `gone`.\n\n## Trusted\n")
        told = self.differences(self.tool.promises({"one": []}))
        self.assertEqual(told, ["docs/PROVED.md: gone is no word of one"])
        told = self.differences(self.tool.promises({"one": [], "two": []}))
        self.assertEqual(len(told), 2)


if __name__ == "__main__":
    unittest.main()
