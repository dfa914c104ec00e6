"""`tools/believe` over a small repository of its own: what is reached, counted and told."""

import subprocess
import sys
import unittest
from pathlib import Path
from tempfile import TemporaryDirectory

TOP = Path(__file__).resolve().parents[2]
SECONDS = 60.0

LIB = """//! Makes things.
ghost use Rattle.one.specs.Sizes.{IsSmall, IsEven as IsPaired, ◌⊑◌};
ghost use Rattle.one.specs.Shapes as shapes;

use crate::things::Thing;
pub use crate::hidden::shown;
pub mod things;
mod hidden;

pub const LIMIT: u64 = 3;

pub fn make(size: u64, other: &Thing) -> Thing
    requires few { IsSmall size }
    ensures even { IsPaired size }
    ensures below { size ⊑ LIMIT }
    ensures shaped { shapes.HasShape result.size }
{
    made(size)
}

fn made(size: u64) -> u64
    ensures { IsMissing size }
{
    size // requires { "}" }
}

#[cfg(test)]
mod tests {
    pub fn tested()
        ensures { IsPaired 1 }
    {
    }
}
"""
THINGS = """//! Things.
ghost use Rattle.one.specs.Sizes.{IsSmall};
ghost use Rattle.one.specs.Kept.{IsKept, IsGrown};

pub struct Thing {
    size: u64,
    ghost small: { IsKept size },
}

impl Thing {
    pub fn grow(&mut self, by: u64)
        ensures grown { IsGrown self.new by }
    {
    }

    fn shrink(&mut self)
        ensures { IsSmall self.new }
    {
    }
}
"""
HIDDEN = """//! What is passed on.
ghost use Rattle.one.specs.Sizes.{IsSmall};

pub fn shown(n: u64)
    ensures { IsSmall n }
{
}

pub fn unseen(n: u64)
    ensures { IsSmall n }
{
}
"""
SIZES = """-- Sizes, whose line is none of a definition
use Rattle.std.specs.Prelude.{◌≤◌, ℕ}
use Rattle.one.proofs.Bounds.{bound}

{- a comment
   of two lines -}
abbrev pub IsSmall : ℕ → Type 0
IsSmall n = n ≤ bound

pub data Parity : Type 0 where
  -- of 0
  even : Parity

  odd : Parity

pub parity : ℕ → Parity
parity 0 = even
parity 1 = odd
parity (suc (suc other)) = parity other

pub IsEven : ℕ → Type 0
IsEven n = IsEvenBy (parity n)

pub IsEvenBy : Parity → Type 0
IsEvenBy even = Unit
IsEvenBy odd = ⊥

-- a name that a pattern of parity binds
pub other : ℕ
other = 7

infixl 6 ◌⊑◌
pub ◌⊑◌ : ℕ → ℕ → Type 0
small ⊑ great = small ≤ great
"""
SHAPES = """-- Shapes
use Rattle.one.specs.Sizes.{IsSmall}

module _ {A : Type 0} (IsSmall : A → Type 0) where
  pub HasShape : A → Type 0
  HasShape a = IsSmall a
    where
      same : A
      same = a
"""
KEPT = """use Rattle.one.specs.Sizes.{IsSmall, IsEven}

pub IsKept : ℕ → Type 0
IsKept n = IsSmall n

pub IsGrown : ℕ → ℕ → Type 0
IsGrown n by = Unit
"""
TWO = """//! A crate over the other.
ghost use Rattle.one.specs.Sizes.{IsAbsent};

pub fn make(n: u64)
    ensures { IsAbsent n }
{
}
"""

# `IsSmall` of the module of shapes is its parameter, and `other` a variable of a pattern
MAKE = """one::make
  one::make: requires few  (crates/one/src/lib.rt:13)
  one::make: ensures even  (crates/one/src/lib.rt:14)
  one::make: ensures below  (crates/one/src/lib.rt:15)
  one::make: ensures shaped  (crates/one/src/lib.rt:16)
crates/one/specs/Kept.antt: 1 definition, 2 lines
      3 IsKept, 2 lines, by what a type keeps
crates/one/specs/Shapes.antt: 1 definition, 6 lines
      5 HasShape, 5 lines
crates/one/specs/Sizes.antt: 6 definitions, 17 lines
      7 IsSmall, 2 lines
     10 Parity, 3 lines
     16 parity, 4 lines
     21 IsEven, 2 lines
     24 IsEvenBy, 3 lines
     33 ◌⊑◌, 3 lines
types of src/ that are named: one::things::Thing
constants of src/ that are named: one::LIMIT
lemmas of proofs/ that a definition cites: Rattle.one.proofs.Bounds.bound
sum: 7 definitions, 23 lines; with what these types keep 8 definitions, 25 lines
"""


class Believe(unittest.TestCase):
    maxDiff = None

    def setUp(self) -> None:
        room = TemporaryDirectory()
        self.addCleanup(room.cleanup)
        self.top = Path(room.name)
        for name, text in (("lib", LIB), ("things", THINGS), ("hidden", HIDDEN)):
            self.write(f"one/src/{name}.rt", text)
        for name, text in (("Sizes", SIZES), ("Shapes", SHAPES), ("Kept", KEPT)):
            self.write(f"one/specs/{name}.antt", text)
        self.write("two/src/lib.rt", TWO)

    def write(self, name: str, text: str) -> None:
        file = self.top / "crates" / name
        file.parent.mkdir(parents=True, exist_ok=True)
        file.write_text(text)

    def ran(self, *words: str) -> tuple[int, str, str]:
        """The status, and what was written."""
        command = [sys.executable, str(TOP / "tools" / "believe"), "--top", str(self.top), *words]
        ended = subprocess.run(command, capture_output=True, text=True, timeout=SECONDS, check=False)
        return ended.returncode, ended.stdout, ended.stderr

    def names(self, *words: str) -> list[str]:
        """The definitions that are told, in order."""
        status, told, warned = self.ran(*words)
        self.assertEqual((status, warned), (0, ""))
        return [line.split()[1].rstrip(",") for line in told.splitlines() if line.startswith("  ") and " line" in line]

    def last(self, *words: str) -> str:
        return self.ran(*words)[1].splitlines()[-1]

    def test_a_function(self) -> None:
        """All clauses, the definitions by file, and both sums."""
        self.assertEqual(self.ran("one::make"), (0, MAKE, ""))

    def test_a_clause(self) -> None:
        """Its own words count, and the types of the parameters that it names."""
        self.assertEqual(self.names("one::make", "--clause", "below"), ["◌⊑◌"])
        said = "sum: 1 definition, 3 lines; with what these types keep 1 definition, 3 lines"
        self.assertEqual(self.last("one::make", "--clause", "below"), said)
        self.assertEqual(self.names("one::make", "--clause", "requires"), ["IsSmall"])
        status, told, warned = self.ran("one::make", "--clause", "none")
        self.assertEqual((status, told), (1, ""))
        self.assertEqual(warned, "believe: one::make has no clause none: it has few, even, below, shaped\n")

    def test_a_type(self) -> None:
        """Its public functions, and what it keeps."""
        self.assertEqual(self.names("one::things::Thing"), ["IsKept", "IsGrown", "IsSmall"])
        self.assertEqual(self.names("Thing"), ["IsKept", "IsGrown", "IsSmall"])

    def test_a_crate(self) -> None:
        """What pub modules and pub uses lead to, by files, and nothing else."""
        status, told, _ = self.ran("--each", "one")
        called = [line.rpartition(" ")[2] for line in told.splitlines()]
        self.assertEqual((status, called), (0, ["one::shown", "one::make", "one::Thing::grow"]))

    def test_methods_in_another_file(self) -> None:
        """A method is public where its type is, although its own file is not."""
        self.write("one/src/hidden.rt", HIDDEN + "\nimpl Thing {\n    pub fn keep(&self)\n    {\n    }\n}\n")
        told = self.ran("--clauses", "one")[1].splitlines()
        self.assertEqual(told[:2], ["one::shown: ensures", "one::Thing::keep"])

    def test_a_table(self) -> None:
        rows = (
            "| Contract | Definitions | Lines | With what the types keep | Lines |\n|---|---|---|---|---|\n"
            "| `one::make`, its clause `even` | 4 | 12 | 4 | 12 |\n"
            "| `one::Thing::grow` | 1 | 2 | 3 | 6 |\n"
        )
        self.assertEqual(self.ran("--table", "one::make.even", "grow"), (0, rows, ""))

    def test_names_of_clauses(self) -> None:
        """A line for each public function; of a clause without a name its kind alone is told."""
        methods = "one::Thing::grow: ensures grown\n"
        lines = "one::shown: ensures\none::make: requires few; ensures even, below, shaped\n" + methods
        self.assertEqual(self.ran("--clauses", "one"), (0, lines, ""))
        self.assertEqual(self.ran("--clauses", "one::things::Thing"), (0, methods, ""))

    def test_where_a_word_is_defined(self) -> None:
        """In files of definitions alone, each of them; a variable of a pattern is none."""
        self.write("two/specs/working/Sizes.antt", "pub IsSmall : ℕ → Type 0\nIsSmall n = Unit\n")
        self.write("two/proofs/Sizes.antt", "pub IsSmall : ℕ → Type 0\nIsSmall n = Unit\n")
        places = ("crates/one/specs/Sizes.antt:7", "crates/two/specs/working/Sizes.antt:1")
        told = "".join(f"{place}: IsSmall, 2 lines\n" for place in places)
        self.assertEqual(self.ran("--where", "IsSmall"), (0, told, ""))
        self.assertEqual(self.ran("--where", "small"), (1, "", "believe: no file of definitions defines small\n"))

    def test_words_that_are_not_found(self) -> None:
        """A warning tells each, and the rest is told."""
        status, told, warned = self.ran("two::make")
        self.assertEqual((status, told.splitlines()[-1].partition(";")[0]), (1, "sum: 0 definitions, 0 lines"))
        place = "crates/two/src/lib.rt:5"
        self.assertEqual(warned, f"warning: {place}: the word Rattle.one.specs.Sizes.IsAbsent is not found\n")

    def test_names_of_nothing(self) -> None:
        self.assertEqual(self.ran("one::none"), (1, "", "believe: there is no function, type or crate one::none\n"))
        self.assertEqual(self.ran("make"), (1, "", "believe: make may be each of one::make, two::make\n"))
        self.assertEqual(self.ran()[0], 2)

    def test_a_line_of_no_definition(self) -> None:
        self.write("one/specs/Sizes.antt", "  pub IsSmall : ℕ → Type 0\n")
        status, told, warned = self.ran("one::shown")
        self.assertEqual((status, told), (1, ""))
        self.assertIn("Sizes.antt:1: a line that belongs to no definition: pub IsSmall", warned)


if __name__ == "__main__":
    unittest.main()
