"""The index of the pages of tools/api, on small crates that are made up."""

import os
import sys
import tempfile
import unittest

from package import ROOT

sys.path.insert(0, f"{ROOT}/tools/modules")

import index
from sources import impls
from wording import Vocabulary

LIB = """//! A crate of one call: it returns true. Start at `is_so`.

pub mod laws;

mod inner;

pub use inner::Whole;

/// Returns true.
pub fn is_so() -> bool
    ensures { result ≡ true }
{
    true
}

/// Has no contract.
pub fn has_none() {}
"""
LAWS = """//! The theorems.

/// States that one
/// is one, in `a.b`. It is a fact.
pub fn one_is_one()
    ensures { 1 ≡ 1 }
{}

/// States that `x` is, and that it stays. More.
pub fn it_is()
    ensures { 1 ≡ 1 }
{}

/// Shows a run, and that it ends.
pub fn there_is_one()
    ensures { 1 ≡ 1 }
{}
"""
INNER = """/// A whole.
pub struct Whole;

/// Nobody can name it.
struct Hidden;

impl Default for Whole {
    fn default() -> Whole {
        Whole
    }
}

impl<R: Sync> Shape<R> for Whole {
    ghost use Rattle.std.specs.Prelude.{ℕ};

    ghost corners = { λ w. 0 };

    fn turn(&self) -> u32 {
        0
    }

    ghost edges = {
      λ w. 0
    };
}

impl Shape<u32> for Hidden {
    ghost corners = { λ w. 1 };
}
"""
ROWS = """# How to read it.

# base things
amo_dry:
amo_low: amo_dry
amo_low_tests: amo_low

# tests
amo_dry_tests: amo_dry

# programs
amo_shape: amo_low
amo_run may_wait=1: amo_low
"""
MUTANT = "file: src/lib.rt\nold:     true\nnew:     false\n"
FILES = {
    "crates.txt": ROWS,
    "crates/amo_dry/src/lib.rt": "//! Dry: it\n//! has none.\n\n/// Does it.\npub fn do_it() {}\n",
    "crates/amo_low/src/lib.rt": LIB, "crates/amo_low/src/laws.rt": LAWS,
    "crates/amo_low/src/inner.rt": "/// A whole.\npub struct Whole;\n",
    "crates/amo_low/wrong-bodies/is_not.edit": MUTANT,
    "crates/amo_low/wrong-bodies/is_not.twin": MUTANT,
    "crates/amo_low_tests/src/lib.rt": LIB.replace("pub mod laws;\n", ""),
    "crates/amo_low_tests/src/inner.rt": INNER,
    "crates/amo_dry_tests/src/lib.rt": "//! Tests.\n",
    "crates/amo_shape/src/lib.rt": "//! Shapes.\n\nmod inner;\n\npub use inner::Whole;\n",
    "crates/amo_shape/src/inner.rt": INNER,
    "crates/amo_run/wrong-bodies/runs_not.edit": MUTANT,
    "crates/amo_run/src/main.rt": "//! The program.\n\nfn main()\n    ensures { 1 ≡ 1 }\n{}\n"}


class Index(unittest.TestCase):
    """Crates with contracts, theorems or neither, a program, and crates of tests."""

    def setUp(self):
        held = tempfile.TemporaryDirectory()
        self.addCleanup(held.cleanup)
        self.root = held.name
        for name, text in FILES.items():
            os.makedirs(os.path.dirname(f"{self.root}/{name}"), exist_ok=True)
            with open(f"{self.root}/{name}", "w", encoding="utf-8") as file:
                file.write(text)

    def words(self):
        return Vocabulary(self.root, index.paged(self.root))

    def test_a_crate_of_tests_stands_in_no_section(self):
        self.assertEqual(index.sections(self.root), [("base things", ["amo_dry", "amo_low"]),
                                                     ("programs", ["amo_shape", "amo_run"])])

    def test_a_crate_without_a_public_contract_has_no_page(self):
        self.assertEqual(index.paged(self.root), ["amo_low", "amo_shape"])

    def test_a_public_type_has_what_it_gives_to_a_trait(self):
        text = ["impl<R: Sync> Shape<R> for Whole {", "    ghost corners = { λ w. 0 };",
                "    ghost edges = {", "      λ w. 0", "    };", "}"]
        found = impls(f"{self.root}/crates/amo_shape", self.root)
        self.assertEqual([it.name for it in found], ["Whole", "Hidden"])
        self.assertEqual(found[0].text, text)
        self.assertEqual([it.name for it in self.words().impls["amo_shape"]], ["Whole"])

    def test_a_row_counts_functions_theorems_and_mutants(self):
        words = self.words()
        low = "| [`amo_low`](amo_low.md) | A crate of one call: it returns true | 1 | 3 | 1 |"
        self.assertEqual(index.row(self.root, "amo_low", words), low)
        dry = "| `amo_dry` | Dry: it has none | 0 | 0 | 0 |"
        self.assertEqual(index.row(self.root, "amo_dry", words), dry)
        folder = "../../crates/amo_run/wrong-bodies"
        program = f"| `amo_run` | The program | 0 | 0 | [1]({folder}) |"
        self.assertEqual(index.row(self.root, "amo_run", words), program)

    def test_a_theorem_has_its_first_sentence_and_a_link(self):
        self.assertEqual(index.promises(self.words(), "amo_low"), [
            "### `amo_low`\n",
            "- [`one_is_one`](amo_low.md#one_is_one): One is one, in `a.b`.",
            "- [`it_is`](amo_low.md#it_is): `x` is, and it stays.",
            "- [`there_is_one`](amo_low.md#there_is_one): Shows a run, and that it ends.", ""])
        self.assertEqual(index.promises(self.words(), "amo_shape"), [])

    def test_a_sentence_ends_before_the_next_one_or_the_paragraph(self):
        self.assertEqual(index.first_sentence(["It is 2.5", "times. `y` is."]), "It is 2.5 times.")
        self.assertEqual(index.first_sentence(["It is 2 ^ 64.", "", "More."]), "It is 2 ^ 64.")
        self.assertEqual(index.first_sentence(["It has no end", "", "More."]), "It has no end")


if __name__ == "__main__":
    unittest.main()
