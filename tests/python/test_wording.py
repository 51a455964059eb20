"""The words of contracts on the pages of tools/api, on small crates that are made up."""

import os
import sys
import tempfile
import unittest

from package import ROOT

sys.path.insert(0, f"{ROOT}/tools/modules")

from sources import attributes_above
from wording import Vocabulary

HIGH = """//! A crate.
//!
//! ```rust
//! ghost use Rattle.amo_high.specs.High.{shown_in_a_program};
//! use amo_last::Last;
//! ```
ghost use Rattle.std.specs.Prelude.{◌≡◌, ◌≤◌};
ghost use Rattle.amo_high.specs.High.{pair as two, unnamed};

pub use amo_low::Holder;

/// Returns it.
pub fn run(holder: &Holder) -> u32
    ensures { result ≡ two 2 }
{
    unnamed();
}
"""
HIGH_SPECS = """use Rattle.std.specs.Prelude.{ℕ}
use Rattle.amo_low.specs.Low.{low}

-- Two of them.
abbrev pub pair : ℕ → ℕ
pair n = half n

module _ {C : Type 0} where
  -- It goes down.
  abbrev pub half : ℕ → ℕ
  half n = low n

abbrev pub unnamed : ℕ → ℕ
unnamed n = n

abbrev pub shown_in_a_program : ℕ → ℕ
shown_in_a_program n = n
"""
LOW_SPECS = """use Rattle.std.specs.Prelude.{ℕ}

abbrev pub low : ℕ → ℕ
low n = deeper n

abbrev pub deeper : ℕ → ℕ
deeper n = n

abbrev pub alone : ℕ → ℕ
alone n = n

-- The box as contracts see it.
pub record BoxView : Type 0 where
  pub amount : ℕ
"""
HOLDER = """//! Rust items.
ghost use Rattle.amo_low.specs.Low.{BoxView};

/// It has a secret.
#[derive(Clone)]
#[other]
pub struct Holder {
    secret: u32,
}

impl Model for Holder {
    ghost Value = { BoxView };

    ghost view = { λ h. record { amount = h.secret } };
}
"""
FILES = {"crates/amo_high/src/lib.rt": HIGH, "crates/amo_high/specs/High.antt": HIGH_SPECS,
         "crates/amo_low/src/lib.rt": "//! Low.\nmod holder;\n\npub use holder::Holder;\n",
         "crates/amo_low/src/holder.rt": HOLDER, "crates/amo_low/specs/Low.antt": LOW_SPECS,
         "crates/amo_last/src/lib.rt": "//! Last.\n",
         "crates.txt": "# base\namo_low:\namo_last: amo_low\namo_high: amo_last amo_low\n"}


class Pages(unittest.TestCase):
    """The crates `amo_high` and `amo_low`, which have pages, and `amo_last`, which has none."""

    def setUp(self):
        held = tempfile.TemporaryDirectory()
        self.addCleanup(held.cleanup)
        for name, text in FILES.items():
            path = f"{held.name}/{name}"
            os.makedirs(os.path.dirname(path), exist_ok=True)
            with open(path, "w", encoding="utf-8") as file:
                file.write(text)
        self.words = Vocabulary(held.name, ["amo_low", "amo_high"])

    def shown(self, crate):
        return {it.name for it in self.words.shown[crate]}

    def test_a_word_comes_with_the_line_that_brings_it(self):
        self.assertEqual(self.words.imports("amo_high"),
                         ["ghost use Rattle.std.specs.Prelude.{◌≡◌};",
                          "ghost use Rattle.amo_high.specs.High.{pair as two};"])

    def test_a_caller_lists_the_crates_of_types_and_programs(self):
        self.assertEqual(self.words.needed("amo_high"), ["amo_high", "amo_last", "amo_low"])

    def test_a_definition_is_shown_with_all_below_it_and_no_other(self):
        self.assertEqual(self.shown("amo_high"), {"pair", "half", "shown_in_a_program"})

    def test_a_page_shows_what_a_page_above_names(self):
        self.assertEqual(self.shown("amo_low"), {"low", "deeper", "BoxView"})

    def test_a_text_has_its_comment_and_the_parameters_around_it(self):
        part = "\n".join(self.words.meanings("amo_high"))
        self.assertIn("### `Rattle.amo_high.specs.High`", part)
        self.assertIn("-- Two of them.\nabbrev pub pair : ℕ → ℕ\npair n = half n\n", part)
        self.assertIn("module _ {C : Type 0} where\n  -- It goes down.\n", part)
        self.assertIn("[`low`](amo_low.md#rattleamo_lowspecslow) of `amo_low`", part)

    def test_the_value_of_a_type_is_found(self):
        view = self.words.models["amo_low"]["Holder"]
        self.assertEqual(view.text, ["ghost Value = { BoxView };",
                                     "ghost view = { λ h. record { amount = h.secret } };"])
        value = self.words.value(self.words.text(view.file, "Holder", view.line, view.text))
        self.assertEqual(value.name, "BoxView")

    def test_a_type_is_shown_with_its_derives_alone(self):
        lines = HOLDER.split("\n")
        at = lines.index("pub struct Holder {")
        self.assertEqual(attributes_above(lines, at), ["#[derive(Clone)]"])

    def test_both_names_of_an_item_are_told(self):
        row = "- `Holder`: of [amo_low](amo_low.md), and exported by [amo_high](amo_high.md)"
        self.assertEqual(self.words.twins("amo_high"), [row])
        self.assertEqual(self.words.twins("amo_low"), [row])


if __name__ == "__main__":
    unittest.main()
