"""Tests of tools/statement, which lists what a theorem rests on, over small sources."""

import glob
import os
import re
import sys
import tempfile
import unittest

from package import ROOT

sys.path.insert(0, f"{ROOT}/tools/modules")

from definitions import Lost, Tree
from statements import list_of, rests_on, text_of

LAW = """//! The theorem.
ghost use Rattle.std.specs.Prelude.{{◌≡◌, ◌≤◌, ℕ}};
{imports}

use amo_low::Seen;

/// It holds.
/// Always.
pub fn law()
    ensures {{ {clause} }}
{{
    unnamed();
}}
"""
HIGH = """-- The subject of the file.
use Rattle.std.specs.Prelude.{ℕ, List}
use Rattle.amo_low.specs.Low.{low as deep, Kind, First, ◌>>=◌}

-- Two of them.
-- Both count.
abbrev pub pair : ℕ → ℕ
pair n = deep (half n)

abbrev pub unnamed : ℕ → ℕ
unnamed n = low n

abbrev pub half : ℕ → ℕ
half zero = zero
-- Here it goes on.
half n = n

abbrev pub of_first : Kind → ℕ
of_first k = 0

abbrev pub picks : ℕ → ℕ
picks n = value First

abbrev pub binds : ℕ → ℕ
binds n = n >>= n
"""
LOW = """use Rattle.std.specs.Prelude.{ℕ}
infixl 10 ◌>>=◌

-- It names no other: "half" isn't named by a text, nor here: half.
abbrev pub low : ℕ → ℕ
low n = shown "Kind"

abbrev pub ◌>>=◌ : ℕ → ℕ → ℕ
a >>= b = a

abbrev pub choose◌or◌ : ℕ → ℕ → ℕ
choose a or b = a

pub data Kind : Type 0 where
  -- the first one
  First : Kind
  Second Third : ℕ → Kind

pub record Box : Type 0 where
  -- how much is in it
  pub amount : ℕ

module _ {C : Type 0} where
  -- It stands in a module.
  abbrev pub inside : C → C
  inside c = c

  pub record Within : Type 0 where
    pub kept : C

abbrev pub outside : ℕ → ℕ
outside n = n
"""
SEEN = """//! Rust items.
ghost use Rattle.amo_low.specs.Low.{Box};

use crate::other::Other;

/// The most.
pub const MOST: u32 = 7;

/// A thing that is seen.
#[derive(Clone)]
pub enum Seen {
    /// One of them.
    One(Other),
    Two { other: u32 },
}

/// It has a secret.
pub struct Hidden {
    secret: Seen,
}

impl Model for Hidden {
    ghost Value = { Box };
}

pub struct Holder {
    hidden: Hidden,
}
"""
FILES = {"high/specs/High.antt": HIGH, "low/specs/Low.antt": LOW, "low/src/seen.rt": SEEN,
         "low/src/lib.rt": "mod other;\nmod seen;\npub use seen::Seen;\n",
         "low/src/other.rt": "pub struct Other {\n    pub n: u32,\n}\n"}
SPECS, RUST = "Rattle.amo_high.specs.High", "Rattle.amo_low.specs.declared.seen"


class Made(unittest.TestCase):
    """A test with a folder of made-up crates, `amo_high` with the law, and `amo_low`."""

    def setUp(self):
        held = tempfile.TemporaryDirectory()
        self.addCleanup(held.cleanup)
        self.room = held.name
        for name, text in FILES.items():
            self.write(name, text)

    def write(self, name, text):
        path = f"{self.room}/crates/amo_{name}"
        os.makedirs(os.path.dirname(path), exist_ok=True)
        with open(path, "w", encoding="utf-8") as file:
            file.write(text)

    def law(self, imports, clause):
        """Returns what a law with these imports and this clause rests on."""
        uses = "\n".join(f"ghost use {it};" for it in imports)
        self.write("high/src/laws.rt", LAW.format(imports=uses, clause=clause))
        return rests_on(Tree(self.room), "amo_high", "law")

    def names(self, imports, clause):
        """Returns the names of the definitions, in the order in which they are read."""
        return [it.name for it in self.law(imports, clause).definitions()]


class Found(Made):
    def test_what_is_named_by_what_is_named_is_found_and_nothing_else(self):
        found = self.names([f"{SPECS}.{{pair, unnamed}}"], "(n : ℕ) → pair n ≡ n")
        self.assertEqual(found, ["low", "half", "pair"])

    def test_a_name_that_is_imported_as_another_is_found(self):
        self.assertEqual(self.names([f"{SPECS}.{{half as part}}"], "part 1 ≡ 1"), ["half"])
        self.assertEqual(self.names([f"{SPECS}.{{half as part}}"], "half 1 ≡ 1"), [])

    def test_a_constructor_leads_to_its_type(self):
        self.assertEqual(self.names([f"{SPECS}.{{picks}}"], "picks 1 ≡ 1"), ["Kind", "picks"])
        low = "Rattle.amo_low.specs.Low"
        self.assertEqual(self.names([f"{low}.{{Third as Last}}"], "Last 1 ≡ 1"), ["Kind"])

    def test_an_operator_is_found_by_its_parts(self):
        low = "Rattle.amo_low.specs.Low"
        self.assertEqual(self.names([f"{SPECS}.{{binds}}"], "binds 1 ≡ 1"), ["◌>>=◌", "binds"])
        chosen = [f"{low}.{{choose◌or◌}}"]
        self.assertEqual(self.names(chosen, "(choose 1 or 2) ≡ 1"), ["choose◌or◌"])
        self.assertEqual(self.names(chosen, "choose 1 ≡ 1"), [])

    def test_definitions_of_a_module_with_parameters_are_found(self):
        low = "Rattle.amo_low.specs.Low"
        found = self.law([f"{low}.{{inside, Within, outside}}"], "Within × outside (inside 1)")
        text = [it.lines for it in found.definitions()]
        self.assertEqual([len(it) for it in text], [2, 2, 2])
        self.assertEqual([it.name for it in found.definitions()], ["inside", "Within", "outside"])

    def test_a_field_leads_to_a_type_unless_a_listed_one_has_it(self):
        boxes = ["Rattle.amo_low.specs.Low.{Box, Kind}"]
        self.assertEqual(self.names(boxes, "(b : _) → b.amount ≡ 1"), ["Box"])
        both = [*boxes, "Rattle.amo_high.specs.Other.{Crate}"]
        self.write("high/specs/Other.antt", "pub record Crate : Type 0 where\n  pub amount : ℕ\n")
        self.assertEqual(self.names(both, "(c : Crate) → c.amount ≡ 1"), ["Crate"])

    def test_what_is_named_by_a_short_name_of_its_module_is_found(self):
        self.assertEqual(self.names(["Rattle.amo_low.specs.Low as low"], "low.outside 1 ≡ 1"),
                         ["outside"])

    def test_what_is_missing_is_reported(self):
        with self.assertRaisesRegex(Lost, "it has no `gone`"):
            self.law([f"{SPECS}.{{gone}}"], "gone 1 ≡ 1")
        with self.assertRaisesRegex(Lost, "no `pub fn other`"):
            rests_on(Tree(self.room), "amo_high", "other")
        with self.assertRaisesRegex(Lost, "crate `amo_none`"):
            rests_on(Tree(self.room), "amo_none", "law")


class Ordered(Made):
    def test_a_files_definitions_stay_together_in_their_order(self):
        self.write("high/specs/Other.antt", "use Rattle.amo_low.specs.Low.{outside, low}\n"
                   "pub two : ℕ\ntwo = outside 1\n\npub one : ℕ\none = low 1\n")
        found = self.names(["Rattle.amo_high.specs.Other.{one, two}"], "one ≡ two")
        self.assertEqual(found, ["low", "outside", "two", "one"])

    def test_a_definition_is_after_what_it_names_below_it(self):
        self.write("high/specs/Other.antt",
                   "pub two : ℕ\ntwo = one\n\npub one : ℕ\none = 1\n")
        found = self.names(["Rattle.amo_high.specs.Other.{two}"], "two ≡ two")
        self.assertEqual(found, ["one", "two"])

    def test_two_that_name_each_other_are_both_listed_once(self):
        self.write("high/specs/Other.antt",
                   "pub two : ℕ\ntwo = one\n\npub one : ℕ\none = two\n")
        found = self.names(["Rattle.amo_high.specs.Other.{one}"], "one ≡ one")
        self.assertEqual(sorted(found), ["one", "two"])


class Rust(Made):
    def test_variants_and_constants_lead_to_rust_items(self):
        imports = [f"{RUST}.Seen.TheVariants.{{Two as Pair}}", f"{RUST}.TheConstants.{{MOST}}"]
        self.assertEqual(self.names(imports, "Pair MOST ≡ 1"), ["Other", "MOST", "Seen"])

    def test_the_types_of_a_signature_are_found(self):
        self.law([], "⊤")
        path = f"{self.room}/crates/amo_high/src/laws.rt"
        with open(path, encoding="utf-8") as file:
            text = file.read().replace("fn law()", "fn law<S: Seen>(one: u32)")
        self.write("high/src/laws.rt", text)
        found = rests_on(Tree(self.room), "amo_high", "law").definitions()
        self.assertEqual([it.name for it in found], ["Other", "Seen"])

    def test_a_type_that_contracts_see_as_another_leads_to_that(self):
        found = self.law([f"{RUST}.Holder.{{Holder}}"], "Holder ≡ Holder").definitions()
        self.assertEqual([it.name for it in found], ["Box", "Hidden", "Holder"])
        self.assertEqual(found[1].lines, ["    ghost Value = { Box };"])

    def test_attributes_count_with_an_item_and_its_comment_apart(self):
        seen = self.law([f"{RUST}.Seen.{{Seen}}"], "Seen ≡ Seen").definitions()[-1]
        self.assertEqual((seen.first, len(seen.lines)), (10, 6))
        self.assertEqual(seen.comment, ["/// A thing that is seen."])


class Shown(Made):
    def test_each_definition_has_its_place_and_its_lines(self):
        shown = list_of(self.law([f"{SPECS}.{{pair}}"], "pair 1 ≡ 1"))
        self.assertEqual(shown, [
            "crates/amo_low/specs/Low.antt:5: low: 2 lines",
            "crates/amo_high/specs/High.antt:13: half: 4 lines",
            "crates/amo_high/specs/High.antt:7: pair: 2 lines",
            "crates/amo_high/src/laws.rt:9: the contract: 2 lines",
            "",
            "amo_high: 2 definitions, 6 lines; above them 2 lines of comments",
            "amo_low: 1 definition, 2 lines; above them 1 line of comments",
            "in all: 3 definitions, 8 lines; above them 3 lines of comments",
            "",
            "of the toolchain: Rattle.std.specs.Prelude: ℕ, ◌≡◌"])

    def test_a_comment_inside_counts_with_its_definition(self):
        one, = self.law(["Rattle.amo_low.specs.Low.{Kind}"], "Kind ≡ Kind").definitions()
        self.assertEqual((len(one.lines), one.comment), (4, []))

    def test_the_text_has_the_contract_last_and_says_which_name_is_another(self):
        shown = text_of(self.law([f"{SPECS}.{{pair}}"], "pair 1 ≡ 1"))
        self.assertEqual(shown[:5], [
            "==== crates/amo_low/specs/Low.antt", "",
            '-- It names no other: "half" isn\'t named by a text, nor here: half.',
            "abbrev pub low : ℕ → ℕ", 'low n = shown "Kind"'])
        at = shown.index("==== crates/amo_high/specs/High.antt")
        self.assertEqual(shown[at + 1], "==  deep: low in crates/amo_low/specs/Low.antt:5")
        self.assertEqual(shown[-5:], [
            "/// It holds.", "/// Always.", "pub fn law()", "    ensures { pair 1 ≡ 1 }", ""])

    def test_two_definitions_of_one_name_are_told_apart(self):
        self.write("high/specs/Other.antt", "abbrev pub low : ℕ → ℕ\nlow n = n\n")
        both = [f"{SPECS}.{{pair}}", "Rattle.amo_high.specs.Other.{low}"]
        shown = text_of(self.law(both, "pair (low 1) ≡ 1"))
        at = shown.index("==== crates/amo_high/src/laws.rt")
        self.assertEqual(shown[at + 1], "==  low: low in crates/amo_high/specs/Other.antt:1")


class Real(unittest.TestCase):
    def test_each_theorem_of_the_repository_is_followed(self):
        tree = Tree(ROOT)
        for path in sorted(glob.glob(f"{ROOT}/crates/*/src/laws.rt")):
            crate = path.split("/")[-3]
            with open(path, encoding="utf-8") as file:
                laws = re.findall(r"^pub fn (\w+)", file.read(), re.M)
            for law in laws:
                with self.subTest(law):
                    self.assertTrue(rests_on(tree, crate, law).definitions())


if __name__ == "__main__":
    unittest.main()
