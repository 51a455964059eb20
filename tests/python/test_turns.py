"""Which mutants a run of `./test` tries: tools/modules/turns.py, on small crates that are made up."""

import os
import sys
import tempfile
import unittest
from types import SimpleNamespace

from package import ROOT

sys.path.insert(0, f"{ROOT}/tools/modules")

import turns

CODE = 'pub fn two() -> u64 {\n    let url = "http://two";\n    2\n}\n'
EXPLAINED = '/// Returns 2.\npub fn two() -> u64 {\n\n    let url = "http://two"; // not used\n    2\n}\n'


def body(*names: str, trouble: str = "") -> SimpleNamespace:
    """Returns a mutant that changes the functions of these names."""
    functions = [SimpleNamespace(file="src/lib.rt", name=it) for it in names]
    return SimpleNamespace(functions=functions, trouble=trouble)


class Digests(unittest.TestCase):
    """The digest of a crate that has one file in each of its folders."""

    def setUp(self) -> None:
        room = tempfile.TemporaryDirectory()
        self.addCleanup(room.cleanup)
        self.crate = SimpleNamespace(folder=room.name, name="amo_two", kit=room.name)
        self.put("KIT-ID", "kit-1 logic 1\n")
        self.put("src/lib.rt", CODE)
        self.put("specs/Lib.antt", "-- two\ntwo = 2 -- it\n")
        self.put("wrong-bodies/three.edit", "file: src/lib.rt\nold: 2\nnew: 3\n")

    def put(self, path: str, text: str) -> None:
        """Writes a file of the crate."""
        os.makedirs(os.path.dirname(f"{self.crate.folder}/{path}"), exist_ok=True)
        with open(f"{self.crate.folder}/{path}", "w", encoding="utf-8") as held:
            held.write(text)

    def changes(self, path: str, text: str) -> bool:
        """Writes a file, and returns whether that changed the digest."""
        before = turns.digest(self.crate)
        self.put(path, text)
        return before != turns.digest(self.crate)

    def test_comments_and_blank_lines_change_nothing(self) -> None:
        self.assertFalse(self.changes("src/lib.rt", EXPLAINED))
        self.assertFalse(self.changes("specs/Lib.antt", "-- the number two\n\ntwo = 2\n"))

    def test_code_definitions_proofs_and_mutants_change_it(self) -> None:
        self.assertTrue(self.changes("src/lib.rt", CODE.replace("2\n}", "3\n}")))
        self.assertTrue(self.changes("src/lib.rt", CODE.replace("//two", "//three")))
        self.assertTrue(self.changes("specs/Lib.antt", "two = 3\n"))
        self.assertTrue(self.changes("specs/Lib.antt", "two = 3 --> 2\n"))
        self.assertTrue(self.changes("proofs/two/Answers.antt", "p = q\n"))
        self.assertTrue(self.changes("wrong-bodies/three.edit", "file: src/lib.rt\nold: 2\nnew: 4\n"))

    def test_another_logic_changes_it(self) -> None:
        self.assertTrue(self.changes("KIT-ID", "kit-1 logic 2\n"))

    def test_another_version_with_the_same_logic_changes_nothing(self) -> None:
        self.assertFalse(self.changes("KIT-ID", "kit-2 logic 1\n"))

    def test_a_crate_is_recorded_beside_the_others(self) -> None:
        root = f"{self.crate.folder}/repository"
        os.makedirs(f"{root}/tests")
        other = SimpleNamespace(folder=self.crate.folder, name="amo_one", kit=self.crate.kit)
        self.assertEqual(turns.tried(root), set())
        turns.write(root, [other])
        turns.write(root, [self.crate])
        now = turns.digest(self.crate)
        self.assertEqual(turns.tried(root), {("amo_one", now), ("amo_two", now)})

    def test_a_crate_is_recorded_for_each_logic(self) -> None:
        root = f"{self.crate.folder}/repository"
        os.makedirs(f"{root}/tests")
        with_first = turns.digest(self.crate)
        turns.write(root, [self.crate])
        self.put("KIT-ID", "kit-2 logic 3\n")
        with_second = turns.digest(self.crate)
        turns.write(root, [self.crate])
        self.assertEqual(turns.tried(root), {("amo_two", with_first), ("amo_two", with_second)})

    def test_a_later_record_replaces_that_of_its_logic(self) -> None:
        root = f"{self.crate.folder}/repository"
        os.makedirs(f"{root}/tests")
        turns.write(root, [self.crate])
        self.put("src/lib.rt", CODE.replace("2\n}", "3\n}"))
        turns.write(root, [self.crate])
        self.assertEqual(turns.tried(root), {("amo_two", turns.digest(self.crate))})


class Turns(unittest.TestCase):
    """Which bodies have their turn."""

    def test_each_body_has_one_turn(self) -> None:
        bodies = [body(f"f{it}") for it in range(200)]
        crate = SimpleNamespace(name="amo_two")
        drawn = [turns.chosen(crate, bodies, part) for part in range(turns.PARTS)]
        self.assertEqual(sorted(map(id, sum(drawn, []))), sorted(map(id, bodies)))

    def test_a_crate_has_its_turn_in_every_sixth_run(self) -> None:
        bodies = [body(f"f{it}") for it in range(200)]
        crate = SimpleNamespace(name="amo_two")
        turns_of_it = [it for it in range(turns.PARTS) if turns.chosen(crate, bodies, it)]
        first = turns_of_it[0]
        self.assertEqual(turns_of_it, [first, first + 6, first + 12, first + 18])

    def test_crates_have_their_turns_in_different_runs(self) -> None:
        crates = [SimpleNamespace(name=f"amo_{it}") for it in range(40)]
        tried = [[it.name for it in crates if turns.chosen(it, [body("f")], part)]
                 for part in range(turns.PARTS)]
        self.assertEqual(sum(map(len, tried)), 40)
        self.assertTrue(all(len(names) < 20 for names in tried))

    def test_bodies_that_share_a_function_go_together(self) -> None:
        bodies = [body("a", "b"), body("c"), body("b", "c"), body("d"), body("c", "e"), body("e")]
        keys = turns.keys_of(bodies)
        self.assertEqual(len({keys[it] for it in (0, 1, 2, 4, 5)}), 1)
        self.assertNotEqual(keys[3], keys[0])

    def test_a_body_that_cannot_be_applied_has_each_turn(self) -> None:
        bodies = [body(trouble="an 'old:' text is missing")]
        crate = SimpleNamespace(name="amo_two")
        self.assertTrue(all(turns.chosen(crate, bodies, it) for it in range(turns.PARTS)))


if __name__ == "__main__":
    unittest.main()
