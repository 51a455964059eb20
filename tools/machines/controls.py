"""Controls: amo_share makes a mistake, and a test has to show a line performed twice or lost."""

import os

from harness import bench as harness
from jobs.scene import changed
from machines import directed, scene

MARK, CLAIM = "self.put_mark(half, new_mark())", "self.claim(mark)"
OWNER = '            place(f"{self.folder}/owner", json.dumps({"mark": %s}))\n'
TWICE, LOST = "performed twice", "lost unseen"
# A row has the mistake, texts of python/amo_jobs and their replacements, by pairs, the test that
# must show it, and the message of that test.
MISTAKES = [
    ("name_in_place_of_a_mark",
     [MARK, "self.put_mark(half, os.path.basename(os.path.dirname(sharing.run)))"],
     directed.try_lost_folder, TWICE),
    ("mark_outside_the_folder", [
        f"        {MARK}",
        "        kept = f'{sharing.run}/mark.{self.number}'\n"
        "        os.path.exists(kept) or place(kept, os.urandom(16).hex())\n"
        "        self.put_mark(half, content(kept))",
    ], directed.try_lost_folder, TWICE),
    ("lost_answer_is_no", [
        "seconds = pause(sharing, seconds)\n        if found", 'return ""\n        if found',
        OWNER % CLAIM, f"            claimed = {CLAIM}\n            if not claimed:\n"
        f"                return False\n{OWNER % 'claimed'}",
    ], directed.try_answer_lost, LOST),
    ("size_is_no_part_of_the_digest", ['b"%d\\n" % sharing.chunk + data', "data"],
     directed.try_other_size, TWICE),
    ("copy_is_taken", ["if len(known) > 1 or [", "if False and ["], directed.try_copy, TWICE),
    ("copy_with_the_same_number_is_taken", ["if len(known) > 1 or [", "if ["],
     directed.try_copy, TWICE),
    ("new_mark_with_each_start", [
        "if os.path.isdir(self.folder):",
        "if self.note('owner') or shutil.rmtree(self.folder, ignore_errors=True):",
    ], directed.try_killed_everywhere, LOST),
    ("last_line_is_dropped", ['if data and not data.endswith(b"\\n"):', "if False:"],
     directed.try_last_line, "it says"),
    ("old_run_is_shared", ['if os.path.exists(f"{run}/shared") and', "if False and"],
     directed.try_old_folders, "it says"),
    ("old_chunk_is_worked",
     ['content(f"{self.folder}/id")', 'content(f"{self.folder}/id") or "0" * 32'],
     directed.try_old_folders, "status|it says"),
    ("folder_is_not_synced", ["        sync_folder(sharing.run)\n", ""],
     directed.try_killed_everywhere, "not on the disk"),
]
CHEAPEST = 3


def control_of(name, pairs, test, wanted):
    def try_control(bench):
        room = f"{bench.room}/{name}"
        program = changed(bench.program, room, pairs)
        for it in ("amo_jobs", "stores"):
            os.symlink(f"{os.path.dirname(bench.program)}/{it}", f"{room}/{it}")
        return shown(bench, scene.Bench(program, bench.worker, room, True, name), name, test, wanted)

    try_control.__name__, try_control.__doc__ = f"try_{name}", f"the mistake {name} is shown by: {test.__doc__}"
    return try_control


def shown(above, bench, name, test, wanted):
    """Returns what the test says of the mistake."""
    above.keep(bench)
    wrong = harness.shown(name, test, lambda: bench, wanted, 3)
    return "shown: " + wrong.replace("\n", " ")[:110]


PARTS = {"controls": [control_of(*it) for it in MISTAKES]}
