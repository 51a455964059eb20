"""Whole crews, over a program that stands for amo_worker and finds each line done."""

import fcntl
import json
import os
import signal
import stat
import subprocess
import sys
import tempfile
import unittest

from package import ROOT, SECONDS
from amo_jobs import calls

ID = "0123456789abcdef" * 2
WORKER = f"""#!/bin/sh
case "$*" in
door*) mkdir "$2" && echo {ID} > "$2/id" ;;
status*--follow*) echo '{{"format":1,"time":1764100000,"id":"{ID}","round":1,"workers":1,"lines":1,\
"done":1,"failed":0,"doubt":0,"pending":0,"untouched":0,"open":0,"attempts":[]}}' ;;
status*) echo '{{"lines":1,"done":1,"failed":0,"doubt":0,"running":0,"untouched":0,"open":0,\
"alive":[],"intents":[]}}' ;;
esac
"""
COUNTS = "amo_jobs: 1 lines: 1 done, 0 failed, 0 in doubt, 0 running, 0 untouched, 0 open\n"


class Crews(unittest.TestCase):
    def setUp(self):
        room = tempfile.TemporaryDirectory()
        self.addCleanup(room.cleanup)
        self.room, self.list = room.name, f"{room.name}/list"
        self.put("list", "a\n")
        self.put("worker", WORKER)
        os.chmod(f"{self.room}/worker", 0o700)
        self.told = f"{self.room}/told"
        self.notify = "--notify", f'echo "$AMO_EVENT $AMO_STATUS" >> {self.told}'

    def put(self, name, text):
        with open(f"{self.room}/{name}", "w", encoding="ascii") as file:
            file.write(text)

    def text(self, path):
        with open(path, encoding="ascii") as file:
            return file.read()

    def words(self, *options):
        return [sys.executable, "-B", f"{ROOT}/amo_jobs", "crew", "--workers", "1",
                "--worker-program", f"{self.room}/worker", *options, self.list, "--", "true"]

    def ended(self, words, **more):
        """Runs a crew; returns its status and what it has printed."""
        ran = subprocess.run(words, stdin=subprocess.DEVNULL, stderr=subprocess.PIPE,
                             encoding="utf-8", timeout=SECONDS, **more)
        return ran.returncode, ran.stderr

    def test_a_crew_ends_once_all_is_done(self):
        code, said = self.ended(self.words(*self.notify))
        self.assertEqual((code, said[said.index("\n") + 1:]), (0, COUNTS), said)
        self.assertEqual(self.text(self.told), "end 0\n")

    def test_a_child_from_before_the_crew_is_not_waited_for(self):
        # As in an entry point of a container, whose shell becomes the crew.
        script = f'sleep {10 * SECONDS} 2> /dev/null & echo $! > "$0"; exec "$@"'
        helper = f"{self.room}/helper"
        code, said = self.ended(["sh", "-c", script, helper, *self.words()])
        os.kill(int(self.text(helper)), signal.SIGKILL)  # it is still there
        self.assertEqual(code, 0)
        self.assertNotIn("it waits for", said)

    def test_a_teller_that_is_a_child_is_not_waited_for(self):
        # As for the first process of a container, whose children are all orphans.
        code, said = self.ended(self.words(*self.notify), preexec_fn=calls.become_subreaper)
        self.assertEqual(code, 0, said)
        self.assertNotIn("it waits for", said)
        self.assertEqual(self.text(self.told), "end 0\n")

    def test_a_program_that_is_killed_is_named(self):
        self.put("worker", "#!/bin/sh\nkill -9 $$\n")
        code, said = self.ended(self.words())
        self.assertEqual(code, 71, said)
        self.assertIn("/worker`: it was ended by SIGKILL; ", said)

    def test_doubts_report_that_lines_still_run(self):
        self.ended(self.words())
        none = WORKER.replace("status*)", "doubts*) echo '[]' ;;\nstatus*)")
        for count, said in ((0, ""), (2, "amo_jobs: no line is in doubt, and 2 still run; ask again"
                                         " once they have ended\n")):
            self.put("worker", none.replace('"running":0', f'"running":{count}'))
            words = [*self.words()[:3], "doubts", *self.words()[6:8], self.list]
            self.assertEqual(self.ended(words, stdout=subprocess.DEVNULL), (0, said))

    def test_a_crew_that_is_refused_notes_no_command(self):
        # `doubts` looks for the first crew's output in the folder of that note.
        os.mkdir(f"{self.list}.run")
        self.put("list.run/id", f"{ID}\n")
        self.put("worker", WORKER.replace("mkdir", "test -d"))
        note = json.dumps({"command": ["true"], "results": "/first"})
        self.put("list.run/command", note)
        with open(f"{self.list}.run/crew", "wb") as file:
            fcntl.flock(file, fcntl.LOCK_EX)
            code, _ = self.ended(self.words("--results", f"{self.room}/second"))
        self.assertEqual((code, self.text(f"{self.list}.run/command")), (75, note))
        self.assertEqual(self.ended(self.words("--results", f"{self.room}/second"))[0], 0)
        # Another run may have the same --results, so each has a part of its own.
        part = f"{self.room}/second/{ID}"
        self.assertEqual(json.loads(self.text(f"{self.list}.run/command"))["results"], part)
        self.assertEqual([stat.S_IMODE(os.stat(it).st_mode) for it in (f"{self.room}/second", part)],
                         [0o700] * 2)

    def test_a_lock_of_the_list_that_another_has_is_not_waited_for(self):
        # As in: flock tonight.txt amo_jobs crew .. tonight.txt
        with open(self.list, "rb") as file:
            fcntl.flock(file, fcntl.LOCK_EX)
            self.assertEqual(self.ended(self.words())[0], 0)

    def test_a_crew_that_is_refused_tells_its_status(self):
        os.mkdir(f"{self.list}.run")
        self.put("list.run/id", f"{ID}\n")
        self.put("worker", WORKER.replace("mkdir", "test -d"))
        with open(f"{self.list}.run/crew", "wb") as file:
            fcntl.flock(file, fcntl.LOCK_EX)
            code, said = self.ended(self.words(*self.notify, "--metrics", f"{self.room}/numbers"))
        self.assertEqual((code, self.text(self.told)), (75, "end 75\n"))
        self.assertEqual(said.count("another crew works in this folder"), 1)
        self.assertFalse(os.path.exists(f"{self.room}/numbers"))

    def test_a_message_that_is_larger_than_a_pipe_keeps_no_other_from_being_told(self):
        intent = '"intents":[{"intent":"1.1","line":1,"state":"running","text":"\'$long\'"}]'
        self.put("worker", WORKER.replace('"intents":[]', intent).replace(
            "case", "long=$(printf %0100000d 1)\ncase", 1))
        events = f"{self.room}/events"
        code, said = self.ended(self.words(*self.notify, "--events", events))
        self.assertEqual((code, self.text(self.told)), (0, "end 0\n"), said[:500])
        with open(events, encoding="utf-8") as file:
            found = [json.loads(it) for it in file]
        self.assertTrue(any(len(it.get("text", "")) > 100000 for it in found))


if __name__ == "__main__":
    unittest.main()
