"""Controls: amo_jobs, or the stand-in for its worker, makes a mistake, and a test must show it."""

import os

from harness import bench as harness
from jobs import (
    crews, forgetting, held, identity, limits, rules, scene, spoiled, staying, unseen, ways
)

HERE = os.path.dirname(os.path.realpath(__file__))
TWICE, LISTED = "performed twice|performed after it was", "is a doubt|as a doubt|though no runner"
# Of the stand-in: a mistake, the test that has to show it, and what it has to say.
OF_THE_WORKER = [
    ("pending_is_open", rules.try_words_lost, TWICE),
    ("not_done_at_once", ways.try_late_request, TWICE),
    ("answers_by_line", rules.try_two_persons, TWICE),
    ("lists_what_runs", rules.try_orphan, TWICE),
    ("answers_what_runs", rules.try_running_is_not_answered, TWICE),
]
# Of the stand-in: mistakes by which registers and damaged files have a line performed twice. A
# mistake that two tests have to show has a name for each.
SPOILED = [
    ("no_clearance", spoiled.try_earlier_registers, "^performed twice: ", "no_clearance_earlier"),
    ("no_clearance", spoiled.try_drawn_registers, "^performed twice: ", "no_clearance_drawn"),
    ("damage_is_cut_off", spoiled.try_damage, "^performed twice: "),
]
INPUT = ["if (dup2(files[kind], kind) < 0)",
         'if (dup2(kind ? files[kind] : open("/dev/null", O_RDONLY), kind) < 0)']
FURTHER = ["return dup2(files[0], further);", "return 0;"]
NO_SUBREAPER = ["        calls.become_subreaper()\n", ""]
POST = "            self.posts[worker] = Child(words, ORDERS, [REPORTS], {LOCK: self.locks[worker]})\n"
# Of amo_jobs: the mistake, what stands there and what in its place, by pairs, and the same two.
OF_THE_RUNNER = [
    ("no_subreaper", NO_SUBREAPER, unseen.try_fed, TWICE),
    ("ends_while_a_descendant_lives", [
        "    if any(it.rest is Rest.UNSEEN for", "    if False and any(it.rest is Rest.UNSEEN for",
        "    if state.unseen:\n", "    if False:\n"], unseen.try_fed, TWICE),
    ("runner_lock_by_a_handle_of_its_own", [
        POST, f"{POST}            close_all([self.locks.pop(worker)])\n"],
     unseen.try_runner_killed, TWICE),
    ("lock_is_probed_by_the_inherited_handle", [
        *NO_SUBREAPER, "        self.process = 0\n        close_all(self.locks)\n",
        "        self.process = 0\n"], rules.try_left_behind, TWICE + "|did nothing"),
    ("lock_is_not_handed_on", [*INPUT, *FURTHER], rules.try_orphan, TWICE),
    ("lock_only_as_standard_input", FURTHER, rules.try_left_behind, TWICE + "|did nothing"),
    ("lock_only_as_a_further_descriptor", INPUT, rules.try_closed, TWICE),
    ("runner_without_lock", [
        "                lock = locked(path, True)\n",
        '                lock = os.open("/dev/null", os.O_RDONLY)\n'],
     rules.try_two_crews, LISTED),
    ("late_line_is_carried_out", [
        'KILL_AGAIN = 0.5', 'LATE: List[Said] = []\nKILL_AGAIN = 0.5',
        '            state.seen[it.serial] = f"unbegun {it.serial}"\n        return []',
        '            LATE.append(it)\n        return []',
        '        return actions\n    state.is_unacknowledged |=',
        '        return actions + (\n'
        '            [Begin(*LATE.pop()[1:4])] if LATE and serial > LATE[0].serial + 2 else [])\n'
        '    state.is_unacknowledged |=', '    return [*actions, Tell(report)]\n',
        '    late = [Begin(*LATE.pop()[1:4])] if LATE and serial > LATE[0].serial + 2 else []\n'
        '    return [*actions, Tell(report), *late]\n',
    ], rules.try_late_line, TWICE + "|locks are left"),  # the latter if the person comes late
    ("end_is_forgotten", [
        '    if serial in state.seen:\n        state.has_said = True\n        return answer(state, serial)\n',
        ''], rules.try_kept, LISTED),
    ("ends_before_it_is_noted", ["return not state.seen and not state.found and (", "return ("],
     rules.try_noted_after_all, LISTED),
    ("running_is_an_end", [
        '    state.current = None\n    report = Tell(', '    return gone(state, serial)\n    report = Tell('],
     rules.try_left_behind, TWICE + "|did nothing"),
    ("goes_on_after_a_stop", [
        'return way(state, "leave") if state.asks_for(0, STAY) else',
        'return [] if state.asks_for(0, STAY) else',
        '    if state.is_stopping or state.found:\n        return way(state, "leave")\n', ''],
     staying.try_stop, "after the stop: .*'go'|is told to leave"),
    ("starts_anew_after_a_round", [
        'self.input.send(f"{text}\\n".encode())',
        '_ = self.input.close() if text == "go" else self.input.send(f"{text}\\n".encode())'],
     staying.try_stays, "has had 2 processes"),
]
# Of amo_jobs: mistakes under limits, and about a supervisor that stands still, is gone, or was.
UNSENT = "        except OSError:  # it has no room now\n            {}\n"
OF_FAULTS = [
    ("child_that_is_not_shown_is_gone", [
        "    return [Process(it, calls.start_of(it) or 0) for it in numbers]",
        "    return named(numbers)"], limits.try_few_files_and_a_helper, TWICE),
    ("not_started_is_done", [
        "            self.feed(StartFailed(str(why)))\n",
        "            self.attempts[action.serial] = command\n            self.feed(CommandEnded(0))\n"],
     limits.try_processes, "counts as done, and did nothing"),
    ("outputs_of_runs_lie_together", ['        settings.results += f"/{run}"', "        pass"],
     ways.try_outputs_of_runs, "file exists"),
    ("outputs_of_another_run_are_shown", [" if os.path.basename(results) == id_of(run) else [run]", ""],
     ways.try_outputs_of_runs, "paid anew"),
    ("report_is_dropped", [UNSENT.format("pass"), UNSENT.format('self.unsent = b""')],
     held.try_full_pipe, r"of \d+ ends \d+ are told"),
    ("full_pipe_holds_nobody", [
        "    if state.is_held or state.is_unacknowledged:\n", "    if state.is_unacknowledged:\n"],
     held.try_full_pipe, "the runners go on"),
    ("failure_needs_no_acknowledgement", [
        "    state.is_unacknowledged |= report.is_failure()\n", ""],
     held.try_stopped_supervisor, "lines were used up"),
    ("goes_on_without_its_supervisor", ["        self.events.append(Plain.DESERTED)\n", ""],
     held.try_killed_supervisor, "lines were performed, and two had begun"),
    ("supervisor_sees_no_orphan", [
        "        return Orphans(bool(left), described(unseen))", '        return Orphans(False, "")'],
     unseen.try_runner_killed, f"{TWICE}|it is listed while|recorded"),
    ("runner_that_says_nothing_is_killed", [
        "        self.try_locks()\n        ready = self.poll()\n",
        "        self.try_locks()\n        before = monotonic()\n        ready = self.poll()\n"
        "        for post in self.posts.values() if monotonic() > before + 1.5 else ():\n"
        "            os.kill(post.process, 9)\n"], crews.try_suspended, LISTED),
]
# Mistakes about which folder a list is run in, of the stand-in and of amo_jobs.
MISSING = [("missing_is_empty", identity.try_journals, TWICE)]
IDENTITY = [
    ("id_is_not_compared", [
        '        return Row.NO_ID if os.path.lexists(folder) else Row.MISSING\n',
        '        return Row.GOES_ON\n',
        '*(["--id", run] if run else [])', '*[]', '    program.more += ["--id", run]\n', '',
        '    program.more += ["--id", settings.id]\n', '',
    ], identity.try_missing, TWICE),
    ("mark_is_replaced", ["os.link(new, path)", "os.replace(self.written(path), path)"],
     identity.try_two_folders, TWICE),
    ("list_is_put_away_last", [
        '            rename(self.settings.jobs, self.list)\n', '            pass\n',
        '            rename(self.settings.mark, self.old_mark)\n',
        '            rename(self.settings.mark, self.old_mark)\n'
        '            rename(self.settings.jobs, self.list)\n',
    ], forgetting.try_forget_killed, TWICE),
]
# Mistakes in the lines that a person copies from `doubts`.
COPIED = [
    ("two_answers_in_a_line", ['"--", name, line, text, BLANK))', '"--", name, line, text), "done|not-done")'],
     ways.try_pasted, "without an answer isn't refused"),
    ("words_as_they_are", [
        'return " ".join(map(quoted, [sys.argv[0], what, *settings.names, *words]))',
        'return " ".join([sys.argv[0], what, *settings.names, *words])'],
     ways.try_pasted, "runs something else"),
]


def of_the_worker(mistake, test, wanted, name=None):
    def try_control(bench):
        worker = f"{HERE}/mistaken.py"
        wrong = scene.Bench(bench.program, worker, bench.room, False, bench.seed, mistake)
        return shown(wrong, mistake, test, wanted)

    return named(try_control, name or mistake, test)


def of_the_runner(name, pairs, test, wanted):
    def try_control(bench):
        program = scene.changed(bench.program, f"{bench.room}/{name}", pairs)
        return shown(scene.Bench(program, bench.worker, bench.room, False, bench.seed), name, test, wanted)

    return named(try_control, name, test)


def named(control, name, test):
    control.__name__, control.__doc__ = f"try_{name}", f"the mistake {name} is shown by: {test.__doc__}"
    return control


def shown(bench, name, test, wanted):
    """Returns what the test says of the mistake."""
    wrong = harness.shown(name, test, lambda: bench, wanted, 4)
    return "shown: " + wrong.split(";")[0].replace("\n", " ")[:110]


ALL = [[of_the_worker(*it) for it in OF_THE_WORKER], [of_the_runner(*it) for it in OF_THE_RUNNER]]
OF_IDENTITY = [*[of_the_worker(*it) for it in MISSING], *[of_the_runner(*it) for it in IDENTITY]]
OF_SPOILED = [of_the_worker(*it) for it in SPOILED]
OF_COPIED = [of_the_runner(*it) for it in COPIED]
LIMITED = [of_the_runner(*it) for it in OF_FAULTS]
# those of the short form
SHORT = [*ALL[0][:2], *ALL[1][:3], *OF_IDENTITY, *OF_SPOILED, *OF_COPIED]
PARTS = {"controls": [*SHORT, *ALL[0][2:], *ALL[1][3:], *LIMITED]}
