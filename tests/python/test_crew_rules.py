"""The rules of a crew: each action and each branch, every order of up to six events, and mistakes
that the monitor has to notice."""

import signal
import unittest
from unittest import mock

from crew_world import FAILED, KILLED, World
from worlds import after, Changes, EveryOrder
from amo_jobs import crew_rules, reports
from amo_jobs.crew_rules import (
    End, LetGo, Locked, Number, Occupied, Order, Orphans, Pause, PauseOver, Phase, Reported,
    RunnerEnded, Say, Signalled, SignalOrphans, Start, State
)
from amo_jobs.reports import Report
from amo_jobs.runner_state import BY_CREW, RUNNER_AGAIN
from amo_jobs.settings import Settings

CHANGES = Changes(crew_rules)
ORIGINAL = CHANGES.original
BOTH = [Locked(1), Locked(2)]
DIES = (RunnerEnded(1, KILLED), dict(left="unseen"))
# The worlds from which the search begins, by what has happened in them.
SCENES = {
    "a first start": [],
    "both run": BOTH,
    "one line has failed": [*BOTH, Reported(1, FAILED)],
    "a runner was killed": [*BOTH, DIES],
    "a runner has ended": [*BOTH, Reported(1, Report(reports.OVER, code=0)), RunnerEnded(1, 0)],
    "a stop": [*BOTH, Signalled(signal.SIGINT)],
    "another has a number": [Locked(1), Occupied(2, 4711)],
    "a refusal": [*BOTH, Reported(1, Report(reports.OVER, code=65))],
}


def restarts_beside_orphans(state, it):
    return ORIGINAL[Orphans](state, Orphans(False, it.unseen))


def sees_all(state, it):
    return ORIGINAL[Orphans](state, it._replace(unseen=""))


def stops_the_first(original):
    def stop(state, why, remedy=""):
        orders, more = [], original(state, why, remedy)
        for action in more:
            is_late = isinstance(action, Order) and orders
            orders += [action] if isinstance(action, Order) else []
            more = [it for it in more if it is not action] if is_late else more
        return more
    return stop


def passes_the_first(state, it):
    state.asked += 1
    return ORIGINAL[Signalled](state, it)


def lets_go_at_once(state, it):
    state.numbers[it.worker].status = state.numbers[it.worker].status or 0
    return ORIGINAL[RunnerEnded](state, RunnerEnded(it.worker, abs(it.code)))


def forgets_the_refusal(state):
    return None


def forgets_the_kill(state, it):
    return [Start(it.worker, BY_CREW) if isinstance(action, Start) else action
            for action in ORIGINAL[PauseOver](state, it)]


# The mistakes: how each is made, and the rule that it breaks.
MISTAKES = {
    "no acknowledgement": (CHANGES.function("after_failure", lambda *_: []),
                           "a runner waits for an order"),
    "failures never stop": (CHANGES.function(
        "after_failure", lambda state, worker, report: [Order(worker, reports.GO)]),
        "a runner goes on after too many failures"),
    "a runner is started beside orphans": (CHANGES.handler(Orphans, restarts_beside_orphans),
                                           "a pause beside orphans"),
    "what is unseen is let go": (CHANGES.handler(Orphans, sees_all),
                                 "a lock is let go while nobody else sees what is left"),
    "one runner is told to stop": (
        CHANGES.function("stop", stops_the_first(crew_rules.stop)), "a runner isn't told to stop"),
    "the first signal is passed on": (CHANGES.handler(Signalled, passes_the_first),
                                      "the first signal is passed on"),
    "a killed runner counts as ended": (
        CHANGES.handler(RunnerEnded, lets_go_at_once),
        "a lock is let go while nobody else sees what is left"),
    "a runner is started after a stop": (
        CHANGES.handler(Locked, lambda state, it: [Start(it.worker, BY_CREW)]),
        "it ends while a runner lives"),
    "a restart counts as a first start": (CHANGES.handler(PauseOver, forgets_the_kill),
                                          "a start of another kind"),
    "news for all": (
        lambda: mock.patch.dict(crew_rules.REPORTS, {
            reports.ROUND: lambda state, *_: crew_rules.orders(state, reports.NEWS)}),
        "a runner gets news of itself"),
    "a refusal is forgotten": (CHANGES.function("last_status", forgets_the_refusal),
                               "a refusal isn't its status"),
}


class Orders(EveryOrder, unittest.TestCase):
    """Every order of up to six events from the first scene, and of five from the others."""

    scenes = {name: lambda events=events: after(World(), *events)
              for name, events in SCENES.items()}
    mistakes = MISTAKES


class Steps(unittest.TestCase):
    """Each action, and each branch that the search doesn't tell apart."""

    def setUp(self, numbers=2, halt=None):
        self.state = State(Settings(command=["pay"], results="/results", halt=halt),
                           "amo_jobs status x", {it + 1: Number() for it in range(numbers)})
        for worker in range(1, numbers + 1):
            self.assertEqual(self.take(Locked(worker)), [Start(worker, BY_CREW)])

    def take(self, event):
        return crew_rules.take(self.state, event)

    def report(self, *given, worker=1, **more):
        return self.take(Reported(worker, Report(*given, **more)))

    def test_messages_of_reports(self):
        lines = {
            (reports.ENDED, 3, 7, "done", 3): "line 7: attempt 1.3 failed with status 3",
            (reports.ENDED, 3, 7, "untouched", 75): "line 7: attempt 1.3 did nothing (status 75)",
            (reports.ENDED, 3, 7, "doubt", 0): "line 7: attempt 1.3 is in doubt, since a signal"
                                               " ended it; find out whether it took effect",
            (reports.ENDED, 3, 7, "doubt", 0, True): "line 7: attempt 1.3 is in doubt, since the"
                                                     " timeout ended it; find out whether it took"
                                                     " effect",
            (reports.LOST, 3, 7): "line 7: attempt 1.3 is in doubt, since its runner was gone"
                                  " before the end was recorded; find out whether it took effect",
            (reports.LEFT_BEHIND, 3, 7): "line 7: attempt 1.3 has ended, and something that it"
                                         " started still runs; wait for it, or end it (amo_jobs"
                                         " status x names the process)",
            (reports.TRIES, 0, 0, "", 2, False, "full"): "worker 1: full. It goes on trying, since"
                                                         " 2 ends are not recorded yet",
            (reports.SHORT, 0, 0, "", 0, False, "full"): "worker 1: full. It goes on trying, until"
                                                         " you stop it",
            (reports.SAYS, 0, 0, "", 0, False, "text"): "text",
        }
        for given, text in lines.items():
            said = [it.text for it in self.report(*given) if isinstance(it, Say)]
            self.assertEqual(said, [text])

    def test_a_good_line_needs_no_order(self):
        self.assertEqual(self.report(reports.ENDED, 1, 1, "done", 0), [])
        self.assertEqual((self.state.ended, self.state.good), (1, 1))

    def test_ten_failures_stop_if_no_line_was_good(self):
        for _ in range(9):
            self.assertEqual(self.report(reports.ENDED, 1, 1, "done", 3)[-1], Order(1, "go"))
        found = self.report(reports.ENDED, 1, 1, "done", 3)
        self.assertEqual(found[1].text, "crew: 10 failures in a row, and no line was done before,"
                         " so no further job is started; see the files err.P.S in `/results` for"
                         " the cause")
        self.assertEqual(found[2:], [Order(1, "stop"), Order(2, "stop")])

    def test_halt(self):
        for halt, good, count in ((3, 0, 3), (20, 0, 10), (4, 1, 4), (0, 0, None), (None, 1, None)):
            self.setUp(halt=halt)
            self.state.good = good
            stopped = [k for k in range(1, 31) if self.report(reports.ENDED, 1, 1, "doubt")
                       and self.state.is_stopping]
            self.assertEqual(stopped[:1], [count] if count else [])

    def test_a_doubt_that_a_killed_runner_leaves_counts_for_the_row(self):
        # As where memory is short, and the kernel kills a runner at each line.
        for it in range(9):
            self.take(RunnerEnded(1, -9))
            self.take(Orphans(False, ""))
            self.take(PauseOver(1))
            self.assertEqual(self.report(reports.LOST, it, it)[1:], [Order(1, "go")])
        self.assertIn("10 failures in a row", self.report(reports.ENDED, 10, 10, "doubt")[1].text)
        self.assertTrue(self.state.is_stopping)

    def test_a_doubt_of_an_earlier_crew_does_not_count_for_the_row(self):
        for it in range(16):
            self.assertEqual(self.report(reports.LOST, it, it)[1:], [Order(1, "go")])
        self.assertFalse(self.state.is_stopping)

    def test_untouched_lines_are_no_failures(self):
        for _ in range(20):
            self.report(reports.ENDED, 1, 1, "untouched", 75)
        self.assertFalse(self.state.is_stopping)

    def test_a_line_that_cannot_be_started(self):
        said, stop, *orders = self.report(reports.UNBEGUN, 1, 7, text="no such file")
        self.assertEqual(said.text, "line 7: cannot start `pay`: no such file")
        self.assertEqual(stop.text, "crew: a line cannot be started, so no further job is started")
        self.assertEqual(orders, [Order(1, "stop"), Order(2, "stop")])
        self.assertEqual(self.report(reports.UNBEGUN, 2, 8, text="no such file"), [])

    def test_signals(self):
        self.report(reports.RUNS, 3, 7)
        self.assertEqual(self.take(Signalled(signal.SIGTERM))[0].text,
                         "crew: it got SIGTERM, so no further job is started (commands that go on"
                         " to their end: 1); to pass a signal on to the commands: send one more")
        said, *orders = self.take(Signalled(signal.SIGINT))
        self.assertEqual(said.text, "crew: it got SIGINT again, and passes it on to 1.3")
        self.assertEqual(orders, [Order(1, "pass 2"), Order(2, "pass 2")])
        self.report(reports.ENDED, 3, 7, "done", 0)
        self.assertIn("no command, since none runs", self.take(Signalled(signal.SIGINT))[0].text)
        self.report(reports.WAITS, text="process 9 (x)")
        self.assertIn("the processes for which worker 1 waits", self.take(Signalled(signal.SIGINT))[0].text)

    def test_a_runner_with_a_signal_of_its_own(self):
        said = self.report(reports.ASKED, code=signal.SIGTERM)[0].text
        self.assertEqual(said, "worker 1: its runner got SIGTERM, so no further job is started")

    def test_a_runner_that_is_ended_by_a_signal_without_a_name(self):
        self.assertIn("its runner was ended by signal 35", self.take(RunnerEnded(1, -35))[0].text)

    def test_the_others_hear_of_a_round(self):
        self.assertEqual(self.report(reports.ROUND), [Order(2, "news")])
        self.state.numbers[2].phase = Phase.PAUSES
        self.assertEqual(self.report(reports.ROUND), [])

    def test_lines_that_were_taken(self):
        shown = [self.report(reports.TAKEN, text=f"line {k}") for k in range(12)]
        self.assertEqual(sum(map(bool, shown)), crew_rules.MOST_TAKEN)
        self.assertEqual(self.state.taken, 12)

    def test_ends_in_order(self):
        self.assertEqual(self.report(reports.OVER, code=0), [])
        self.assertEqual(self.take(RunnerEnded(1, 0)), [LetGo(1), Order(2, "news")])
        self.report(reports.OVER, worker=2, code=69)
        self.assertEqual(self.take(RunnerEnded(2, 0)), [LetGo(2), End(None)])
        self.assertEqual(self.take(Signalled(signal.SIGINT)), [])

    def test_a_refused_worker(self):
        said, stop, *orders = self.report(reports.OVER, code=65, text="`jobs`: it is damaged")
        self.assertEqual(said.text, "worker 1: `jobs`: it is damaged (status 65)")
        self.assertEqual(stop.text,
                         "worker 1: it isn't started again, so no further job is started")
        self.assertEqual(orders, [Order(1, "stop"), Order(2, "stop")])
        self.take(RunnerEnded(1, 65))
        self.report(reports.OVER, worker=2, code=69)
        self.assertEqual(self.take(RunnerEnded(2, 69))[-1], End(65))

    def test_a_worker_that_was_killed_at_the_stop(self):
        self.take(Signalled(signal.SIGINT))
        self.assertEqual(self.report(reports.OVER, code=-9), [])

    def test_a_killed_runner(self):
        said, = self.take(RunnerEnded(1, -9))
        self.assertEqual(said.text, "worker 1: its runner was ended by SIGKILL; it is started again"
                         " once nothing that it has started is left")
        self.assertEqual(self.take(Orphans(True, "")), [])
        for seconds in (0.1, 0.2, 0.4):
            self.assertEqual(self.take(Orphans(False, "")), [Pause(1, seconds)])
            self.assertEqual(self.take(PauseOver(1)), [Start(1, RUNNER_AGAIN)])
            self.take(RunnerEnded(1, -9))
        self.take(Orphans(False, ""))
        self.assertEqual(self.take(Signalled(signal.SIGINT))[1:], [Order(2, "stop"), LetGo(1)])
        self.assertEqual(self.take(PauseOver(1)), [])

    def test_a_runner_that_fails(self):
        said, order = self.take(RunnerEnded(1, 0))
        self.assertEqual(said.text, "worker 1: its runner has failed (status 0), so no further job"
                         " is started")
        self.assertEqual(order, Order(2, "stop"))
        self.assertEqual(self.take(Orphans(False, "")), [LetGo(1)])
        self.take(Reported(2, Report(reports.OVER, code=69)))
        self.assertEqual(self.take(RunnerEnded(2, 69))[-1], End(125))

    def test_a_status_of_python_is_not_one_of_a_crew(self):
        for code in (1, 2):  # as if Python had found no program
            self.setUp()
            self.take(RunnerEnded(1, code))
            self.take(Orphans(False, ""))
            self.take(Reported(2, Report(reports.OVER, code=0)))
            self.assertEqual(self.take(RunnerEnded(2, 0))[-1], End(125))

    def test_what_is_left_of_a_runner_is_waited_for_at_last(self):
        self.take(RunnerEnded(1, -9))
        self.take(Orphans(True, "process 9 (x)"))
        self.take(Signalled(signal.SIGINT))
        self.report(reports.OVER, worker=2, code=69)
        self.take(RunnerEnded(2, 69))
        said, = self.take(Orphans(True, "process 9 (x)"))
        self.assertIn("it waits for process 9 (x)", said.text)
        self.assertEqual(self.take(Orphans(True, "process 9 (x)")), [])
        said, signalled = self.take(Signalled(signal.SIGINT))
        self.assertIn("process 9 (x)", said.text)
        self.assertEqual(signalled, SignalOrphans(signal.SIGTERM))
        self.assertEqual(self.take(Orphans(True, ""))[-1], End(None))

    def test_whom_a_killed_runner_is_waited_for_is_told_without_a_stop(self):
        self.setUp(numbers=1)
        self.take(RunnerEnded(1, -9))
        self.assertEqual(self.take(Orphans(True, "process 8 (its worker), process 9 (x)")), [])
        self.assertEqual(self.take(Orphans(True, "process 9 (x)")), [])
        said, = self.take(Orphans(True, "process 9 (x)"))
        self.assertIn("it waits for process 9 (x)", said.text)
        self.assertEqual(self.take(Orphans(False, "")), [Pause(1, 0.1)])

    def test_unseen_processes_of_nobody_are_waited_for(self):
        self.report(reports.OVER, code=0)
        self.report(reports.OVER, worker=2, code=0)
        self.take(Orphans(True, "process 9 (x)"))
        self.take(RunnerEnded(1, 0))
        self.assertIn("it waits for process 9 (x)", self.take(RunnerEnded(2, 0))[-1].text)
        self.assertEqual(self.take(Orphans(True, "process 9 (x)")), [])
        self.assertEqual(self.take(Orphans(False, "")), [End(None)])

    def test_another_crews_runner_has_a_number(self):
        self.state = State(Settings(), "status", {1: Number(), 2: Number()})
        said, = self.take(Occupied(2, 4711))
        self.assertEqual(said.text, "worker 2: the runner of an earlier crew, process 4711, ends"
                         " its command; this worker begins after that")
        self.assertEqual(self.take(Occupied(2, 4711)), [])
        self.take(Locked(1))
        self.report(reports.OVER, code=0)
        self.assertEqual(self.take(RunnerEnded(1, 0)), [LetGo(1), End(None)])

    def test_no_number_at_all(self):
        self.state = State(Settings(), "status", {1: Number()})
        self.take(Occupied(1, 0))
        self.assertEqual(self.take(Signalled(signal.SIGINT))[-1], End(75))

    def test_a_lock_that_comes_too_late(self):
        self.state.numbers[2].phase = Phase.LOCKS
        self.take(Signalled(signal.SIGINT))
        self.assertEqual(self.take(Locked(2)), [LetGo(2)])

    def test_a_runner_that_cannot_be_started(self):
        said, stop, *orders = self.report(reports.OVER, code=74, text="`x`: no such file")
        self.assertEqual(said.text, "worker 1: `x`: no such file (status 74)")
        self.assertEqual(orders, [Order(1, "stop"), Order(2, "stop")])
        self.assertEqual(self.take(RunnerEnded(1, 74))[0], LetGo(1))


if __name__ == "__main__":
    unittest.main()
