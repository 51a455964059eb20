"""The rules of a runner: each action and each branch, every order of up to six events, and mistakes
that the monitor has to notice."""

import signal
import unittest
from unittest import mock

from runner_world import KILLED, SETTINGS, World
from worlds import after, Changes, EveryOrder
from amo_jobs import reports, runner_rules
from amo_jobs.reports import Report
from amo_jobs.runner_state import (
    Answer, Attempt, Begin, CommandEnded, Elapsed, End, GRACE, LINGER, Look, Looked, MOMENT,
    PassOn, PAUSE, PERFORM, Plain, Rest, Said, Send, StartFailed, StartWorker, State, Tell,
    TIMEOUT, Wait, WAS, WorkerEnded
)
from amo_jobs.settings import Settings

CHANGES = Changes(runner_rules)
ORIGINAL = CHANGES.original


def said(kind, serial=0, is_alive=True):
    return Said(kind, serial, serial, b"", is_alive)


LEFT = (CommandEnded(0), dict(rest=Rest.UNSEEN))
SEEN = (CommandEnded(0), dict(rest=Rest.SEEN))
ONE, TWO = said(PERFORM, 1), said(PERFORM, 2)
DEAD = WorkerEnded(KILLED, "")
# The worlds from which the search begins: their first state, and what has happened in them.
SCENES = {
    "a first start": ({}, []),
    "an attempt of an earlier runner": (dict(pending=[1]), []),
    "one of which something runs": (dict(pending=[1], rests={1: Rest.SEEN}), []),
    "a command runs": ({}, [ONE]),
    "its worker is dead": ({}, [ONE, DEAD]),
    "something is left behind": ({}, [ONE, LEFT, Elapsed(LINGER, 1)]),
    "something is left that holds the lock": ({}, [ONE, SEEN, Elapsed(LINGER, 1)]),
    "a line has failed": ({}, [ONE, CommandEnded(3)]),
    "a line has failed, and the next one waits": ({}, [ONE, CommandEnded(3), TWO]),
    "the worker waits for a round": ({}, [said("over")]),
    "a stop while a command runs": ({}, [ONE, Plain.STOP]),
    "an answer that a killed worker got": ({}, [ONE, CommandEnded(0), DEAD]),
    "the time is over": ({}, [ONE, Elapsed(TIMEOUT, 1)]),
    "it waits at last": (dict(lines=1), [ONE, LEFT, Elapsed(LINGER, 1), WorkerEnded(0, "all")]),
}


def goes_on_after_a_stop(original):
    def go_on(state):
        was, state.is_stopping = state.is_stopping, False
        actions = original(state)
        state.is_stopping |= was
        return actions
    return go_on


def reports_first(original):
    def answer(state, serial):
        *answers, last = original(state, serial)
        return [last, *answers]
    return answer


def needs_no_acknowledgement(original):
    def answer(state, serial):
        actions = original(state, serial)
        state.is_unacknowledged = False
        return actions
    return answer


def forgets_the_kill(original):
    def start_worker(state):
        return [it._replace(has_failed=False) for it in original(state)]
    return start_worker


def forgets_all(original):
    def worker_ended(state, it):
        actions = original(state, it)
        state.seen.clear()
        return actions
    return worker_ended


def takes_seen_for_nothing(state, it):
    rest = Rest.NOTHING if it.rest is Rest.SEEN else it.rest
    return ORIGINAL[Looked](state, Looked(it.serial, rest))


def starts_in_between(original):
    def what_next(state):
        current, state.current = state.current, None
        actions = original(state)
        state.current = current
        return actions
    return what_next


def says_unbegun(original):
    def lost(state, serial):
        state.top = state.top or 0
        return original(state, serial)
    return lost


def ends_while_unseen(original):
    def what_next(state):
        for it in state.attempts.values():
            it.rest = Rest.SEEN
        return original(state)
    return what_next


def keeps_time(state, serial, attempt):
    return [Send(serial, signal.SIGTERM), Wait(GRACE, serial, 1.0)]


def goes_on_at_once(state):
    return [*runner_rules.way(state, "go"), runner_rules.turn_of_round(state)]


def drops_the_line(state, it):
    state.asks = None
    return ORIGINAL[WorkerEnded](state, it)


# The mistakes: how each is made, and the rule that it breaks.
MISTAKES = {
    "a command after a stop":
        (CHANGES.changed("go_on", goes_on_after_a_stop), "a command is begun after a stop"),
    "a dead worker's line is carried out":
        (CHANGES.handler(Said, lambda state, it: ORIGINAL[Said](state, it._replace(is_alive=True))),
         "a dead worker's line"),
    "done while something is left":
        (CHANGES.handler(Looked, takes_seen_for_nothing), "done of what still runs"),
    "a report before the answer":
        (CHANGES.changed("answer", reports_first), "a report before the answer"),
    "no acknowledgement is waited for":
        (CHANGES.changed("answer", needs_no_acknowledgement),
         "a command before the supervisor knows of a failure"),
    "a full pipe holds nothing":
        (CHANGES.handler(Plain.HELD, lambda state, it: []), "a command while a report isn't sent"),
    "it ends before an end is recorded":
        (CHANGES.function("may_end", lambda state: state.status >= 0),
         "it ends before these ends are recorded"),
    "it ends while something is unseen":
        (CHANGES.changed("what_next", ends_while_unseen),
         "it ends while nobody else sees what is left"),
    "an end is forgotten with its worker":
        (CHANGES.handler(WorkerEnded, forgets_all(ORIGINAL[WorkerEnded])),
         "it ends before these ends are recorded"),
    "a worker is started while a command runs":
        (CHANGES.changed("what_next", starts_in_between),
         "a worker is started while a command of the former one runs"),
    "a restart counts as a first start":
        (CHANGES.changed("start_worker", forgets_the_kill), "a start of another kind"),
    "no pause":
        (CHANGES.function("restart", lambda state: runner_rules.start_worker(state)),
         "a worker is started again without a pause"),
    "unbegun without knowing":
        (CHANGES.changed("lost", says_unbegun), "unbegun of what was begun, or of what nobody knows"),
    "the timeout is no doubt":
        (lambda: mock.patch.dict(runner_rules.TIMERS, {TIMEOUT: keeps_time}),
         "another end than the command's"),
    "a signal isn't passed on":
        (CHANGES.handler(PassOn, lambda state, it: []), "a further signal isn't passed on"),
    "a stop doesn't end a wait":
        (CHANGES.handler(Plain.STOP, lambda state, it: setattr(state, "is_stopping", True) or []),
         "a worker waits at over"),
    "a line is never performed":
        (CHANGES.handler(Plain.ACKNOWLEDGED, lambda state, it: []), "a line waits for nothing"),
    "a worker doesn't wait":
        (CHANGES.function("over", goes_on_at_once),
         "a worker that performs nothing goes on at once"),
    "a round after a stop":
        (CHANGES.function("over", goes_on_at_once), "a round is begun after a stop"),
    "a worker waits for ever":
        (CHANGES.function("way", lambda state, word: []), "a worker waits at over"),
    "what a killed worker asked for is a doubt":
        (CHANGES.handler(WorkerEnded, drops_the_line), "it ends before these ends are recorded"),
}


class Orders(EveryOrder, unittest.TestCase):
    """Every order of up to six events from the first scene, and of four from the others."""

    scenes = {name: lambda given=given, events=events: after(World(**given), *events)
              for name, (given, events) in SCENES.items()}
    mistakes, depths = MISTAKES, (6, 4)


class Steps(unittest.TestCase):
    """Each action, and each branch that the search doesn't tell apart."""

    def setUp(self):
        self.state = State(SETTINGS)
        self.assertEqual(runner_rules.start_worker(self.state), [StartWorker(False)])

    def take(self, event):
        return runner_rules.take(self.state, event)

    def begin(self, serial=1):
        is_first = not self.state.is_in_round
        begin, *times = self.take(Said(PERFORM, serial, 7, b"pay"))
        self.assertEqual(begin, Begin(serial, 7, b"pay"))
        if is_first:
            self.assertEqual(times.pop(), Tell(Report(reports.ROUND)))
        return times

    def ended(self, status, serial=1):
        self.assertEqual(self.take(CommandEnded(status)), [Look(serial)])
        return self.take(Looked(serial, Rest.NOTHING))

    def test_each_end_of_a_command(self):
        for status, text, word in ((0, "done 1 0", "done"), (3, "done 1 3", "done"),
                                   (75, "untouched 1 75", "untouched"), (-9, "doubt 1", "doubt"),
                                   (None, "doubt 1", "doubt")):
            with self.subTest(status):
                self.setUp()
                self.begin()
                code = 0 if word == "doubt" else status
                report = Report(reports.ENDED, 1, 7, word, code)
                self.assertEqual(self.ended(status), [Answer(f"{text} go"), Tell(report)])

    def test_times_of_a_command(self):
        found = self.begin()
        self.assertEqual([it.timer for it in found], [MOMENT, TIMEOUT])
        runs = Tell(Report(reports.RUNS, 1, 7))
        self.assertEqual(self.take(Elapsed(MOMENT, 1)), [runs])
        term = [Send(1, signal.SIGTERM), Wait(GRACE, 1, SETTINGS.grace)]
        self.assertEqual(self.take(Elapsed(TIMEOUT, 1)), term)
        for _ in range(2):
            kill, again = self.take(Elapsed(GRACE, 1))
            self.assertEqual(kill, Send(1, signal.SIGKILL))
            self.assertEqual(again.timer, GRACE)
        answer, told = self.ended(0)
        self.assertEqual(answer, Answer("doubt 1 go"))
        self.assertTrue(told.report.is_late)

    def test_without_a_timeout_there_is_no_time(self):
        self.state.settings = Settings()
        self.assertEqual([it.timer for it in self.begin()], [MOMENT])

    def test_what_is_left_is_waited_for_and_then_runs(self):
        self.begin()
        self.take(CommandEnded(0))
        self.assertEqual(self.take(Looked(1, Rest.SEEN)), [Wait(LINGER, 1, SETTINGS.linger)])
        self.assertEqual(self.take(Looked(1, Rest.UNSEEN)), [])
        left = Tell(Report(reports.LEFT_BEHIND, 1, 7))
        self.assertEqual(self.take(Elapsed(LINGER, 1)), [Answer("running 1 go"), left])
        self.begin(2)
        self.assertEqual(self.take(Elapsed(MOMENT, 1)), [])  # it isn't the one that is waited for
        self.assertEqual(self.take(Looked(1, Rest.NOTHING)), [])
        self.assertEqual(self.ended(0, 2)[0], Answer("done 2 0 leave"))  # the next worker asks

    def test_what_is_left_of_a_late_command_is_killed_first(self):
        self.begin()
        self.take(CommandEnded(0))
        self.take(Looked(1, Rest.UNSEEN))
        self.take(Elapsed(TIMEOUT, 1))
        self.assertEqual(self.take(Elapsed(LINGER, 1)), [])
        found = self.take(Elapsed(GRACE, 1))
        self.assertEqual(found[-1], Wait(LINGER, 1, SETTINGS.linger))
        self.assertEqual(self.take(Elapsed(LINGER, 1))[0], Answer("running 1 go"))

    def test_the_timeout_holds_for_what_is_left(self):
        self.begin()
        self.take(CommandEnded(0))
        self.take(Looked(1, Rest.UNSEEN))
        self.take(Elapsed(LINGER, 1))
        self.assertEqual(self.take(Elapsed(TIMEOUT, 1))[0], Send(1, signal.SIGTERM))

    def test_a_line_that_cannot_be_started_stops(self):
        self.begin()
        told = Tell(Report(reports.UNBEGUN, 1, 7, text="why"))
        self.assertEqual(self.take(StartFailed("why")), [Answer("unbegun 1 leave"), told])
        self.assertTrue(self.state.is_stopping)

    def test_questions(self):
        self.assertEqual(self.take(Said(WAS, 1, 7)), [Look(1)])
        self.assertEqual(self.take(Looked(1, Rest.SEEN)), [Answer("running 1 go")])
        self.take(Said(WAS, 2, 8))
        lost = Tell(Report(reports.LOST, 2, 8))
        self.assertEqual(self.take(Looked(2, Rest.NOTHING)), [Answer("doubt 2 go"), lost])

    def test_an_attempt_that_no_worker_has_said_was_not_begun(self):
        self.begin(4)
        self.ended(0, 4)
        self.take(WorkerEnded(KILLED, ""))
        self.take(Elapsed(PAUSE, 0))
        self.take(Said(WAS, 4, 7))
        self.take(Said(WAS, 5, 8))
        self.assertEqual(self.take(Looked(5, Rest.NOTHING)), [Answer("unbegun 5 go")])
        self.take(Said(WAS, 3, 8))
        self.assertEqual(self.take(Looked(3, Rest.NOTHING))[0], Answer("doubt 3 go"))

    def test_an_answer_that_was_not_recorded_is_given_again(self):
        self.begin()
        self.ended(0)
        self.assertEqual(self.take(Plain.UNANSWERED), [])
        self.take(WorkerEnded(75, ""))
        self.take(Elapsed(PAUSE, 0))
        self.assertEqual(self.take(Said(WAS, 1, 7)), [Answer("done 1 0 go")])

    def test_an_answer_that_a_worker_recorded_is_forgotten(self):
        self.begin()
        self.ended(0)
        self.take(WorkerEnded(75, ""))
        self.assertEqual(self.state.seen, {})

    def test_pauses_are_doubled_until_the_worker_says_something_new(self):
        seconds = []
        for _ in range(8):
            *_, wait = self.take(WorkerEnded(KILLED, ""))
            seconds.append(wait.seconds)
            self.assertEqual(self.take(Elapsed(PAUSE, 0)), [StartWorker(True)])
        self.assertEqual(seconds, [0.1, 0.2, 0.4, 0.8, 1.6, 3.2, 4.0, 4.0])
        self.begin()
        self.ended(0)
        self.assertEqual(self.take(WorkerEnded(75, ""))[0].seconds, 0.1)

    def test_a_worker_that_hears_running_says_nothing_new(self):
        for wanted in (0.1, 0.2, 0.4):
            self.take(Said(WAS, 1, 7))
            self.take(Looked(1, Rest.SEEN))
            self.assertEqual(self.take(WorkerEnded(75, ""))[0].seconds, wanted)
            self.take(Elapsed(PAUSE, 0))

    def test_a_worker_whose_part_is_over_goes_on_at_once_and_then_waits(self):
        tells = Tell(Report(reports.ROUND))
        for _ in range(2):
            self.assertEqual(self.take(Said(PERFORM, 1, 7, b"pay"))[-1], tells)
            self.ended(0)
            self.assertNotIn(tells, self.take(Said(PERFORM, 2, 7, b"pay")))
            self.ended(0, 2)
            self.assertEqual(self.take(Said("over")), [Answer("go"), tells])
            for seconds in (0.1, 0.2):
                self.assertEqual(self.take(Said("over")), [Wait(PAUSE, 0, seconds)])
                self.assertEqual(self.take(Elapsed(PAUSE, 0)), [Answer("go")])
        self.assertEqual(self.take(Said(PERFORM, 3, 7, b"pay"))[-1], tells)
        self.ended(0, 3)
        self.take(WorkerEnded(75, ""))
        self.take(Elapsed(PAUSE, 0))
        self.assertEqual(self.take(Said(PERFORM, 4, 7, b"pay"))[-1], tells)

    def test_news_end_a_pause(self):
        self.take(Said("over"))
        self.assertEqual(self.take(Plain.NEWS), [Answer("go")])
        self.take(WorkerEnded(75, ""))
        self.assertEqual(self.take(Plain.NEWS), [StartWorker(False)])
        self.assertEqual(self.take(Plain.NEWS), [])

    def test_a_worker_that_waits_leaves_if_an_end_was_found(self):
        self.state.attempts[1] = Attempt(7, 0)
        self.take(Said("over"))
        self.take(Looked(1, Rest.NOTHING))
        self.assertEqual(self.take(Elapsed(PAUSE, 0)), [Answer("leave")])
        self.state.has_worker = True
        self.assertEqual(self.take(Said("over")), [Answer("leave")])

    def test_last_statuses(self):
        for status in (0, 65, 69, 70, 73, 74, 76, 77):
            with self.subTest(status):
                self.setUp()
                if status == 69:
                    self.take(Plain.STOP)
                told, end = self.take(WorkerEnded(status, "why"))
                self.assertEqual(told, Tell(Report(reports.OVER, code=status, text="why")))
                self.assertEqual(end, End(status))
                self.assertEqual(self.take(Plain.STOP), [])
        for status in (71, 75, -9):
            self.setUp()
            self.assertEqual(self.take(WorkerEnded(status, ""))[-1].timer, PAUSE)
            self.assertEqual(self.take(Plain.STOP)[-1], End(status))

    def test_a_worker_without_memory_is_told_once_and_tried_until_a_stop(self):
        tries = Tell(Report(reports.SHORT, text="out of memory"))
        for told in ([tries], [], []):
            *found, wait = self.take(WorkerEnded(71, "out of memory"))
            self.assertEqual((found, wait.timer), (told, PAUSE))
            self.take(Elapsed(PAUSE, 0))
        self.take(WorkerEnded(71, "out of memory"))
        self.assertEqual(self.take(Plain.STOP)[-1], End(71))

    def test_a_worker_that_is_always_killed_is_told_once_and_tried_until_a_stop(self):
        said = []
        for _ in range(12):
            said.append([it.report.text for it in self.take(WorkerEnded(-9, ""))
                         if isinstance(it, Tell)])
            self.take(Elapsed(PAUSE, 0))
        self.assertEqual(said, [[]] * 7 + [["amo_worker has ended with status -9"]] + [[]] * 4)

    def test_an_end_that_is_not_recorded_is_told_once(self):
        self.begin()
        self.ended(0)
        tries = Tell(Report(reports.TRIES, code=1, text="full"))
        self.assertEqual(self.take(WorkerEnded(73, "full"))[0], tries)
        self.take(Elapsed(PAUSE, 0))
        self.assertEqual(len(self.take(WorkerEnded(73, "full"))), 1)

    def test_at_last_it_waits_for_what_only_it_sees(self):
        self.begin()
        self.take(CommandEnded(0))
        self.take(Looked(1, Rest.UNSEEN))
        self.take(Elapsed(LINGER, 1))
        self.assertEqual(self.take(WorkerEnded(0, "")), [Tell(Report(reports.WAITS))])
        self.assertEqual(self.take(Looked(1, Rest.UNSEEN)), [])
        self.assertEqual(self.take(PassOn(signal.SIGINT)), [Send(1, signal.SIGTERM)])
        self.assertEqual(self.take(Looked(1, Rest.SEEN))[-1], End(0))

    def test_what_ends_at_last_is_recorded(self):
        self.begin()
        self.take(CommandEnded(0))
        self.take(Looked(1, Rest.UNSEEN))
        self.take(Elapsed(LINGER, 1))
        self.take(WorkerEnded(0, ""))
        self.assertEqual(self.take(Looked(1, Rest.NOTHING))[0].timer, PAUSE)
        self.take(Elapsed(PAUSE, 0))
        self.assertEqual(self.take(Said(WAS, 1, 7))[0], Answer("done 1 0 go"))
        self.assertEqual(self.take(WorkerEnded(0, ""))[-1], End(0))

    def test_deserted(self):
        self.begin()
        self.take(Plain.HELD)
        self.assertEqual(self.take(Plain.DESERTED), [])
        self.assertEqual(self.ended(3)[0], Answer("done 1 3 leave"))
        self.assertEqual(self.take(Said(PERFORM, 2, 8)), [Answer("unbegun 2 leave")])

    def test_events_without_a_command_do_nothing(self):
        for event in (StartFailed("why"), CommandEnded(0), Elapsed(TIMEOUT, 3),
                      Looked(3, Rest.NOTHING), Looked(3, Rest.SEEN)):
            self.assertEqual(self.take(event), [], event)


if __name__ == "__main__":
    unittest.main()
