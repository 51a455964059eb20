"""Reports and orders between a runner and its supervisor, and the words that a runner gets."""

import fcntl
import os
import unittest
from unittest import mock

import package  # noqa: F401
from amo_jobs import crew_rules, reports
from amo_jobs.cli import settings_of
from amo_jobs.crew import OwnDesk, words_of
from amo_jobs.desk import SupervisedDesk
from amo_jobs.messages import Screen
from amo_jobs.reports import line_of, Report, report_of
from amo_jobs.runner_state import PassOn, Plain
from amo_jobs.settings import Settings

GOOD = Report(reports.ENDED, 1, 7, "done", 0)
SET_PIPE_SIZE, PAGE = 1031, 4096  # of fcntl


class Pipes(unittest.TestCase):
    """A runner's side of the two pipes."""

    def setUp(self):
        self.reports, out = os.pipe()
        orders, self.orders = os.pipe()
        fcntl.fcntl(out, SET_PIPE_SIZE, PAGE)
        self.desk = SupervisedDesk(3, out, orders)
        self.open = [self.reports, self.orders]

    def tearDown(self):
        for file in [*self.open, *self.desk.out.files, *self.desk.orders.files]:
            os.close(file)

    def close(self, file):
        self.open.remove(file)
        os.close(file)

    def events(self):
        found, self.desk.events = self.desk.events, []
        return found

    def test_reports_come_as_they_were_sent(self):
        many = [GOOD, Report(reports.SAYS, text="a\nb \"c\" \udcff ü"),
                Report(reports.OVER, code=-9)]
        for it in many:
            self.desk.report(it)
        lines = os.read(self.reports, 1 << 16).splitlines()
        self.assertEqual([report_of(it) for it in lines], many)
        self.assertEqual(self.events(), [])

    def test_a_line_that_is_no_report_is_refused(self):
        for line in (b"", b"{}", b"[1]", line_of(GOOD)[:-3]):
            self.assertRaises(ValueError, report_of, line)

    def test_a_full_pipe_holds_the_runner_and_loses_nothing(self):
        count = 3 * PAGE // len(line_of(GOOD))
        for number in range(count):
            self.desk.report(GOOD._replace(serial=number))
        self.assertEqual(self.events(), [Plain.HELD])
        self.assertEqual(self.desk.files()[1], self.desk.out.files)
        data = b""
        while self.desk.out.unsent:
            data += os.read(self.reports, 1 << 16)
            self.desk.exchange(frozenset(self.desk.out.files))
        data += os.read(self.reports, 1 << 16)
        self.assertEqual(self.events(), [Plain.SENT])
        self.assertEqual(self.desk.files()[1], [])
        self.assertEqual([report_of(it).serial for it in data.splitlines()], list(range(count)))

    def test_orders_are_events(self):
        os.write(self.orders, b"go\nstop\nnews\npa")
        self.desk.exchange(frozenset(self.desk.orders.files))
        os.write(self.orders, b"ss 15\n")
        self.desk.exchange(frozenset(self.desk.orders.files))
        self.assertEqual(self.events(),
                         [Plain.ACKNOWLEDGED, Plain.STOP, Plain.NEWS, PassOn(15)])

    def test_the_end_of_the_orders_is_the_supervisors(self):
        self.close(self.orders)
        self.desk.exchange(frozenset(self.desk.orders.files))
        self.assertEqual(self.events(), [Plain.DESERTED])
        self.assertEqual(self.desk.files(), ([], []))
        self.desk.report(GOOD)
        self.desk.close()

    def test_so_are_reports_that_nobody_reads(self):
        self.close(self.reports)
        self.desk.report(GOOD)
        self.assertEqual(self.events()[0], Plain.DESERTED)

    def test_a_signal_stops_the_runner_and_is_reported(self):
        self.desk.signalled(15)
        self.assertEqual(self.events(), [Plain.STOP])
        found = report_of(os.read(self.reports, 1 << 16))
        self.assertEqual((found.kind, found.code), (reports.ASKED, 15))


class Own(unittest.TestCase):
    """A runner without a supervisor."""

    @mock.patch.object(Screen, "tell")
    def test_the_rules_of_a_crew_give_the_orders(self, tell):
        state = crew_rules.State(Settings(halt=2), "status", {3: crew_rules.Number()})
        crew_rules.take(state, crew_rules.Locked(3))
        desk = OwnDesk(3, state, None)
        desk.report(GOOD)
        self.assertEqual(desk.events, [])
        desk.take(crew_rules.Reported(3, GOOD._replace(word="untouched", code=75)))
        self.assertEqual(desk.events, [])
        desk.signalled(15)
        desk.signalled(2)
        self.assertEqual(desk.events, [Plain.STOP, PassOn(2)])
        desk.take(crew_rules.Reported(3, Report(reports.OVER, code=69)))
        desk.take(crew_rules.RunnerEnded(3, 0))
        self.assertIsNone(desk.status)
        self.assertEqual(len(tell.mock_calls), 3)


class WordsOfRunners(unittest.TestCase):
    """The knowledge of a runner about its crew."""

    def test_a_runner_has_the_settings_of_its_crew(self):
        options = ["--timeout", "2.5", "--grace", "0.1", "--linger", "0", "--untouched", "75,76",
                   "--may-leave", "ssh,-x", "--file-system", "tmpfs", "--beta", "3", "--halt", "4"]
        for more in ([], options):
            crew = settings_of(["crew", "--workers", "4", *more, "a list", "--", "pay", "--", "{}"])
            crew.id = "0" * 32
            words = ["work", "--as=1.2", "--worker=3", *words_of(crew, "/worker")]
            runner = settings_of(words)
            same = ("command jobs run results file_system id workers beta timeout grace linger"
                    " untouched may_leave").split()
            for name in same:
                self.assertEqual(getattr(runner, name) or (), getattr(crew, name) or (), name)
            self.assertEqual((runner.worker, runner.caller), (3, "1.2"))
            self.assertEqual(runner.worker_program, "/worker")


if __name__ == "__main__":
    unittest.main()
