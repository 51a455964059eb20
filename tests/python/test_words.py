"""The checks of the words of the command lines of amo_jobs and amo_share."""

import argparse
import contextlib
import io
import os
import shlex
import unittest
from unittest import mock

import package  # noqa: F401

from amo_jobs import cli, settings, share
from amo_jobs.chunk import Sharing
from amo_jobs.messages import End
from amo_jobs.settings import Settings
from amo_jobs.statuses import Status

ID = "0123456789abcdef" * 2


def message(call, *given):
    """Returns the message of a usage error."""
    try:
        call(*given)
    except argparse.ArgumentTypeError as error:
        return str(error)
    except End as end:
        assert end.status == Status.WORDS, end.status
        return end.text
    return None


class Readers(unittest.TestCase):
    def test_a_number_may_be_each_end_of_its_range(self):
        read = cli.within(int, 1, 16)
        self.assertEqual([read("1"), read("16")], [1, 16])
        self.assertEqual(cli.within(float, 0, 1e8)("0.5"), 0.5)

    def test_any_other_number_or_text_is_refused(self):
        for word in ("0", "17", "1.5", "", "x", "1e1", "nan"):
            self.assertEqual(message(cli.within(int, 1, 16), word),
                             f"`{word}` isn't valid; give a whole number from 1 to 16")
        for word in ("-1", "nan", "inf", "1e9"):
            self.assertEqual(message(cli.within(float, 0, 1e8), word),
                             f"`{word}` isn't valid; give a number from 0 to 100000000")

    def test_codes_are_statuses_with_commas_between(self):
        self.assertEqual(cli.codes("75,76,75"), {75, 76})
        for word in ("0", "256", "75,", "75 76", ""):
            self.assertIn("give a whole number from 1 to 255", message(cli.codes, word))

    def test_an_old_id_is_an_id_or_1(self):
        self.assertEqual([cli.old_id(ID), cli.old_id("1")], [ID, "1"])
        for word in ("", "2", ID[1:], ID + "0", ID.upper(), f"{ID}\n"):
            self.assertIn("is no id of a run; give the 32 hex digits", message(cli.old_id, word))

    def test_words_are_read_as_by_a_shell(self):
        self.assertEqual(share.words_of("a 'b c' \"d\""), ["a", "b c", "d"])
        self.assertEqual(message(share.words_of, "a 'b"),
                         "`a 'b` has a quote without its end; close the quote")


class Commands(unittest.TestCase):
    def test_a_job_is_an_argument_of_its_own(self):
        for command in (["pay"], ["pay", "{}"], ["sh", "-c", "x", "{}", "{}"], ["pay", "{", "}"]):
            self.assertIsNone(message(cli.refuse_command, Settings("crew", command=command)))

    def test_a_job_within_an_argument_is_refused(self):
        for word in ("{}x", "--to={}", "{}{}", "a\n{}"):
            text = message(cli.refuse_command, Settings("crew", command=["sh", "{}", word]))
            self.assertIn("it has {} in it, and a shell would read the job's text", text)
            self.assertNotIn("\n", text)

    def test_a_job_isnt_the_program(self):
        self.assertIn("a job can't be the program itself",
                      message(cli.refuse_command, Settings("crew", command=["{}", "x"])))

    def test_a_command_is_needed(self):
        self.assertTrue(message(cli.refuse_command, Settings("work")).startswith(
            "`work`: the command is missing; give it after --"))


class OwnName(unittest.TestCase):
    def refused(self, program, *names):
        return message(cli.refuse_own_name, Settings("crew", command=[program], may_leave=names))

    def test_the_commands_own_program_may_not_be_left(self):
        real = os.path.basename(os.path.realpath("/bin/sh"))
        for program, name in (("./ssh", "ssh"), ("ssh", "ssh"), ("sh", real), ("/bin/sh", real)):
            self.assertIn(f"--may-leave `{name}`: it is the command's own program",
                          self.refused(program, "gpg-agent", name))

    def test_another_program_may_be_left(self):
        self.assertIsNone(self.refused("./pay", "gpg-agent", "ssh"))
        self.assertIsNone(self.refused("ssh"))


class Words(unittest.TestCase):
    def refused(self, what, left=(), **given):
        return message(cli.refuse_words, Settings(what, **given), list(left))

    def test_a_further_word_is_refused_with_its_remedy(self):
        self.assertEqual(self.refused("status", ["two"], jobs="one"),
                         "argument `two`: `status` doesn't take it; see amo_jobs status --help")
        self.assertEqual(self.refused("answer", ["--now"], jobs="one"),
                         "argument `--now`: `answer` doesn't take it; give options before --")
        self.assertIn("give the command after --, as in: amo_jobs crew",
                      self.refused("crew", ["pay"], jobs="one"))

    def test_a_list_is_needed_to_run_or_forget_it(self):
        for what in ("crew", "work", "forget"):
            self.assertIn(f"`{what}`: the list is missing", self.refused(what, run="/run"))

    def test_the_others_need_a_list_or_a_folder(self):
        for what in ("status", "doubts", "again"):
            self.assertIn("give JOBS or --run DIR, as in", self.refused(what))
            self.assertIsNone(self.refused(what, run="/run"))
            self.assertIsNone(self.refused(what, jobs="list"))

    def test_an_answer_needs_four_words_or_a_file(self):
        four = ["1.2", "3", "text", "done"]
        self.assertIn("give JOBS or --run DIR, P.S LINE TEXT and the answer, as in",
                      self.refused("answer", words=four))
        self.assertIn("give JOBS or --run DIR, as in", self.refused("answer", source="file"))
        self.assertIsNone(self.refused("answer", jobs="list", words=four))
        self.assertIsNone(self.refused("answer", jobs="list", source="file"))
        for words in (four[:3], []):
            self.assertIn("or --from FILE", self.refused("answer", jobs="list", words=words))

    def test_the_answer_stands_last_and_its_placeholder_is_refused(self):
        for word in ("--now", "ANSWER", "Done", "done|not-done", ""):
            self.assertEqual(
                self.refused("answer", run="/run", words=["3", "text", "not-done", word]),
                f"answer `{word}`: it isn't valid; write done if it happened, not-done if it surely"
                " did not, and options before --")

    def test_the_text_of_an_answer_is_one_line(self):
        words = ["1.2", "3", "a\nb", "done"]
        self.assertIn("text `a\\nb`: no line holds a line feed",
                      self.refused("answer", jobs="list", words=words))

    def test_a_worker_is_one_of_the_workers(self):
        self.assertIsNone(self.refused("work", jobs="list", worker=3, workers=3))
        self.assertIn("`4` is more than --workers 3",
                      self.refused("work", jobs="list", worker=4, workers=3))


class Parsed(unittest.TestCase):
    def test_the_help_states_the_defaults_that_the_settings_have(self):
        stated = {option: how["help"].rpartition("(default: ")[2].rstrip(")")
                  for _, option, how in cli.OPTIONS if "(default: " in how.get("help", "")}
        for name in ("beta", "grace", "linger", "quiet"):
            self.assertEqual(stated[f"--{name}"], f"{getattr(Settings(), name)}")
        self.assertIsNone(Settings().timeout)
        self.assertIsNone(Settings().halt)

    def test_options_that_arent_given_keep_their_defaults(self):
        words = "crew --workers 2 --grace 1.5 /no/list -- pay {}".split()
        with mock.patch("os.path.realpath", lambda it: f"/real{it}"):
            found = cli.settings_of(words)
        wanted = Settings(
            what="crew", command=["pay", "{}"], options=words[:6], asked="/no/list", jobs="/real/no/list",
            mark="/real/no/list.run-is", run="/real/no/list.run", results="/real/no/list.run",
            names=["/no/list"], workers=2, grace=1.5)
        self.assertEqual(vars(found), vars(wanted))

    def test_settings_share_no_list(self):
        Settings().words.append("x")
        self.assertEqual(Settings().words, [])

    def test_each_option_is_a_setting(self):
        fields = set(vars(Settings()))
        for _, option, how in cli.OPTIONS:
            self.assertIn(how.get("dest", option[2:].replace("-", "_")), fields)

    def test_the_words_of_an_answer_follow_the_list(self):
        found = cli.settings_of(["answer", "--now", "/l", "1.2", "3", "text", "done"])
        self.assertEqual((found.asked, found.words, found.now),
                         ("/l", ["1.2", "3", "text", "done"], True))
        found = cli.settings_of(["answer", "--run", "/r", "--", "1.2", "3", "--now", "done"])
        self.assertEqual((found.asked, found.mark, found.run, found.words, found.now),
                         ("", "", "/r", ["1.2", "3", "--now", "done"], False))

    def test_each_example_of_the_help_is_taken(self):
        for name, (_, *examples) in cli.ABOUT.items():
            for it in examples:
                words = shlex.split(it.partition(" > ")[0])
                self.assertEqual(cli.settings_of(words).what, name)
        # an option after the list, as the usage had it, is refused
        with contextlib.redirect_stderr(io.StringIO()), self.assertRaises(SystemExit):
            cli.settings_of(["answer", "/l", "--now", "1.2", "3", "text", "done"])

    def test_the_usage_of_an_answer_is_taken(self):
        usage = next(it for it in cli.__doc__.splitlines() if "amo_jobs answer" in it)
        words = usage.replace("[--quiet SECONDS | --now]", "--quiet 9")
        words = words.replace("[--run DIR | JOBS]", "/l").replace("ANSWER", "not-done").split()
        found = cli.settings_of(words[1:])
        self.assertEqual((found.quiet, found.asked, found.words),
                         (9, "/l", ["P.S", "LINE", "TEXT", "not-done"]))

    def test_an_unknown_command_is_a_usage_error(self):
        with contextlib.redirect_stderr(io.StringIO()):
            self.assertEqual(cli.main(["pay"]), Status.WORDS)
            self.assertEqual(cli.main(["crew", "--workers", "17", "l", "--", "pay"]), Status.WORDS)

    def test_the_next_command_names_the_same_run(self):
        with mock.patch("sys.argv", ["./amo_jobs"]), \
                mock.patch.object(settings.Program, "own", return_value="/own"):
            for given, wanted in [
                    (dict(jobs="my list"), "'my list'"),
                    (dict(jobs="l", run="/r"), "--run /r"), (dict(run="-r"), "--run=-r"),
                    (dict(jobs="l", file_system="overlay"), "--file-system overlay l"),
                    (dict(jobs="l", worker_program="/own"), "l"),
                    (dict(jobs="l", worker_program="./w"), "--worker-program ./w l")]:
                found = Settings(**given)
                found.names = settings.names_of_run(found)
                self.assertEqual(settings.next_command(found, "doubts"),
                                 f"./amo_jobs doubts {wanted}")


class Shared(unittest.TestCase):
    def refused(self, **given):
        usual = dict(name="tonight", claim=["stores/etcd"], command=["pay"])
        return message(share.refuse_words, Sharing(**{**usual, **given}))

    def test_a_name_has_up_to_64_letters_of_a_few(self):
        for name in ("a", "A-b.c_9", "_", "x" * 64):
            self.assertIsNone(self.refused(name=name), name)
        for name in ("", ".a", "-a", "a/b", "a b", "é", "x" * 65, "a\n"):
            self.assertIn("argument --name", self.refused(name=name), name)

    def test_each_part_is_needed(self):
        self.assertIn("argument --claim: it is empty", self.refused(claim=[]))
        self.assertIn("command: it is missing", self.refused(command=[]))
        self.assertIn("`--results` isn't possible here", self.refused(crew=["--results", "/r"]))

    def test_a_status_has_three_options(self):
        found = share.sharing_of(["status", "--run", "/r"])
        self.assertEqual(found, Sharing(is_status=True, run="/r"))


if __name__ == "__main__":
    unittest.main()
