"""Manual pages and completions: how tools/manual makes them, and whether bash and zsh complete."""

import argparse
import glob
import os
import pty
import re
import shutil
import subprocess
import sys
import tempfile
import threading
import unittest

from package import ROOT

sys.path.insert(0, f"{ROOT}/tools/manual")

import helps
import pages
import roff
from amo_jobs import cli, share

COMPLETIONS = f"{ROOT}/completions"
# Prints what bash offers for the last word of a call. The arguments are the file and the call.
IN_BASH = """
. "$1" || exit 1
shift
COMP_WORDS=("$@") COMP_CWORD=$(($# - 1)) COMPREPLY=()
read -r _ _ function _ <<< "$(complete -p "${1##*/}")"
"$function" "$1" "${COMP_WORDS[COMP_CWORD]}" "${COMP_WORDS[COMP_CWORD - 1]}"
[ "${#COMPREPLY[@]}" -eq 0 ] || printf '%s\\n' "${COMPREPLY[@]}"
"""
# The settings of a zsh that completes one line, writes what it offers, and ends.
IN_ZSH = r"""
fpath=($AMO_FOLDER $fpath)
autoload -Uz compinit
compinit -u -d $AMO_DUMP
PROMPT='ready>'
bindkey '^I' complete-word
zstyle ':completion:*' insert-tab false
compadd() {
  local -a found
  if [[ ${@[1,(i)(-|--)]} != *-(O|A|D)\ * ]]; then
    builtin compadd -A found "$@"
    (( $#found )) && print -rl -- $found >> $ZDOTDIR/offered
  fi
  builtin compadd "$@"
}
ended() { print -r -- . >> $ZDOTDIR/offered; exit }
comppostfuncs=(ended)
"""
PATIENCE = 60  # seconds, for a shell that hangs


def by_bash(folder: str, *words: str) -> set[str]:
    """Returns what bash offers for the last word of a call."""
    ran = subprocess.run(["bash", "--norc", "-c", IN_BASH, "bash", f"{folder}/amo.bash", *words],
                         cwd=ROOT, stdin=subprocess.DEVNULL, stdout=subprocess.PIPE, check=True,
                         encoding="utf-8", timeout=PATIENCE)
    return set(ran.stdout.splitlines())


def typed(main: int, line: str) -> None:
    """Types a line once the shell prints its prompt, and reads until the shell has ended."""
    seen = b""
    try:
        while b"ready>" not in seen:
            seen += os.read(main, 4096)
        os.write(main, f"{line}\t".encode())
        while os.read(main, 4096):
            pass
    except OSError:  # the shell has closed its terminal
        pass


def by_zsh(dump: str, folder: str, *words: str) -> set[str]:
    """Returns what zsh offers for the last word of a call. It needs a terminal to complete. The
    file `dump` has which functions there are, so that zsh needn't look for them each time."""
    with tempfile.TemporaryDirectory() as room:
        with open(f"{room}/.zshrc", "w", encoding="ascii") as file:
            file.write(IN_ZSH)
        main, side = pty.openpty()
        names = {"PATH": os.environ["PATH"], "TERM": "dumb", "ZDOTDIR": room, "HOME": room,
                 "AMO_DUMP": dump, "AMO_FOLDER": folder, "LC_ALL": "C.UTF-8"}
        shell = subprocess.Popen(["zsh", "-i"], stdin=side, stdout=side, stderr=side, env=names,
                                 cwd=ROOT, start_new_session=True)
        os.close(side)
        alarm = threading.Timer(PATIENCE, shell.kill)
        alarm.start()
        typed(main, " ".join(words))
        shell.wait()
        alarm.cancel()
        os.close(main)
        with open(f"{room}/offered", encoding="utf-8") as file:
            offered = file.read().splitlines()
    assert offered[-1:] == ["."], "zsh hasn't completed the line"
    return set(offered[:-1])


def options_of(command: str) -> set[str]:
    """Returns the options of a command of amo_jobs that its parser shows."""
    return {name for names, name, how in cli.OPTIONS
            if command in names and how.get("help") != argparse.SUPPRESS}


def options_of_worker(command: str) -> set[str]:
    """Returns the options of a command of amo_worker, as its sources list them."""
    with open(f"{ROOT}/crates/amo_worker_args/src/command_line.rt", encoding="utf-8") as file:
        rows = re.findall(r'name: "([\w-]+)",\s*commands: &\[(.*?)\],\s*kind: Kind::(\w+)',
                          file.read(), re.S)
    return {f"--{name}" for name, commands, kind in rows
            if f'"{command}"' in commands and kind not in ("Required", "Optional")}


class Completing:
    """What a shell offers. The options come from the parsers, and not from the help texts."""

    def offers(self, *words: str) -> set[str]:
        raise NotImplementedError

    def test_a_program_offers_its_commands(self) -> None:
        self.assertLessEqual({*cli.CALLS}, self.offers("amo_jobs", ""))
        self.assertEqual({"stops"}, self.offers("amo", "st"))
        self.assertEqual({"door", "doubts"}, self.offers("amo_worker", "do"))

    def test_a_command_offers_just_its_options(self) -> None:
        for command in ("crew", "answer", "forget"):
            with self.subTest(command):
                offered = self.offers("amo_jobs", command, "--")
                self.assertEqual(options_of(command), offered - {"--help"})

    def test_a_command_of_amo_worker_offers_just_its_options(self) -> None:
        for command in ("door", "lines", "status"):
            with self.subTest(command):
                offered = self.offers("amo_worker", command, "--")
                self.assertEqual(options_of_worker(command), offered - {"--help"})

    def test_a_path_to_a_program_counts_as_the_program(self) -> None:
        self.assertEqual({"crew"}, self.offers("./amo_jobs", "cr"))

    def test_the_options_of_amo_share_are_offered(self) -> None:
        due = {name for name, _ in share.OPTIONS if name.startswith("--")}
        self.assertEqual(due, self.offers("amo_share", "--") - {"--help", "--version"})

    def test_an_option_of_a_file_offers_files(self) -> None:
        self.assertIn("README.md", self.offers("amo_jobs", "crew", "--metrics", "READ"))

    def test_an_option_of_a_folder_offers_no_file(self) -> None:
        self.assertEqual({"docs"}, self.offers("amo_jobs", "crew", "--run", "doc"))
        self.assertEqual(set(), self.offers("amo_jobs", "crew", "--run", "READ"))

    def test_an_option_of_a_number_offers_nothing(self) -> None:
        self.assertEqual(set(), self.offers("amo_jobs", "crew", "--workers", ""))

    def test_the_kinds_of_lines_are_offered(self) -> None:
        kinds = {"done", "failed", "doubt", "untouched", "running", "open"}
        self.assertEqual(kinds, self.offers("amo_jobs", "status", "--lines", ""))
        self.assertEqual(kinds, self.offers("amo_worker", "status", "--lines", ""))

    def test_the_list_is_a_file(self) -> None:
        self.assertIn("README.md", self.offers("amo_jobs", "crew", "--workers", "2", "READ"))
        self.assertIn("README.md", self.offers("amo_worker", "door", "docs", "READ"))

    def test_the_answers_are_offered_after_the_text(self) -> None:
        call = ("tonight.txt", "3.17", "401", "rent")
        self.assertEqual({"done", "not-done"}, self.offers("amo_jobs", "answer", *call, ""))
        self.assertEqual({"done", "not-done"}, self.offers("amo_worker", "answer", *call, ""))

    def test_a_program_is_offered_after_two_dashes(self) -> None:
        self.assertIn("seq", self.offers("amo_jobs", "crew", "README.md", "--", "se"))
        self.assertIn("README.md", self.offers("amo_jobs", "crew", "x", "--", "cat", "READ"))

    def test_an_option_that_is_lost_is_noticed(self) -> None:
        with tempfile.TemporaryDirectory() as room:
            for path in glob.glob(f"{COMPLETIONS}/*"):
                with open(path, encoding="utf-8") as file:
                    text = file.read()
                with open(f"{room}/{os.path.basename(path)}", "w", encoding="utf-8") as file:
                    file.write(re.sub(r",--linger|\n *'--linger=.*", "", text))
            self.folder = room
            lost = options_of("crew") - self.offers("amo_jobs", "crew", "--")
            self.assertEqual({"--linger"}, lost)


class InBash(Completing, unittest.TestCase):
    """The completions for bash."""
    folder = COMPLETIONS

    def offers(self, *words: str) -> set[str]:
        return by_bash(self.folder, *words)

    def test_bash_splits_a_value_after_an_equals_sign(self) -> None:
        self.assertEqual({"docs"}, self.offers("amo_jobs", "crew", "--run", "=", "doc"))


@unittest.skipUnless(shutil.which("zsh"), "zsh isn't installed: apt-get install zsh")
class InZsh(Completing, unittest.TestCase):
    """The completions for zsh."""
    folder = COMPLETIONS

    @classmethod
    def setUpClass(cls) -> None:
        cls.room = tempfile.TemporaryDirectory()
        cls.addClassCleanup(cls.room.cleanup)

    def offers(self, *words: str) -> set[str]:
        return by_zsh(f"{self.room.name}/dump", self.folder, *words)


def option(name: str, text: str, default: str = "") -> helps.Option:
    return helps.Option((name,), "", text, default)


def command(name: str, *options: helps.Option) -> helps.Command:
    return helps.Command("mow", name, (f"mow {name}",), f"mows a {name}", (), options)


HELP = option("--help", "print help")
QUICK = option("--quick", "mow quickly", "slowly")
PROGRAM = {"mow": [command("", HELP), command("lawn", HELP, QUICK), command("meadow", HELP, QUICK),
                   command("field", HELP, option("--quick", "mow it all", "half"))]}
HEAD = "mow(1): mow\ndate: 2026-11-30\n\n# Options\n\n"
ALL = ["{options every}", "{options field}"]


def page(*parts: str) -> str:
    """Returns the page that these parts of a source make."""
    return pages.page_of(HEAD + "\n\n".join(parts) + "\n", PROGRAM, "1.0")


def shown(text: str) -> str:
    """Returns a page as a reader sees it."""
    return subprocess.run(["groff", "-man", "-Tutf8", "-P-cbou"], input=text, check=True,
                          stdout=subprocess.PIPE, encoding="utf-8").stdout


class Making(unittest.TestCase):
    """Pages of a program that is made up."""

    def test_an_option_that_one_command_has_otherwise_stands_with_that_command(self) -> None:
        self.assertEqual({frozenset(["every"]): [HELP, QUICK],
                          frozenset(["field"]): [option("--quick", "mow it all", "half")]},
                         pages.groups_of(PROGRAM["mow"]))

    def test_a_page_that_shows_an_option_nowhere_is_refused(self) -> None:
        with self.assertRaisesRegex(pages.Wrong, r"nowhere: \{options field\}"):
            page(ALL[0])

    def test_options_of_other_commands_are_refused(self) -> None:
        with self.assertRaisesRegex(pages.Wrong, "just these commands"):
            page(*ALL, "{options lawn}")

    def test_options_in_two_places_are_refused(self) -> None:
        with self.assertRaisesRegex(pages.Wrong, "twice"):
            page(*ALL, ALL[0])

    def test_more_on_an_option_that_the_group_lacks_is_refused(self) -> None:
        with self.assertRaisesRegex(pages.Wrong, "--slow"):
            page(ALL[0], "- --slow: Take your time.", ALL[1])

    def test_a_default_is_a_sentence(self) -> None:
        self.assertIn("\nMow quickly.\nDefault: slowly.\n", page(*ALL))

    def test_a_directive_that_is_unknown_is_refused(self) -> None:
        with self.assertRaisesRegex(pages.Wrong, "no directive"):
            page(*ALL, "{optoins every}")

    def test_the_mark_of_an_example_is_shown(self) -> None:
        for mark in ("{run}", "{run 2 0}", "{not run: it needs\nroot}", "{text}"):
            self.assertEqual(page(*ALL, "    mow"), page(*ALL, mark, "    mow"))

    def test_a_list_whose_item_has_no_text_is_refused(self) -> None:
        with self.assertRaisesRegex(pages.Wrong, "list of items"):
            page(*ALL, "- one: A text.\n- two")

    def test_each_sentence_begins_a_line(self) -> None:
        self.assertEqual(["One is here.", r"\fBTwo\fR is there!", "Three?"],
                         roff.filled("One is here. **Two** is there! Three?"))

    def test_a_name_in_a_sentence_is_never_hyphenated(self) -> None:
        self.assertEqual(r"Read \%\fBdocs/follow.schema.json\fR, and \%\fBamo\fR(1).",
                         roff.inline("Read `docs/follow.schema.json`, and amo(1)."))

    def test_a_line_that_begins_with_a_dot_is_text(self) -> None:
        self.assertEqual([r"\&.. is the rest."], roff.filled(".. is the rest."))

    @unittest.skipUnless(shutil.which("groff"), "groff isn't installed: apt-get install groff")
    def test_an_example_can_be_copied(self) -> None:
        lines = ["mow --quick 'a lawn' ~/x^2 \\", "  .. -- `pwd`"]
        found = shown(page(*ALL, "\n".join(f"    {it}" for it in lines))).splitlines()
        self.assertEqual(lines, [it[11:] for it in found if it[11:] in lines])

    @unittest.skipUnless(shutil.which("groff"), "groff isn't installed: apt-get install groff")
    def test_an_example_of_a_page_can_be_copied(self) -> None:
        for path in glob.glob(f"{ROOT}/man/source/*.txt"):
            with open(path, encoding="utf-8") as file:
                due = re.findall(r"^    (\S.*)$", file.read(), re.M)
            with open(f"{ROOT}/man/{os.path.basename(path)[:-4]}", encoding="utf-8") as file:
                found = {it.strip() for it in shown(file.read()).splitlines()}
            self.assertEqual([], [it for it in due if it.strip() not in found], path)


class Reading(unittest.TestCase):
    """The help texts in their three forms."""

    def test_a_default_is_read_in_each_form(self) -> None:
        self.assertEqual(("wait", "10"), helps.parted("wait (default: 10)"))
        self.assertEqual(("wait", "10"), helps.parted("wait [default: 10]"))
        self.assertEqual(("wait", helps.REQUIRED), helps.parted("wait (must be given)"))
        self.assertEqual(("wait (or not)", ""), helps.parted("wait (or not)"))

    def test_a_program_without_help_is_refused(self) -> None:
        with self.assertRaisesRegex(ValueError, "amo_show, amo_jobs"):
            helps.programs_of("== amo --help: status 0\namo: plans.\n\n  ./amo run < P   runs\n")


if __name__ == "__main__":
    unittest.main()
