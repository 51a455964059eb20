"""Runs a command for each line of a list, at most once, over kills, restarts and power cuts.

  amo_jobs crew   [--run DIR] --workers M [OPTIONS] JOBS -- COMMAND..
                  runs the whole list with M workers
  amo_jobs work   [--run DIR] --worker P --workers M [OPTIONS] JOBS -- COMMAND..
                  runs one of the M workers alone, for systemd or for another shell
  amo_jobs status [--run DIR | JOBS] [--json | --lines KIND | --damaged]
                  prints how all lines stand, which workers are alive, and when the run ends
  amo_jobs doubts [--run DIR | JOBS] [--json]
                  prints each line that is in doubt for good, for the operator to look up
  amo_jobs answer [--quiet SECONDS | --now] [--run DIR | JOBS] -- P.S LINE TEXT ANSWER
                  records what the operator found out, done or not-done; many at once: --from FILE
  amo_jobs again  [--run DIR | JOBS]
                  opens each untouched line once more
  amo_jobs forget [--run DIR] [--force] JOBS
                  puts a run away, with its list; deletes nothing
  amo_jobs report [--run DIR | JOBS] [--json] > report.html
                  prints a page that shows the whole run
  amo_jobs watch  [--run DIR | JOBS]
                  shows a run while it goes on

Two examples:
  ./amo_jobs crew --workers 4 tonight.txt -- ./send-payment {}
  ./amo_jobs status tonight.txt

A line of JOBS is a job, and its text is the job's name. COMMAND gets the text as one whole
argument: in place of each argument {}, or as the last argument if there is no {}. AMO_JOB holds the
text too, and AMO_LINE the number of the line. Without --run, the folder of the run is JOBS.run.
`amo_jobs crew --help` prints the options of `crew` with their defaults, and so does each other
command. docs/guide/commands.md and docs/guide/operating.md explain the rest.

The file JOBS.run-is holds the id of the list's run and the path of its folder. If that folder is
missing or has another id, a crew is refused, since it would run every line again. Once all lines
are closed, `forget` puts the run away.

The program amo_worker, beside this file, reads and writes the journals and decides which line is
run next. amo_jobs starts the commands, waits until nothing of a command is left, and reports how it
ended.
"""

from __future__ import annotations

import argparse
import os
import signal
import sys
from contextlib import suppress
from importlib import import_module
from typing import Any, Callable, Collection, Dict, FrozenSet, List, Set, Tuple, Union

from amo_jobs.mark import FIRST_VERSION, ID
from amo_jobs.messages import End, end_of, Screen, visible
from amo_jobs.settings import Settings
from amo_jobs.statuses import Status
from amo_jobs.worker import Program, boot_id_warning, version
from amo_watch import commands as watching

RUNS = ("crew", "work")


# ---- the commands (each imports its modules before it does anything, and none of the others')

def work(settings: Settings, program: Program) -> int:
    """Performs the commands crew and work. The door is asked before any lock is taken. For a runner
    of a crew its supervisor has done all that."""
    own = version()  # before other modules: an upgrade may replace the files at any moment
    from amo_jobs.calls import keep_from_commands
    from amo_jobs.library import library
    keep_from_commands()
    library()  # so that nothing is begun if it can't be built
    if settings.caller:
        return runner(settings, program, own)
    from amo_jobs import crew
    from amo_jobs.run_folder import check_list, enter, joined, note_command
    check_list(settings)
    run = (enter(settings, program, settings.id) if settings.what == "crew" and settings.id
           else joined(settings, program))
    settings.id = run
    program.more += ["--id", run]
    if settings.results != settings.run:  # since the door alone makes the run's folder
        os.makedirs(settings.results, 0o700, exist_ok=True)
        settings.results += f"/{run}"  # other runs may have the same --results
        os.makedirs(settings.results, 0o700, exist_ok=True)
    if settings.what == "work":
        note_command(settings, own)
        return crew.work(settings, program)
    return watching.told(settings, program, lambda: crew.Crew(settings, program, own))


def runner(settings: Settings, program: Program, own: str) -> int:
    """Runs one worker of a crew, if its supervisor has the version that this program had before it
    imported its modules, and has after that."""
    from amo_jobs.runner import supervised
    for found in (own, version()):
        if settings.caller != found:
            raise End(Status.LATER, f"worker {settings.worker}: amo was upgraded from"
                                    f" {visible(settings.caller)} to {found} while its crew worked;"
                                    " start the crew again")
    program.more += ["--id", settings.id]
    return supervised(settings, program)


def late(module: str, name: str) -> Callable[[Settings, Program], Any]:
    """Returns a command whose module is imported once it is called."""
    return lambda *given: getattr(import_module(f"amo_jobs.{module}"), name)(*given)


CALLS: Dict[str, Callable[[Settings, Program], int]] = {
    "crew": work, "work": work, **watching.CALLS,
    "forget": lambda *given: late("forget", "Forgetting")(*given).take(),
    **{name: late("status", name) for name in ("status", "doubts", "answer", "again")},
}


def within(kind: Callable[[str], Union[int, float]], low: float,
           high: float) -> Callable[[str], Union[int, float]]:
    """Returns the reader of an option that is a number from low to high, an int or a float."""
    def number(word: str) -> Union[int, float]:
        with suppress(ValueError):
            if low <= kind(word) <= high:
                return kind(word)
        what = "whole number" if kind is int else "number"
        raise argparse.ArgumentTypeError(
            f"`{visible(word)}` isn't valid; give a {what} from {low} to {high:.0f}")
    return number


def codes(word: str) -> Set[Union[int, float]]:
    """Returns the exit statuses that a word lists, with commas between them."""
    return set(map(within(int, 1, 255), word.split(",")))


def names(word: str) -> FrozenSet[str]:
    """Reads the option --may-leave."""
    return frozenset(filter(None, word.split(",")))


def old_id(word: str) -> str:
    """Returns the id of the run that --new-run gives up."""
    if word != FIRST_VERSION and not ID.fullmatch(word):
        raise argparse.ArgumentTypeError(
            f"`{visible(word)}` is no id of a run; give the 32 hex digits that the refusal prints,"
            " or 1 for a run of amo 0.1.0")
    return word


def option(commands: Collection[str], words: str, about: str, kind: Callable[[str], Any] = str,
           **more: Any) -> Tuple[Collection[str], str, Dict[str, Any]]:
    """Returns an option of these commands. Its words are its name, and what stands for its value if
    it has one."""
    name, _, value = words.partition(" ")
    how = dict(metavar=value, type=kind) if value else dict(action="store_true")
    return commands, name, dict(how, help=about, **more)


# Which commands have an option, and what it is. Settings has the defaults.
OPTIONS: List[Tuple[Collection[str], str, Dict[str, Any]]] = [
    option([it for it in CALLS if it != "forget"], "--run DIR",
           "the folder of the run (default: JOBS.run)"),
    option(["forget"], "--run DIR",
           "the folder of the run (default: the folder that JOBS.run-is names)"),
    option(CALLS, "--worker-program FILE",
           "the program amo_worker (default: the one in this program's folder)"),
    option(CALLS, "--file-system TYPE", "also accept a file system of this type (default: ext2,"
           " ext3, ext4, xfs, btrfs, f2fs and zfs alone)"),
    option(["work"], "--worker P", "the number of this worker, 1 to M (required)",
           within(int, 1, 16), required=True),
    option(RUNS, "--workers M", "the number of workers of the run, 1 to 16 (required)",
           within(int, 1, 16), required=True),
    option(RUNS, "--beta B", "advanced: the threshold of a round; M is used if it is larger"
           " (default: 1)", within(int, 1, 65535)),
    option(RUNS, "--untouched CODES", "exit statuses, such as 75,76, by which a command reports"
           " that it did nothing (default: none)", codes),
    option(RUNS, "--timeout S", "send TERM to a command, and to all that it has started, after S"
           " seconds; its line is in doubt then (default: never)", within(float, 0, 1e8)),
    option(RUNS, "--grace S", "send KILL S seconds after that TERM (default: 10)",
           within(float, 0, 1e8)),
    option(RUNS, "--linger S", "wait S seconds for what a command leaves behind (default: 5)",
           within(float, 0, 1e8)),
    option(RUNS, "--halt N", "stop after N failures in a row; after 10 at most if no line was done"
           " before; 0 is never (default: those 10 alone)", within(int, 0, 10**9)),
    option(RUNS, "--results DIR", "keep the files out.P.S and err.P.S in DIR/ID, where ID is the id"
           " of the run (default: the run's folder)"),
    option(RUNS, "--command-changed",
           "go on in a folder that was used with another command (default: refused)"),
    option(RUNS, "--new-run OLD-ID",
           "give up the run with this id if its folder is missing or is another one, and run every"
           " line again; 1 names a run of amo 0.1.0 (default: refused)", old_id),
    option(RUNS, "--may-leave NAMES", "programs that a command may leave behind, such as"
           " gpg-agent,ssh; a crew waits for all others (default: none)", names),
    # the version of the supervisor, for the runners of its crew
    option(["work"], "--as CALLER", argparse.SUPPRESS, dest="caller"),
    # for amo_share, and for these runners: the folder must have this id, and no mark counts
    option(RUNS, "--id ID", argparse.SUPPRESS),
    option(["forget"], "--force", "also if lines are open, running or in doubt (default: refused)"),
    option(["status"], "--json", "print one JSON object (default: a text)"),
    option(["doubts"], "--json", "print a JSON list (default: a text)"),
    option(["status"], "--lines KIND", "print the lines of this kind alone: done, failed, doubt,"
           " untouched, running or open (default: counts, and each line with an attempt)"),
    option(["status"], "--damaged", "print what can be read of a run that is refused; no line"
           " counts as open (default: refuse it)"),
    option(["answer"], "--from FILE", "a file of answers, a row each: P.S, LINE, TEXT and done or"
           " not-done, with tabs between (default: the arguments)", dest="source"),
    option(["answer"], "--quiet SECONDS", "refuse not-done until SECONDS have passed since the"
           " attempt ended, since a request may arrive late (default: 60)", within(int, 0, 10**9)),
    option(["answer"], "--now",
           "take not-done at once, whenever the attempt ended (default: wait as --quiet says)"),
    *watching.OPTIONS,
]
# The description of each command, and two examples.
ABOUT = {
    "crew": ("Runs the whole list with M workers.",
             "crew --workers 4 tonight.txt -- ./send-payment {}",
             "crew --workers 4 --timeout 60 --untouched 75 tonight.txt -- ./send-payment {}"),
    "work": ("Runs one of the M workers alone.",
             "work --worker 1 --workers 2 tonight.txt -- ./send-payment {}",
             "work --worker 2 --workers 2 tonight.txt -- ./send-payment {}"),
    "status": ("Prints how all lines stand.",
               "status tonight.txt", "status --lines failed tonight.txt"),
    "doubts": ("Prints each line that is in doubt for good.",
               "doubts tonight.txt", "doubts --run tonight.txt.run"),
    "answer": ("Records what the operator found out about an attempt. Options stand before JOBS.",
               "answer --quiet 3600 tonight.txt -- 3.17 401 'rent 700 to Ada' not-done",
               "answer --from answers.txt tonight.txt"),
    "again": ("Opens each untouched line once more.",
              "again tonight.txt", "again --run tonight.txt.run"),
    "forget": ("Puts a run away, with its list. Deletes nothing.",
               "forget tonight.txt", "forget --force tonight.txt"),
    **watching.ABOUT,
}


def parser_of(words: List[str]) -> argparse.ArgumentParser:
    """Returns the parser of the command line; if it begins with a command, of that one alone. An
    option that isn't given sets nothing."""
    layout = argparse.RawDescriptionHelpFormatter
    top = argparse.ArgumentParser("amo_jobs", None, __doc__, formatter_class=layout,
                                  allow_abbrev=False)
    shown = f"amo_jobs {version()}" if words[:1] == ["--version"] else ""
    top.add_argument("--version", action="version", version=shown)
    inner = top.add_subparsers(dest="what", required=True)
    for name in words[:1] if words[:1] and words[0] in ABOUT else ABOUT:
        about, *examples = ABOUT[name]
        shown = "\n".join(["two examples:", *(f"  ./amo_jobs {it}" for it in examples)])
        it = inner.add_parser(name, description=about, epilog=shown, formatter_class=layout,
                              allow_abbrev=False, argument_default=argparse.SUPPRESS)
        for names, option, how in OPTIONS:
            if name in names:
                it.add_argument(option, **how)
        is_answer = name == "answer"
        it.add_argument("words", nargs="*", metavar="WORD" if is_answer else "JOBS",
                        help="JOBS, then P.S, LINE, TEXT and done or not-done" if is_answer
                        else "the list, a job a line")
    return top


def refuse_words(settings: Settings, left: List[str]) -> None:
    """Refuses a command without its list, or with an argument that it doesn't take."""
    what, is_run = settings.what, settings.what in RUNS
    example = f"amo_jobs {ABOUT[what][1]}"
    if left:
        remedy = f"give the command after --, as in: {example}" if is_run else (
            "give options before --" if left[0][:1] == "-" else f"see amo_jobs {what} --help")
        raise End(Status.WORDS,
                  f"argument `{visible(left[0])}`: `{what}` doesn't take it; {remedy}")
    if not settings.jobs and (is_run or what == "forget"):
        raise End(Status.WORDS, f"`{what}`: the list is missing; give it, as in: {example}")
    if not settings.jobs and not settings.run:
        more = "" if what != "answer" or settings.source else ", P.S LINE TEXT and the answer"
        raise End(Status.WORDS, f"`{what}`: an argument is missing; give JOBS or --run DIR{more},"
                                f" as in: {example}")
    if what == "answer" and not settings.source:
        refuse_answer(settings.words)
    if what == "work" and settings.worker > settings.workers:
        raise End(Status.WORDS, f"argument --worker: `{settings.worker}` is more than --workers"
                                f" {settings.workers}; give the number of one of these workers")


def refuse_answer(words: List[str]) -> None:
    """Refuses words that aren't an attempt, its line, the text of the line and the answer."""
    if len(words) != 4:
        raise End(Status.WORDS, "`answer`: an argument is missing; give P.S LINE TEXT and done or"
                                " not-done, or --from FILE")
    from amo_jobs.status import ANSWERS
    if words[3] not in ANSWERS:
        raise End(Status.WORDS, f"answer `{visible(words[3])}`: it isn't valid; write done if it"
                                " happened, not-done if it surely did not, and options before --")
    if "\n" in words[2]:
        raise End(Status.WORDS, f"text `{visible(words[2])}`: no line holds a line feed; give the"
                                " text of one line, as `amo_jobs doubts` prints it")


def refuse_command(settings: Settings) -> None:
    """Refuses a command that is missing, or in which a job isn't an argument of its own."""
    example = "amo_jobs crew --workers 2 JOBS -- ./send-payment {}"
    if not settings.command:
        raise End(Status.WORDS, f"`{settings.what}`: the command is missing; give it after --, as"
                                f" in: {example}")
    if settings.command[0] == "{}":
        raise End(Status.WORDS, "command `{}`: a job can't be the program itself; name a program,"
                                f" as in: {example}")
    for word in settings.command:
        if "{}" in word and word != "{}":
            raise End(Status.WORDS, f"argument `{visible(word)}`: it has {{}} in it, and a shell"
                                    " would read the job's text as commands; make {} an argument of"
                                    " its own, as in sh -c 'send --to \"$1\"' sh {}, or use"
                                    " \"$AMO_JOB\" there")
    refuse_own_name(settings)


def refuse_own_name(settings: Settings) -> None:
    """Refuses --may-leave with the name of the command's own program. A command whose runner was
    killed would count for nothing then, and its line would be listed while the command runs."""
    program = settings.command[0]
    folders = os.get_exec_path() if "/" not in program else [""]
    paths = [path for it in folders if os.path.exists(path := os.path.join(it, program))]
    names = {os.path.basename(it) for it in (program, os.path.realpath((paths or [program])[0]))}
    for name in sorted(names & set(settings.may_leave)):
        raise End(Status.WORDS, f"--may-leave `{visible(name)}`: it is the command's own program,"
                                " and a command must not be left out; name only programs that the"
                                " command starts, and that do no work of a job")


def settings_of(words: List[str]) -> Settings:
    """Returns the settings that the words ask for."""
    is_run = words[:1] in (["crew"], ["work"])
    cut = words.index("--") if is_run and "--" in words else len(words)
    settings = Settings(command=words[cut + 1:], options=words[:cut])
    parser_of(words[:cut]).parse_args(words[:cut], settings)
    most = 4 if settings.what == "answer" and not settings.source else 0
    settings.jobs = settings.words.pop(0) if len(settings.words) > most else ""
    refuse_words(settings, settings.words[most:])
    if is_run:
        refuse_command(settings)
    settings.find()
    return settings


def main(words: List[str]) -> int:
    """Does what the words ask for, prints the last message, and returns the exit status."""
    signal.signal(signal.SIGCHLD, signal.SIG_DFL)  # if it is ignored, no end of a child is reported
    signal.pthread_sigmask(signal.SIG_UNBLOCK, [signal.SIGCHLD])  # and none that the caller blocks
    while os.open(os.devnull, os.O_RDWR) < 3:  # no file of a run gets a closed stream's number
        pass
    code, text = end_of(lambda: called(words), f"how all lines stand: {sys.argv[0]} status")
    if text:
        Screen.tell(text)
    return code


def called(words: List[str]) -> int:
    """Does what the words ask for, and returns the exit status."""
    settings = settings_of(words)
    if not settings.caller and (warning := boot_id_warning()):
        Screen.tell(warning)
    return CALLS[settings.what](settings, Program(settings.worker_program, settings.file_system))
