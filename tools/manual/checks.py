"""Compares the manual pages with what the programs print and leave. Begin with `complaints`.

A complaint has a kind, and says what is wrong in which page. PLANTED has a fault of each kind,
which must be found.
"""

from __future__ import annotations

import glob
import os
import re
import shutil
import subprocess
from typing import Callable, Iterator, NamedTuple

from helps import PART, PROGRAMS
from pages import ROOT

LONG_OPTION = re.compile(r"(?<![\w-])--[a-z][\w-]*")
VARIABLE = re.compile(r"\bAMO_[A-Z_]*[A-Z]\b")
# Statuses beside those that tools/outside collects: wrong words, and a program that wasn't built.
MORE_STATUSES = {"amo": {125}, "amo_show": {125}, "amo_worker": {64, 125}}
OF_WORKER = ("amo_jobs", "amo_share")  # pass on the statuses of amo_worker, and 64
PLAN_KEYS = ("crates/amo_plan/specs/Top.antt", "crates/amo_plan/specs/Jobs.antt")
LIMITS = ("crates/amo_plan/src/limits.rt", "crates/amo_params/src/limits.rt")
# Limits that the pages don't name: of versions, of digits, and the same again.
UNNAMED = {"NEWEST_VERSION", "HIGHEST_IN_WORD", "HIGHEST_NUMBER"}
OF_NAMES = "python/amo_watch/"  # makes the names of variables from the kinds of lines
VARIABLES_OF = ("python/*/*", "stores/*", "crates/*/src/*.rt")
OF_DOCS = ("README.md", "CONTRIBUTING.md", "docs/*.md", "docs/*/*.md", "tools/releases/README")

Complaint = tuple[str, str]


class Texts(NamedTuple):
    """All that is compared, by path: the files that are written, as they stand and as they should
    be; the sources of the pages; what tools/outside holds still; pages and sources."""
    stand: dict[str, str]
    due: dict[str, str]
    sources: dict[str, str]
    others: dict[str, str]

    def page(self, name: str) -> str:
        return self.stand.get(f"man/{name}", "")


def read(path: str) -> str:
    with open(f"{ROOT}/{path}", encoding="utf-8", errors="replace") as file:
        return file.read()


def others() -> dict[str, str]:
    """Returns the texts with which the pages are compared. Of the sources only those count that may
    name a variable."""
    paths = [f"tests/outside/{it}.expected" for it in ("help", "statuses", "folders")]
    texts = {it: read(it) for it in (*paths, *PLAN_KEYS, *LIMITS)}
    texts |= {it: read(it) for pattern in OF_DOCS for it in matching(pattern)}
    sources = {it: read(it) for pattern in VARIABLES_OF for it in matching(pattern)}
    return texts | {it: text for it, text in sources.items()
                    if VARIABLE.search(text) or it.startswith(OF_NAMES)}


def matching(pattern: str) -> list[str]:
    """Returns the paths of the files of the repository that a pattern matches."""
    return [os.path.relpath(it, ROOT) for it in sorted(glob.glob(f"{ROOT}/{pattern}"))
            if os.path.isfile(it) and not it.endswith(".pyc")]


# ---- reading a page

def plain(text: str) -> str:
    """Returns what roff shows of a line."""
    text = re.sub(r"\\f[BIR]|\\[&%]", "", text)
    for named, shown in ((r"\(aq", "'"), (r"\(ti", "~"), (r"\(ha", "^"), (r"\-", "-")):
        text = text.replace(named, shown)
    return text


def section(page: str, heading: str) -> str:
    """Returns a section of a page, with its parts."""
    found = re.search(rf"^\.SH {heading}\n(.*?)(?=^\.SH |\Z)", page, re.M | re.S)
    return found[1] if found else ""


def terms(text: str) -> list[str]:
    """Returns the terms of the lists in a part of a page."""
    return [plain(it) for it in re.findall(r"^\.TP\n(.*)$", text, re.M)]


def differing(kind: str, name: str, has: set[str], due: set[str], of: str) -> Iterator[Complaint]:
    """Yields what a page lacks of a set, and what it has beyond the set."""
    for it in sorted(due - has):
        yield kind, f"man/{name}: it lacks {it}, {of}; add it to man/source/{name}.txt"
    for it in sorted(has - due):
        yield kind, f"man/{name}: it has {it}, which isn't {of}; correct man/source/{name}.txt"


# ---- the checks

def stale(texts: Texts) -> Iterator[Complaint]:
    """Yields the written files that aren't as they should be."""
    for path in sorted({*texts.stand, *texts.due}):
        if texts.stand.get(path) != texts.due.get(path):
            yield "stale", f"{path}: it isn't current; run tools/man, and commit what it writes"


def shown_options(texts: Texts, program: str) -> set[str]:
    """Returns the long options that the help texts of a program show at the begin of a line, or
    after the program's name. It reads the raw text, and not what helps.py makes of it."""
    parts = [part for name, _, part in PART.findall(texts.others["tests/outside/help.expected"])
             if name == program]
    at_begin = r"(?:^ *(?:\./\w+ \w+ )?(?:-h, )?|\./\w+ )(--[a-z][\w-]*)"
    return {"--help", *(it for part in parts for it in re.findall(at_begin, part, re.M))}


def options(texts: Texts) -> Iterator[Complaint]:
    for program in PROGRAMS:
        has = {it for term in terms(section(texts.page(f"{program}.1"), "OPTIONS"))
               if term.startswith("-") for it in LONG_OPTION.findall(term)}
        yield from differing("option", f"{program}.1", has, shown_options(texts, program),
                             "an option of the help")


def calls_in(text: str) -> Iterator[tuple[str, str]]:
    """Yields the calls of a program that a page shows, each with the program and its words. What is
    quoted or stands after -- isn't the program's."""
    for program, words in re.findall(r"(?<![\w/])(?:\./)?(amo\w*)\b(?!\()([^`|;&\n]*)", text):
        if program in PROGRAMS:
            yield program, re.sub(r"'[^']*'", "", re.split(r" -- ", words)[0])


def calls(texts: Texts) -> Iterator[Complaint]:
    """Yields the options of calls in the pages that their programs don't have."""
    known = {it: shown_options(texts, it) for it in PROGRAMS}
    docs = {it: text for it, text in texts.others.items() if it.endswith((".md", "README"))}
    for path, text in {**docs, **texts.sources}.items():
        for program, words in calls_in(text):
            for it in LONG_OPTION.findall(words):
                if it not in known[program]:
                    yield "call", f"{path}: `{program}` has no option {it}; correct the call"
    for path, text in texts.sources.items():
        program = os.path.basename(path).split(".")[0]
        for span in re.findall(r"`(--[a-z][^`]*)`", text):
            it = LONG_OPTION.findall(span)[0]
            if it not in known.get(program, {it}):
                yield "call", f"{path}: `{program}` has no option {it}; correct the name"


def examples(texts: Texts) -> Iterator[Complaint]:
    """Yields the files of examples/ that an example of a page reads, and that don't exist."""
    for path, text in texts.sources.items():
        for it in re.findall(r"\bexamples/[\w./-]+\w", text):
            if not os.path.exists(f"{ROOT}/{it}"):
                yield "path", f"{path}: the file {it} doesn't exist; correct the example"


def statuses(texts: Texts) -> Iterator[Complaint]:
    text = texts.others["tests/outside/statuses.expected"]
    parts = {name: set(map(int, re.findall(r" = (\d+)$", part, re.M)))
             for names, part in re.findall(r"^== ([^\n]*)\n(.*?)(?=^== |\Z)", text, re.M | re.S)
             for name in names.split(", ")}
    for program in PROGRAMS:
        due = parts.get(program, set()) | MORE_STATUSES.get(program, set())
        due |= parts["amo_worker"] | {64} if program in OF_WORKER else set()
        has = set(terms(section(texts.page(f"{program}.1"), "EXIT STATUS")))
        yield from differing("status", f"{program}.1", has, set(map(str, due)),
                             "an exit status of the program")


def variables(texts: Texts) -> Iterator[Complaint]:
    """Yields the variables of the environment that no page has, and those that no source reads or
    sets."""
    used = {it for path, text in texts.others.items()
            if path.startswith(("python/", "stores/", "crates/")) for it in VARIABLE.findall(text)}
    words = {word for path, text in texts.others.items() if path.startswith(OF_NAMES)
             for word in re.findall(r"\w+", text)}
    has = {it for name in PROGRAMS
           for it in VARIABLE.findall(plain(section(texts.page(f"{name}.1"), "ENVIRONMENT")))}
    for it in sorted(used - has):
        yield "variable", f"man: no page has {it}; add it to the section Environment of one"
    for it in sorted(has - used):
        if it.removeprefix("AMO_").lower() not in words:
            yield "variable", f"man: no program reads or sets {it}; correct the page"


def numberless(name: str) -> str:
    """Returns the name of a file with N for each number, id or placeholder in it."""
    return re.sub(r"(?<=[.-])(?:\d+|[A-Z]+)(?=$|[./-])", "N", name)


def files(texts: Texts) -> Iterator[Complaint]:
    """Yields the files of a run, and of a machine's folder, that the pages don't name."""
    text = texts.others["tests/outside/folders.expected"]
    named = {numberless(it.rpartition("/")[2]) for name in ("amo_jobs.1", "amo_share.1")
             for term in terms(section(texts.page(name), "FILES"))
             for it in re.split(r", | to ", term)}
    for path in re.findall(r"^(?:run/jobs\.run|share/run)\S*/([^/\s]+)/?$", text, re.M):
        if numberless(path) not in named:
            yield "file", f"man: a run leaves the file {path}, and the pages don't name it"


def plans(texts: Texts) -> Iterator[Complaint]:
    """Yields keys, limits and faults of plans that the page of plans has otherwise."""
    page = texts.page("amo_plan.5")
    has = {it.strip("[]") for heading in ("KEYS OF THE PLAN", "KEYS OF A JOB")
           for it in terms(section(page, heading))}
    due = {it for path in PLAN_KEYS for row in re.findall(
        r"^(?:top_keys|job_keys|is_top_key .*) = (.*)$", texts.others[path], re.M)
        for it in re.findall(r'codes "(\w+)"', row)}
    yield from differing("key", "amo_plan.5", has, due, "a key of a plan")
    numbers = set(re.findall(r"\d[\d,]*", plain(page + texts.page("amo.1"))))
    known = {it.replace(",", "").rstrip() for it in numbers}
    for path in LIMITS:
        for name, value in re.findall(r"const (\w+): \w+ = ([\d_]+);", texts.others[path]):
            if name not in UNNAMED and value.replace("_", "") not in known:
                yield "limit", f"man/amo_plan.5: it lacks {value}, the limit {name} in {path}"


CHECKS: list[Callable[[Texts], Iterator[Complaint]]] = [
    stale, options, calls, examples, statuses, variables, files, plans]


def complaints(texts: Texts) -> list[Complaint]:
    """Returns all that is wrong."""
    return [it for check in CHECKS for it in check(texts)]


# ---- the form of the pages

# The programs that find faults in the form of a page, and how each is called.
LINTERS = {"mandoc": ["mandoc", "-T", "lint", "-W", "all"],
           "groff": ["groff", "-ww", "-man", "-Tutf8", "-z"]}


def linted(tool: str, text: str) -> str:
    """Returns what a tool finds wrong in the form of a page."""
    ran = subprocess.run(LINTERS[tool], input=text, stdout=subprocess.PIPE,
                         stderr=subprocess.STDOUT, encoding="utf-8")
    return ran.stdout or ("it failed" if ran.returncode else "")


def form(texts: Texts) -> Iterator[Complaint]:
    """Yields what the tools find that are installed. A page with a fault must be found too."""
    for tool in LINTERS:
        if not shutil.which(tool):
            print(f"man: skipped: the form of the pages, since {tool} isn't installed: apt-get"
                  f" install {tool}")
            continue
        for path, text in texts.stand.items():
            found = linted(tool, text) if path.startswith("man/") else ""
            if found:
                yield "form", f"{path}: {tool} finds:\n{found.rstrip()}"
        if not linted(tool, ".TH A 1 2026-11-30\n.SH NAME\na \\- b\n.NO SUCH\n"):
            yield "form", f"{tool}: it doesn't find a request that is unknown, which was planted"


# ---- what is planted

def changed(path: str, old: str, new: str) -> Callable[[Texts], Texts]:
    """Returns what changes the first place of a text in a file, wherever the file is held."""
    def change(texts: Texts) -> Texts:
        if not any(old in part.get(path, "") for part in texts):
            raise ValueError(f"{path}: it doesn't have `{old}`; plant another fault in PLANTED")
        return Texts(*({it: text.replace(old, new, 1) if it == path else text
                        for it, text in part.items()} for part in texts))
    return change


def appended(path: str, more: str) -> Callable[[Texts], Texts]:
    """Returns what appends a text to a source of a page, or makes a page of docs with it."""
    def append(texts: Texts) -> Texts:
        if path in texts.sources:
            return texts._replace(sources={**texts.sources, path: texts.sources[path] + more})
        return texts._replace(others={**texts.others, path: more})
    return append


# A kind of complaint, and a change after which there must be one of just this kind.
PLANTED: list[tuple[str, Callable[[Texts], Texts]]] = [
    ("option", changed("man/amo_jobs.1", r".TP" "\n" r"\fB\-\-linger", r".TP" "\n" r"\fBlinger")),
    ("option", changed("man/amo_worker.1", r".TP" "\n" r"\fB\-\-into", r".TP" "\n" r"\fB\-\-onto")),
    ("option", changed("tests/outside/help.expected", "--linger S wait", "--longer S wait")),
    ("call", appended("docs/planted.md", "    ./amo_jobs crew --walkers 4 JOBS -- ls --all\n")),
    ("call", appended("man/source/amo_worker.1.txt", "\n    amo_worker status --ounce RUN\n")),
    ("call", appended("man/source/amo_share.1.txt", "\nGive `--output DIR`.\n")),
    ("path", appended("man/source/amo.1.txt", "\n    amo run < examples/plans/none.toml\n")),
    ("status", changed("man/amo_jobs.1", ".TP\n77\n", ".TP\n78\n")),
    ("status", changed("man/amo.1", ".TP\n3\n", ".PP\n")),
    ("variable", changed("man/amo_share.1", "AMO_CLAIMS", "AMO_CLAIM")),
    ("variable", changed("python/amo_jobs/starter.py", "AMO_LINE", "AMO_NUMBER")),
    ("file", changed("man/amo_jobs.1", r"\fB/pace", r"\fB/pice")),
    ("file", changed("tests/outside/folders.expected", "/record", "/registers")),
    ("key", changed("man/amo_plan.5", r"\fBrounds\fR", r"\fBround\fR")),
    ("limit", changed("crates/amo_plan/src/limits.rt", "10_000;", "12_000;")),
]


def missed(texts: Texts) -> list[str]:
    """Returns the planted faults that aren't found as such."""
    wrong = []
    for number, (kind, change) in enumerate(PLANTED, 1):
        try:
            after = change(texts)
        except ValueError as error:
            wrong.append(str(error))
            continue
        found = {it for it, _ in complaints(after._replace(due=after.stand))}
        if found != {kind}:
            wrong.append(f"planted fault {number}: {kind}: it isn't found alone: {sorted(found)}")
    one = dict(texts.due, **{"man/amo.1": f"{texts.due['man/amo.1']}.PP\nMore.\n"})
    if {it for it, _ in complaints(texts._replace(due=one))} != {"stale"}:
        wrong.append("planted fault: a page that isn't current: it isn't found alone")
    return wrong
