"""Checks of a copy of a crate with some bodies in place, and what each says of every function."""

import os
import re
import shutil
import signal
import subprocess
import tempfile

import stubs
from crates import PARTS

# A proved function may be listed as one that may wait. A closure may be listed as proved if its
# callers give what it requires. Of holes there are those of stubs alone: a function has none, or
# rests on some.
FUNCTION = re.compile(r"(?:fn|struct|enum|impl|trait|const) (\S+): (?:(proved|no holes|depends on a hole in )(?:,? .*|`.*)?|(.*))")
PLACE = re.compile(r"(?:note: )?(?:\./)?(\S+?):(\d+):\d+: (.*)")
# A function that calls one that isn't proved, passes it on, or is made of it.
OTHERS = re.compile(r"(; )?(it calls|it passes|it waits for the proof of|a call of) .*")
# A proof that names what an edit took away, and what cites that proof.
NAMES = re.compile(r"has no field|is not in scope|has no `|was not admitted")
WAITS = re.compile(r"note: `search` has not tried the goals of `?([\w:+]+)")
STALE = re.compile(r"Run the lower steps again")
UNREAD = re.compile(r"is not in scope|has no field|is no name|operand is missing|expected the end|cannot continue")


class Said:
    """The output of a check: the reason that it gives for each function, and the lines that name a
    place."""

    def __init__(self, text, status):
        self.text, self.status = text, status
        lines = text.rstrip("\n").split("\n")
        self.told = {found[1]: "proved" if found[2] else found[3] for found in map(FUNCTION.fullmatch, lines) if found}
        self.places = [(found[1], int(found[2]), line) for line in lines for found in [PLACE.match(line)] if found]
        self.waiting = {found[1].split("::")[-1] for found in map(WAITS.match, lines) if found}
        self.is_stale = bool(STALE.search(text))
        self.reached = status in (0, 1) and lines[-1].startswith(("logic=", "only=", "holes=")) and not self.is_stale
        self.last = next((it for it in lines if "error" in it), lines[0]) if not self.reached else lines[-1]

    def own_reason(self, symbol):
        """Returns the reason why this function is not proved, without the functions that it calls.
        It is empty without such a reason."""
        reason = self.told[symbol]
        if reason == "proved":
            return ""
        return re.sub(r"^(not proved|no proof|could not tell):?\s*", "", OTHERS.sub("", reason)).strip(" ;")

    def names(self, crate, body):
        """Returns whether a check that didn't reach the prover names a function of this body, by
        its place or by its name."""
        cited = re.findall(r"`(\w+(?:::[\w+]+)+)`", self.text)
        return any(body.has(path, number) for path, number, _ in self.places) or any(it.symbols(crate.name, cited) for it in body.functions)

    def unread(self, body):
        """Returns the first line that says that a text of the sources that this body changes can't
        be read."""
        for path, number, line in self.places:
            if "error" in line and (path, number) in body.lines and (UNREAD.search(line) or "error: `" not in line):
                return line
        return None


def run(crate, bodies, kept, functions=(), real=()):
    """Checks a copy of the crate with these bodies in it, over the proofs in `kept`. Of these
    functions, those that are not real have stubs there, and the real ones are checked. If no
    functions are given, or one of them can't be named, all functions in the copy are checked."""
    paths = sorted({it.path() for it in real})
    only = [word for it in paths for word in ("--only", it)] if paths and "" not in paths else []
    check = [*crate.check(kept), *(["--allow-holes"] if functions else [])]
    with tempfile.TemporaryDirectory(prefix="wrong-bodies-") as room:
        for part in PARTS:
            if os.path.isdir(f"{crate.folder}/{part}"):
                shutil.copytree(f"{crate.folder}/{part}", f"{room}/{part}")
        for it in bodies:
            it.put(room)
        stubs.put(crate, room, functions, real)
        how = {"cwd": room, "stdin": subprocess.DEVNULL, "stdout": subprocess.PIPE, "stderr": subprocess.STDOUT, "errors": "replace"}
        ran = subprocess.run([*check, *only], **how)
        if ran.returncode == -signal.SIGKILL:
            # most likely for memory
            ran = subprocess.run([*check, *only], **how)
        if only and ran.returncode == 2:
            # a name fits none, or several
            ran = subprocess.run(check, **how)
    return Said(ran.stdout, ran.returncode)


def judge(crate, body, said):
    """Returns the verdict of a check on a body, and the line that shows it. It is 'refused',
    'proved', 'names' (refused only by a name in a proof file), 'unread', or None if the check
    doesn't show it."""
    unread = said.unread(body)
    if unread:
        return "unread", unread
    if not said.reached:
        return None, said.last
    verdicts = []
    for function in body.functions:
        symbols = function.symbols(crate.name, said.told)
        if not symbols:
            return None, f"the check says nothing of {function.name}"
        verdicts += [judge_symbol(body, function, it, said) for it in symbols]
    for wanted in ("refused", "names", None):
        found = [it for it in verdicts if it[0] == wanted]
        if found:
            return found[0]
    return "proved", verdicts[0][1]


def judge_symbol(body, function, symbol, said):
    reason = said.told[symbol]
    if reason == "proved":
        return "proved", f"{symbol} is proved"
    own = said.own_reason(symbol)
    within = [line for path, number, line in said.places if path == function.file and function.has(number)]
    proofs = f"proofs/{'/'.join(symbol.split('::')[1:])}/"
    by_hand = [line for path, _, line in said.places if path.startswith(proofs) and "error" in line]
    if within or "did not prove" in own:
        return "refused", (within or [f"{symbol}: {own}"])[0]
    if by_hand and all(NAMES.search(line) for line in by_hand):
        return "names", by_hand[0]
    if by_hand or own:
        return "refused", (by_hand or [f"{symbol}: {own}"])[0]
    return None, f"{symbol}: {reason}"


def strangers(crate, bodies, said):
    """Returns the functions and types that no body changes, and that are refused for a reason of
    their own. That may be a contract which a body changes, of a function that they call."""
    symbols_of = lambda body: {it for function in body.functions for it in function.symbols(crate.name, said.told)}
    changed = set().union(*map(symbols_of, bodies))
    contracts = set().union(*(symbols_of(it) for it in bodies if it.changes_head()))
    calls = lambda reason: contracts & set(re.findall(r"`([\w:+]+)`", reason))
    refused = [(it, reason) for it, reason in said.told.items() if it not in changed and said.own_reason(it)]
    return [f"{it}: {reason}" for it, reason in refused if not calls(reason)]
