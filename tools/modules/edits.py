"""The edits and the twins of a crate: what each changes, line by line, and in which functions."""

import os
import re

import source

FOLDER = "wrong-bodies"
HOLE = re.compile(r"(?<!\w)\?")


class Change:
    """The changes in a copy of a crate: the new texts of `lines`, by file and number from 1, the
    `functions` that they change, and the `calls` that they add."""

    def __init__(self):
        self.lines, self.functions, self.calls = {}, [], set()
        self.is_twin = False
        # the lines that stay as they are up to their last brace
        self.begun = set()

    def changes_head(self):
        """Returns whether it changes a function's head, so that callers see another contract."""
        is_head = lambda it, at: it.first <= at < it.opens or at == it.opens and (it.file, at) not in self.begun
        return any(it.file == path and is_head(it, number) for it in self.functions for path, number in self.lines)

    def may_call(self, other):
        """Returns whether a function that this body changes may call one that the other changes."""
        return any(it.name in self.calls.union(*(held.called for held in self.functions)) for it in other.functions)

    def meets(self, other):
        """Returns whether the two can't stand in one copy."""
        # (a constant that is changed is so in copies of the functions that read it, too)
        is_wide = self.reaches_out() or other.reaches_out()
        held = lambda it: {id(function.origin if is_wide else function) for function in it.functions}
        same = held(self) & held(other) or self.lines.keys() & other.lines.keys()
        calls, called = self.may_call(other), other.may_call(self)
        # (Two functions that call one another are a cycle, which is refused before any proof. Only
        # a new call can make one.)
        is_cycle = calls and called and any(it.name in one.calls for one, two in ((self, other), (other, self)) for it in two.functions)
        # (a twin that calls what isn't proved isn't proved itself)
        hides = self.is_twin != other.is_twin and (calls if self.is_twin else called)
        return bool(same or is_cycle or hides or calls and other.changes_head() or called and self.changes_head())

    def has(self, path, number):
        return any(it.file == path and it.has(number) for it in self.functions)

    def in_place(self, line: str) -> str:
        """Returns this line of a check, with all names as they are in their places."""
        return line

    def reaches_out(self) -> bool:
        """Returns whether it changes a constant, which stands in no function."""
        is_constant = lambda path, text: path.startswith("src/") and not text.lstrip().startswith("ghost use ")
        return any(is_constant(path, text) and not self.has(path, it) for (path, it), text in self.lines.items())


class Body(Change):
    """A wrong body, or a harmless twin."""

    def __init__(self, crate, file):
        super().__init__()
        self.file, self.name = file, os.path.basename(file)
        self.is_twin = file.endswith(".twin")
        self.label = f"{crate.name}/{self.name}"
        self.body, self.is_copy, self.trouble = self, False, None
        self.verdict, self.why, self.tries = None, "", []

    def read(self, folder, functions):
        """Reads the file, and finds the functions that it changes. `trouble` says why it can't be
        applied."""
        try:
            with open(self.file, encoding="utf-8") as held:
                was, now = applied(held.read(), folder)
        except (OSError, ValueError) as fault:
            self.trouble = str(fault)
            return
        for path, text in now.items():
            pairs = zip(was[path].split("\n"), text.split("\n"))
            changed = [(number, old, new) for number, (old, new) in enumerate(pairs, 1) if old != new]
            self.lines.update({(path, number): new for number, _, new in changed})
            self.begun.update((path, number) for number, old, new in changed if "{" in old and new.startswith(old[: old.rindex("{") + 1]))
            self.calls.update(*(calls_of(new) - calls_of(old) for _, old, new in changed if path.startswith("src/")))
        if not self.lines:
            self.trouble = "it changes nothing"
        for path, number in (it for it in self.lines if it[0].startswith("src/")):
            held = [it for it in functions if it.file == path and it.has(number)][-1:]
            line = was[path].split("\n")[number - 1]
            # (of a constant the functions that read it)
            constant = re.match(r"\s*(?:pub(?:\(\w+\))? )?const (\w+)", line)
            held = held or [it for it in functions if constant and constant[1] in it.words]
            self.functions += [it for it in held if it not in self.functions]
            if not held and not line.lstrip().startswith("ghost use "):
                self.trouble = f"{path}:{number} stands in no function"
        if not self.functions and not self.trouble:
            self.trouble = "it changes no function"

    def put(self, room: str) -> None:
        """Puts its lines into this copy of the crate."""
        for path in {path for path, _ in self.lines}:
            texts = {number: text for (file, number), text in self.lines.items() if file == path}
            source.set_lines(f"{room}/{path}", texts)


def calls_of(line):
    return source.called_in(re.findall(r"\w+|::|\S", line))


def applied(text, folder):
    """Returns the texts of the files that an edit names, before and after it. It may carry a
    proof over to the names that its own lines give to the goals, as `-2` for what a second
    return leaves."""
    path, old, was, now, pairs = None, None, {}, {}, 0
    for line in text.split("\n"):
        if line.startswith("file: "):
            path = line.removeprefix("file: ").strip()
            if os.path.normpath(path) != path or not path.startswith(("src/", "proofs/")):
                raise ValueError("a 'file:' line names no file below src/ or proofs/")
            if path not in was:
                with open(f"{folder}/{path}", encoding="utf-8") as held:
                    was[path] = now[path] = held.read()
        elif line.startswith("old: "):
            old = line.removeprefix("old: ")
        elif line.startswith("new:"):
            if path is None or not old:
                raise ValueError("a 'new:' line stands before any 'file:' or 'old:' line")
            if now[path].count(old) != 1:
                raise ValueError(f"an 'old:' text is in {path} {now[path].count(old)} times, and not once")
            if path.startswith("proofs/") and HOLE.search(line.removeprefix("new:")):
                raise ValueError(f"a proof in {path} gets a hole, which would be taken for that of a stub")
            now[path] = now[path].replace(old, line.removeprefix("new:").removeprefix(" "))
            old, pairs = None, pairs + 1
        elif line.strip():
            raise ValueError(f"a line begins with none of 'file: ', 'old: ' and 'new:': {line.strip()[:60]}")
    if not pairs:
        raise ValueError("it has no 'old:' and 'new:' pair")
    return was, now


def bodies_of(crate, functions):
    """Returns the crate's edits and twins, by name, and the files of the folder that are
    neither."""
    place, found, strange = f"{crate.folder}/{FOLDER}", [], []
    for name in sorted(os.listdir(place)) if os.path.isdir(place) else []:
        if name.endswith((".edit", ".twin")):
            body = Body(crate, f"{place}/{name}")
            body.read(crate.folder, functions)
            found.append(body)
        else:
            strange.append(f"{crate.name}/{FOLDER}/{name}")
    return found, strange


def rounds_of(bodies, most, apart=False):
    """Parts bodies into as few groups as they fall into in turn, no two of a group meeting; with
    `apart` no two of which one may call the other."""
    rounds = []
    for it in bodies:
        fits = (held for held in rounds if len(held) < most and not any(
            it.meets(other) or apart and (it.may_call(other) or other.may_call(it)) for other in held))
        place = next(fits, None)
        if place is None:
            rounds.append([it])
        else:
            place.append(it)
    return rounds
