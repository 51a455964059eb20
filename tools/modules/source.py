"""The functions of a crate's sources, found in rattle's own tokens."""

import json
import os
import re
import subprocess

WORD = re.compile(r"\w+\Z")
OPENS, CLOSES = "([{", ")]}"


class Function:
    """A function: its name, the type and the trait of its impl, its module, and its place, in lines
    from 1."""

    def __init__(self, file, name, block, cycle, lines, words):
        self.file, self.name, self.block, self.cycle = file, name, block, cycle
        self.first, self.opens, self.last = lines
        self.words = set(words)
        self.called = called_in(words)
        self.home = self.module()
        # (a copy has the function that it is of)
        self.origin = self

    def module(self):
        return module_of(self.file)

    def place(self):
        """Returns the place below proofs/ of its proof: the module of its type. A trait's method
        has a module of its own, below both names in one word."""
        owner = [self.block.type + "".join(it[0].upper() + it[1:] for it in self.block.of_trait)] if self.block else []
        return [*self.home, *owner, self.name]

    def has(self, line):
        return self.first <= line <= self.last

    def path(self):
        """Returns the name by which a check can be asked for this function. It is its own, or, for
        a trait's method, which has both names in one word, that of its module. It is empty in the
        crate's root."""
        if not self.block:
            return "::".join([*self.module(), self.name])
        return "::".join(self.module()) if self.block.trait else f"{self.block.type}::{self.name}"

    def symbols(self, crate, told):
        """Returns which of these names of a check are this function's: `crate::module::Type::name`,
        of a trait's method with both names in one word, below the type's own module."""
        ending = [it for it in told if it.startswith(f"{crate}::") and it.split("::")[-1] == self.name]
        if not self.block:
            whole = "::".join([crate, *self.module(), self.name])
            return [it for it in ending if it == whole]
        owner = lambda it: it.split("::")[-2]
        if self.block.trait:
            plain = lambda word: word.replace("_", "").replace("+", "").lower()
            found = [it for it in ending if all(plain(word) in plain(owner(it)) for word in self.block.words)]
        else:
            found = [it for it in ending if owner(it).partition("+")[0] == self.block.type]
        near = [it for it in found if it.split("::")[1:-2] == self.module()]
        return near or found

    def is_by_hand(self, folder, crate, told):
        """Returns whether a part of its proof is written by hand."""
        places = ["/".join(it.split("::")[1:]) for it in self.symbols(crate, told)] + ["/".join(self.place())]
        places += ["/".join([*self.module(), f"+{self.cycle}"])] * bool(self.cycle)
        names = ("Answers", "Invariants", "Proof")
        return any(os.path.isfile(f"{folder}/proofs/{place}/{name}.antt") for place in places for name in names)


class Block:
    """The head of an impl or a trait: the type that it is of, the words of both names, and of an
    impl those of its trait. It has the lines at which it begins, opens and ends."""

    def __init__(self, keyword, head, lines):
        self.first, self.opens, self.last = lines
        past = past_angles(head) if head[:1] == ["<"] else 0
        generics, head = head[:past], head[past:]
        head = head[: head.index("where")] if "where" in head else head
        cut = head.index("for") if keyword == "impl" and "for" in head else None
        named = head if cut is None else head[cut + 1:]
        self.trait = cut is not None or keyword == "trait"
        self.type = last_name(named)
        words_of = lambda part: [it for it in part if WORD.match(it) and it not in (*generics, "for", "mut", "dyn")]
        self.words, self.of_trait = words_of(head), words_of(head[:cut or 0])


def module_of(file):
    inside = file.removeprefix("src/").removesuffix(".rt").split("/")
    return [] if inside in (["lib"], ["main"]) else [it for it in inside if it != "mod"]


def called_in(words):
    """Returns the names that may be called in these words: those before a bracket, and the last of
    a path. The name of a field, a local or a type doesn't count. A `?` calls a `from`."""
    after = [*words[1:], ""]
    before = ["", *words[:-1]]
    called = {it for it, behind, ahead in zip(words, after, before) if behind == "(" or ahead == "::" or behind == "::"}
    return called | ({"from"} if called & {"into"} or "?" in words else set())


def past_angles(words):
    depth = 0
    for at, it in enumerate(words):
        depth += (it == "<") - (it == ">" and words[at - 1] != "-")
        if depth == 0:
            return at + 1
    return len(words)


def last_name(words):
    """Returns the last name of a path, before its arguments."""
    plain = words[: words.index("<")] if "<" in words else words
    names = [it for it in plain if WORD.match(it) and it not in ("mut", "dyn")]
    return names[-1] if names else ""


def lines_of(file: str) -> list[str]:
    with open(file, encoding="utf-8") as held:
        return held.read().split("\n")


def set_lines(file: str, texts: dict[int, str]) -> None:
    """Writes these texts into the lines of these numbers of the file, which gets longer if it ends
    before them."""
    lines = lines_of(file)
    lines += [""] * (max(texts, default=0) - len(lines))
    for number, text in texts.items():
        lines[number - 1] = text
    with open(file, "w", encoding="utf-8") as held:
        held.write("\n".join(lines))


def tokens(rattle, folder, file):
    """Returns the line and the text of each token of code, those of contracts left out."""
    ran = subprocess.run([rattle, "fmt", "--tokens", f"{folder}/{file}"], capture_output=True, encoding="utf-8", check=True)
    rows = [it.split(" ", 4) for it in ran.stdout.split("\n")[1:] if it]
    return [(int(row[0]), json.loads(row[4])) for row in rows if row[3] in ("Code", "Literal")]


def end_of(rows, at):
    """Returns the place of the bracket that closes the one here."""
    depth = 0
    for place in range(at, len(rows)):
        text = rows[place][1]
        depth += text in OPENS and len(text) == 1
        depth -= text in CLOSES and len(text) == 1
        if depth == 0:
            return place
    return len(rows) - 1


def opening(rows, at):
    """Returns the place of the `{` of a body, or of the `;` of a function without one."""
    while at < len(rows) and rows[at][1] not in ("{", ";"):
        at = end_of(rows, at) + 1 if rows[at][1] in ("(", "[") else at + 1
    return at


def functions_in(file, rows, at=0, end=None, block=None):
    """Yields the functions of these tokens, an inner one after that which holds it."""
    end, cycle = len(rows) if end is None else end, None
    while at < end:
        line, text = rows[at]
        cycle = rows[at + 2][1] if [it for _, it in rows[at - 1: at + 2]] == ["[", "cycle", "("] else cycle
        is_item = text in ("fn", "impl", "trait", "mod") and (at == 0 or rows[at - 1][1] not in (":", "&", "<", "->"))
        if not is_item or not WORD.match(rows[at + 1][1] if text in ("fn", "mod") else "x"):
            at += 1
            continue
        opens = opening(rows, at)
        closes = end_of(rows, opens) if rows[opens][1] == "{" else opens
        inside = (opens + 1, closes)
        if text == "fn":
            body = [it for _, it in rows[opens + 1: closes]]
            yield Function(file, rows[at + 1][1], block, cycle, (line, rows[opens][0], rows[closes][0]), body)
            yield from functions_in(file, rows, *inside, None)
            cycle = None
        elif rows[opens][1] == "{":
            lines = (line, rows[opens][0], rows[closes][0])
            held = Block(text, [it for _, it in rows[at + 1: opens]], lines) if text != "mod" else block
            yield from functions_in(file, rows, *inside, held)
        at = closes + 1


def functions_of(rattle, folder):
    """Returns all functions of a crate's src/, its tests left out."""
    found, homes = [], {}
    for place, folders, files in os.walk(f"{folder}/src"):
        folders[:] = sorted(it for it in folders if it != "tests")
        for name in sorted(files):
            if name.endswith(".rt") and name != "tests.rt":
                file = os.path.relpath(f"{place}/{name}", folder)
                rows = tokens(rattle, folder, file)
                found += functions_in(file, rows)
                words = [it for _, it in rows]
                homes.update({name: module_of(file) for word, name in zip(words, words[1:]) if word in ("struct", "enum", "trait")})
    for it in found:
        it.home = homes.get(it.block.type, it.home) if it.block and not it.block.trait else it.home
    return found
