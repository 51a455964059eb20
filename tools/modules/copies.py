"""Copies of functions, each with a wrong body or a twin, so that one check looks at several bodies
of a function.

A copy of `f` is named `f_body_1`, say. It has the attributes, the contract and the proof of `f`,
and stands below all else in the file of `f`, a method in an `impl` block of its own. Nobody calls
it, so what is wrong in it changes nothing for other functions, and `f` itself can have a stub. An
edit that is refused in a copy shows something only if a copy with a twin of `f`, or one with `f` as
it is, is proved.
"""

import os
import re

import edits
import source

ADDED = re.compile(r"\bfn (\w+)")
# A function that has one of these attributes is more than a copy of it would be.
UNLIKE = re.compile(r"\s*#\[(unsafe\()?(cycle|no_mangle|export_name|test|cfg)\b")


class Copied(edits.Change):
    """A copy of a function with a body in it, or, where `body` is None, as the function is."""

    def __init__(self, body: edits.Body | None, copy: source.Function):
        super().__init__()
        self.body, self.is_copy, self.functions = body, True, [copy]
        self.is_twin = body is None or body.is_twin
        self.calls = body.calls if body else set()
        self.name = f"{body.name if body else copy.origin.name} in {copy.name}"
        # the text of each line of the copy, by number, and of each file of its proof
        self.texts, self.proofs = {}, {}

    def in_place(self, line: str) -> str:
        copy = self.functions[0]
        by = copy.first - copy.origin.first
        moved_back = lambda it: f"{copy.file}:{int(it[1]) - by}:" if copy.has(int(it[1])) else it[0]
        line = re.sub(re.escape(copy.file) + r":(\d+):", moved_back, line)
        return re.sub(rf"\b{copy.name}\b", copy.origin.name, line)

    def put(self, room: str) -> None:
        """Puts the copy and its proof into this copy of the crate."""
        source.set_lines(f"{room}/{self.functions[0].file}", self.texts)
        for path, text in self.proofs.items():
            os.makedirs(os.path.dirname(f"{room}/{path}"), exist_ok=True)
            with open(f"{room}/{path}", "w", encoding="utf-8") as held:
                held.write(text)


class Maker:
    """Makes the copies of a crate's functions. Each has lines of its own in its file, whichever of
    the copies a check has."""

    def __init__(self, crate, functions: list[source.Function]):
        self.crate, self.functions = crate, functions
        self.names = {it.name for it in functions}
        self.files, self.ends = {}, {}

    def lines(self, file: str) -> list[str]:
        """Returns the lines of a file, as they are."""
        if file not in self.files:
            self.files[file] = source.lines_of(f"{self.crate.folder}/{file}")
            self.ends[file] = len(self.files[file])
        return self.files[file]

    def can_copy(self, body: edits.Body) -> bool:
        """Returns whether this body changes one function and its proof alone, and it can have a
        copy."""
        function, proof = body.functions[0], self.proof_of(body.functions[0])
        if len(body.functions) > 1 or not self.can_have_copy(function):
            return False
        within = lambda path, number: body.has(path, number) or path.startswith(f"{proof}/")
        head = body.lines.get((function.file, function.first), "fn " + function.name)
        return all(within(*it) for it in body.lines) and bool(named(function).search(head))

    def can_have_copy(self, function: source.Function) -> bool:
        """Returns whether this function can have a copy. It must be a free function or a method
        of a type's own, and not call itself. No name, proof or other function may tie it to its
        place."""
        lines, block = self.lines(function.file), function.block
        head = f"{'    ' if block else ''}(pub(\\(\\w+\\))? )?(const )?fn {function.name}\\b"
        is_alone = not any(
            it is not function and it.file == function.file and function.has(it.first)
            for it in self.functions)
        attributes = lines[first_of(lines, function) - 1: function.first - 1]
        return bool(
            re.match(head, lines[function.first - 1]) and function.name != "main"
            and (not block or self.has_plain_head(function)) and is_alone
            and not function.cycle and not any(map(UNLIKE.match, attributes))
            and not self.is_tied(function))

    def has_plain_head(self, function: source.Function) -> bool:
        """Returns whether the lines of the `impl` that this method stands in can stand once
        more."""
        lines, block = self.lines(function.file), function.block
        begins, opens = lines[block.first - 1], lines[block.opens - 1]
        return not block.trait and begins.startswith("impl") and opens.endswith("{")

    def proof_of(self, function: source.Function) -> str:
        return "/".join(["proofs", *function.place()])

    def is_tied(self, function: source.Function) -> bool:
        """Returns whether all of its proof is written by hand, or the function calls itself."""
        proof = f"{self.crate.folder}/{self.proof_of(function)}"
        own = os.path.join(os.path.dirname(proof), f"+{function.name}")
        return os.path.isdir(own) or os.path.isfile(f"{proof}/Proof.antt")

    def copied(self, function: source.Function, body: edits.Body | None = None) -> Copied:
        """Returns a copy of this function with this body, or as it is."""
        lines, block = self.lines(function.file), function.block
        first, name = first_of(lines, function), self.new_name(function.name)
        above = lines[block.first - 1: block.opens] + imports_of(lines, block) if block else []
        start = self.ends[function.file] + len(above) + 1
        copy = moved(function, name, start - first)
        made = Copied(body, copy)
        changed = body.lines if body else {}
        own = [self.line(function, name, it, changed) for it in range(first, function.last + 1)]
        texts = [*above, *own, *(["}"] if block else [])]
        made.texts = dict(enumerate(texts, self.ends[function.file] + 1))
        made.lines = {(file, number + start - first): text
                      for (file, number), text in changed.items() if file == function.file}
        self.ends[function.file] += len(texts)
        self.add_proof(made, function, changed)
        return made

    def line(self, function: source.Function, name: str, number: int, changed: dict) -> str:
        """Returns the text of a line of a copy. The copy's name is new, and so is that of each
        function that the body adds."""
        old = self.lines(function.file)[number - 1]
        text = changed.get((function.file, number), old)
        if number == function.first:
            text = named(function).sub(f"fn {name}", text, count=1)
        kept = [name, *ADDED.findall(old)]
        fresh = lambda it: it[0] if it[1] in kept else f"fn {self.new_name(it[1])}"
        return ADDED.sub(fresh, text)

    def new_name(self, name: str) -> str:
        """Returns a name for a copy of the function of this name that nothing else has."""
        number = 1
        while f"{name}_body_{number}" in self.names:
            number += 1
        self.names.add(f"{name}_body_{number}")
        return f"{name}_body_{number}"

    def add_proof(self, made: Copied, function: source.Function, changed: dict) -> None:
        """Gives the copy the proof of its function, with the body's lines, under the new name."""
        proof, copy = self.proof_of(function), made.functions[0]
        to = f"{os.path.dirname(proof)}/{copy.name}"
        module = re.compile(re.escape(proof.replace("/", ".")) + r"(?![\w+-])")
        for place, _, names in os.walk(f"{self.crate.folder}/{proof}"):
            for name in names:
                file = os.path.relpath(f"{place}/{name}", self.crate.folder)
                target = to + file.removeprefix(proof)
                lines = source.lines_of(f"{self.crate.folder}/{file}")
                texts = {number: text for (path, number), text in changed.items() if path == file}
                lines = [texts.get(number, line) for number, line in enumerate(lines, 1)]
                made.proofs[target] = module.sub(to.replace("/", "."), "\n".join(lines))
                made.lines.update({(target, number): text for number, text in texts.items()})


def named(function: source.Function) -> re.Pattern:
    """Returns the pattern of a function's name in its head."""
    return re.compile(rf"\bfn {function.name}\b")


def moved(function: source.Function, name: str, by: int) -> source.Function:
    """This function under another name, so many lines further down."""
    lines = (function.first + by, function.opens + by, function.last + by)
    copy = source.Function(function.file, name, function.block, None, lines, [])
    copy.words, copy.called, copy.home = function.words, function.called, function.home
    copy.origin = function
    return copy


def first_of(lines: list[str], function: source.Function) -> int:
    """Returns the line of a function's first attribute, or of its head if it has none."""
    first = at = function.first
    while at > 1 and lines[at - 2].lstrip().startswith(("#[", "//")):
        at -= 1
        first = at if lines[at - 1].lstrip().startswith("#[") else first
    return first


def imports_of(lines: list[str], block: source.Block) -> list[str]:
    """Returns the imports of an `impl` block for its contracts."""
    return [it for it in lines[block.opens: block.last] if it.startswith("    ghost use ")]


def tries_of(crate, functions: list[source.Function], bodies: list[edits.Body], most: int) -> list:
    """Returns the first tries of these bodies: the twins, copies of functions as they are, and the
    edits, each in its place or in a copy.

    A function with a twin and an edit, or with several edits, has them in copies, with one of it as
    it is if it has no twin. An edit that its function has alone is in its place. If it can't stand
    together with the others there, and needs one more check, it has a copy.
    """
    maker = Maker(crate, functions)
    able = [it for it in bodies if maker.can_copy(it)]
    edited = [it.functions[0] for it in able if not it.is_twin]
    twinned = [it.functions[0] for it in able if it.is_twin]
    chosen = [it for it in dict.fromkeys(edited) if it in twinned or edited.count(it) > 1]
    few = tries = tries_with(chosen, maker, able, bodies)
    while met := met_in(tries, able):
        chosen += [it.functions[0] for it in met]
        tries = tries_with(chosen, Maker(crate, functions), able, bodies)
    rounds = lambda it: len(edits.rounds_of(it, most))
    return few if rounds(few) <= rounds(tries) else tries


def tries_with(chosen: list[source.Function], maker: Maker, able: list, bodies: list) -> list:
    """Returns the tries of these bodies if the able ones of the chosen functions are in copies."""
    twinned = [it.functions[0] for it in able if it.is_twin]
    plain = [maker.copied(it) for it in dict.fromkeys(chosen) if it not in twinned]
    is_copied = lambda it: it in able and it.functions[0] in chosen
    tries = [maker.copied(it.functions[0], it) if is_copied(it) else it for it in bodies]
    twins = [it for it in tries if it.is_twin]
    return twins + plain + [it for it in tries if not it.is_twin]


def met_in(tries: list, able: list[edits.Body]) -> list[edits.Body]:
    """Returns the able bodies in their place that can't stand together with others."""
    return [it for it in tries
            if it in able and any(it.meets(other) for other in tries if other is not it)]
