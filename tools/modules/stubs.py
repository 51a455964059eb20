"""Stubs for the functions that a check doesn't judge, so that it needs no proof of them.

A stub has the head of its function, with its contract, a loop without end in place of the body, and
a hole in place of the proof. A check that goes past holes takes it as proved: `rt ci` shows whether
it is. So nothing below such a function is checked.
"""

import os
import shutil

PROOF = "use Rattle.{crate}.proofs.{path}.Statement.{{statement}}\n\npub {name}_spec : {{M : Type 1}} → statement M\n{name}_spec = ?\n"


def can_be_stub(function, lines, real):
    """Returns whether a stub can be put in place of this function. Its body must be some lines of
    their own, and have none of the functions that are to stay."""
    opens, closes = lines[function.opens - 1], lines[function.last - 1]
    has_lines = function.last - function.opens > 1 and opens.endswith("{") and closes.strip() == "}"
    return has_lines and not any(it.file == function.file and function.has(it.first) for it in real)


def put(crate, room, functions, real):
    """Puts stubs into this copy of the crate for all functions that can have one, but for those
    that are to stay real."""
    texts = {}
    for it in functions:
        if it.file not in texts:
            with open(f"{room}/{it.file}", encoding="utf-8") as held:
                texts[it.file] = held.read().split("\n")
        lines = texts[it.file]
        if it not in real and it.name != "main" and can_be_stub(it, lines, real):
            lines[it.opens: it.last - 1] = ["loop {}"] + [""] * (it.last - it.opens - 2)
            put_proof(crate, room, it)
    for file, lines in texts.items():
        with open(f"{room}/{file}", "w", encoding="utf-8") as held:
            held.write("\n".join(lines))


def put_proof(crate, room, function):
    place = function.place()
    above = os.path.dirname(f"{room}/proofs/{'/'.join(place)}")
    for name in (function.name, f"+{function.name}"):
        shutil.rmtree(f"{above}/{name}", ignore_errors=True)
    os.makedirs(f"{above}/{function.name}")
    with open(f"{above}/{function.name}/Proof.antt", "w", encoding="utf-8") as held:
        held.write(PROOF.format(crate=crate.name, path=".".join(place), name=function.name))
