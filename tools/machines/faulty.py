#!/usr/bin/env python3
"""A store that answers badly, in front of any claim program.

  faulty.py PERCENT COUNTS CMD WORDS..   treats so many of a hundred claims badly: drops them,
                                         loses, cuts or delays the answer, carries them out late,
                                         or carries them out again later
  faulty.py first COUNTS CMD WORDS..     loses the first answer to each claim

It appends a word for each call to the file COUNTS: how it treated that call. It passes on other
words than claim as they are.
"""

import os
import random
import subprocess
import sys
import time

KINDS = "dropped lost cut late carried_late again_later".split()


def later(words, seconds):
    """Carries it out in a while, when whoever asked has gone."""
    subprocess.Popen(["sh", "-c", 'sleep "$1"; shift; exec "$@"', "sh", str(seconds), *words], stdin=subprocess.DEVNULL,
                     stdout=subprocess.DEVNULL, stderr=subprocess.DEVNULL, start_new_session=True)


def main(percent, counts, *words):
    if percent == "first":
        asked = f"{counts}.{'.'.join(words[-3:-1])}"
        kind = "asked" if os.path.exists(asked) or "claim" not in words else "lost"
        open(asked, "w").close()
    else:
        is_bad = "claim" in words and random.randrange(100) < int(percent)
        kind = random.choice(KINDS) if is_bad else "asked"
    with open(counts, "a") as file:
        file.write(f"{kind}\n")
    if kind in ("dropped", "carried_late"):
        if kind == "carried_late":
            later(words, random.random())
        return 75
    ended = subprocess.run(words, stdout=subprocess.PIPE)
    if kind == "late":
        time.sleep(random.random())
    if kind == "again_later":
        later(words, random.random())
    text = ended.stdout[:random.randrange(len(ended.stdout) or 1)] if kind == "cut" else ended.stdout
    os.write(1, b"" if kind == "lost" else text)
    return ended.returncode


if __name__ == "__main__":
    sys.exit(main(*sys.argv[1:]))
