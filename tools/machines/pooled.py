#!/usr/bin/env python3
"""Stands for psql with a pooler by transactions: each transaction has a session of its own.

  pooled.py WORDS..      the words of psql; the statements come by standard input

AMO_PSQL names the real psql.
"""

import os
import re
import subprocess
import sys


def transactions(text):
    """Yields the transactions: a statement each, or all from BEGIN to COMMIT."""
    held = ""
    for it in re.findall(r"(?s).*?(?:;|\\g[^\n]*)\n", text):
        held += it
        if not held.startswith("BEGIN") or it.startswith("COMMIT"):
            yield held
            held = ""


def main(words):
    for it in transactions(sys.stdin.read()):
        ended = subprocess.run([os.environ["AMO_PSQL"], *words], input=it.encode())
        if ended.returncode:
            return ended.returncode
    return 0


if __name__ == "__main__":
    sys.exit(main(sys.argv[1:]))
