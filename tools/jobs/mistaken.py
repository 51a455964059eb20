#!/usr/bin/env -S python3 -S
"""tools/worker/stand_in.py with a mistake that AMO_MISTAKE names: one of its own, or one of those
here."""

import os
import sys
import tempfile
import types

sys.dont_write_bytecode = True
NAME = os.environ.get("AMO_MISTAKE", "")
sys.path.insert(0, os.path.dirname(os.path.dirname(os.path.realpath(__file__))))


def lists_what_runs(worker):
    """A doubt is listed while its command may still do it."""
    worker.is_got = lambda path, flags, held: True


def answers_by_line(worker):
    """An answer is taken for the intent by which the line is closed now, whichever it names."""
    if sys.argv[1] != "answer":
        return
    with open(f"{sys.argv[2]}/id", "rb") as file:
        folder = types.SimpleNamespace(run=sys.argv[2], is_old=False, run_id=file.read(32))
    place, closing = sys.argv.index("--from") + 1, worker.Ledger(folder).closing
    with open(sys.argv[place], "rb") as file:
        rows = [row.split(b"\t") for row in file.read().splitlines()]
    with tempfile.NamedTemporaryFile(delete=False) as file:
        for row in rows:
            file.write(b"\t".join([closing[int(row[1])][0].name().encode(), *row[1:]]) + b"\n")
    sys.argv[place] = file.name


def answers_what_runs(worker):
    """An answer is taken for a job that is running."""
    refusal = worker.refusal

    def taken(ledger, *row):
        why = refusal(ledger, *row)
        return None if why == worker.RUNNING else why

    worker.refusal = taken


OWN = {it.__name__: it for it in (lists_what_runs, answers_by_line, answers_what_runs)}

if __name__ == "__main__":
    if NAME in OWN:
        del os.environ["AMO_MISTAKE"]
    from worker import stand_in

    if NAME in OWN:
        OWN[NAME](stand_in)
    sys.exit(stand_in.main(sys.argv[1:]))
