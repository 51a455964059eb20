"""What `status RUN --damaged` of the stand-in says of a run that is refused: what can be read of
each file, and which lines were attempted. It writes nothing."""

import re
import sys

from stand_attempts import records_in
from stand_files import MISTAKE, NO_ID, OLD_RUN, End, content, numbers, refused_folder
from stand_folder import check_id, is_there
from stand_header import FILES, Header
from stand_journal import LOOKS, appends_in

INTENT = re.compile(rb"intent ([1-9][0-9]{0,19}) ([1-9][0-9]{0,19}) [0-9]{1,20}")


def say(text, record=b""):
    sys.stdout.buffer.write(text.encode() + record + b"\n")


def bytes_of(it, name):
    """Returns the bytes of a file, or the reason why it has none."""
    try:
        data = content(f"{it.run}/{name}")
    except End as end:
        return b"", end.args[1].partition(": ")[2].partition(";")[0]
    if data is None:
        return b"", "missing"
    return data, None if data else "empty"


def header_in(it):
    """Returns the header as far as it can be taken, and what is wrong with it."""
    data, wrong = bytes_of(it, "record")
    if wrong == "missing":
        return Header(), None
    try:
        return Header(it, data), wrong
    except End:
        return Header(), wrong or "damaged"


def read_one(it, header, name):
    """Returns the appends of a file that can be read, and what is wrong with it."""
    data, wrong = bytes_of(it, name)
    found = appends_in(it, name, data)
    damage = found.damage()
    if damage:
        wrong = f"{told(found)}, then damaged: append {len(found.records) + 1}: {damage}"
    return found, wrong or header.lost(name, found.checksums)


def told(found):
    """Returns how many appends there are, in words."""
    count = len(found.records)
    return f"{count} append{'' if count == 1 else 's'}"


def read_again(it, header, name):
    """Returns the readable part of a file that shows this twice, since it may have been read during
    a write."""
    before = None
    for _ in range(LOOKS):
        found, wrong = read_one(it, header, name)
        if not wrong or before == (found.end, found.rest, wrong):
            break
        before = found.end, found.rest, wrong
    return found, wrong


def read_all(it):
    """Returns the header, what is wrong with it, and of each other file what can be read and is
    wrong."""
    for is_last in (False, True):
        header, wrong = header_in(it)
        found = {name: read_again(it, header, name) for name in FILES}
        has_records = any(appends.records for appends, _ in found.values())
        if header.is_there or wrong or not has_records or is_last:
            break
    if not header.is_there and has_records:
        wrong = wrong or "missing"
    return header, wrong, found


def lines_in(it, header, is_begun):
    """Returns how many lines `jobs` has, or None if it can't be read; and its fault. Before the
    first round it is missing."""
    data, wrong = bytes_of(it, "jobs")
    if wrong == "missing" and not is_begun:
        return None, None
    wrong = wrong or header.why_jobs(data)
    return (None, wrong) if wrong else (data.count(b"\n"), None)


def attempts_in(found):
    """Of each line that a readable intent names, the names of its attempts."""
    attempts = {}
    for worker, name in enumerate(FILES[1:], 1):
        for record in (it for append in found[name][0].records for it in records_in(append)):
            if said := INTENT.fullmatch(record):
                serial, line = numbers(said.groups(), 2) or (0, 0)
                attempts.setdefault(line, []).append(f"{worker}.{serial}")
    return attempts


def check(it):
    """Takes the run's id, which alone has to be sound."""
    found = content(f"{it.run}/id")
    if found is None:
        is_run = is_there(f"{it.run}/record") and not it.id
        raise refused_folder(it, 65, OLD_RUN if is_run else NO_ID)
    check_id(it, found)
    it.is_old, it.run_id = False, found[:32]


def tell_damage(it):
    """Prints what can be read, and ends with status 65 if something is wrong."""
    check(it)
    header, wrong, found = read_all(it)
    count, wrong_jobs = lines_in(it, header, header.is_there or wrong)
    for name, what in (("record", wrong), ("jobs", wrong_jobs)):
        if what:
            say(f"{name}: {what}")
    for name in FILES:
        appends, what = found[name]
        if what or appends.records:
            say(f"{name}: {what or told(appends)}")
        for record in appends.records:
            say("  ", record)
    attempts = attempts_in(found)
    unknown = "open" if MISTAKE == "unknown_is_open" else "not known"
    for line in sorted({*range(1, (count or 0) + 1), *attempts}):
        names = attempts.get(line)
        say(f"line {line}: " + (f"attempted by {' '.join(names)}" if names else unknown))
    if wrong or wrong_jobs or any(what for _, what in found.values()):
        sys.stdout.flush()
        raise refused_folder(it, 65, "damaged; keep it as it is, and read docs/guide/operating.md,"
                                     " `A journal is refused`")
