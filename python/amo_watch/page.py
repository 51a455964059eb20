"""The page of a report: one HTML file that needs nothing else. Begin with `page_of`.

Whatever a list holds is shown as text. A character that can't be seen is written as its escape.
"""

from __future__ import annotations

import html
import shlex
from typing import Any, Dict, Iterator, Optional

from amo_jobs.messages import visible
from amo_jobs.status import ANSWERS
from amo_watch.assets import policy, SCRIPT, STYLE
from amo_watch.charts import histogram, timeline
from amo_watch.snapshot import NAMES
from amo_watch.texts import dated, lasting

LONG = 600  # characters of a text that are shown at once


def shown(text: Any) -> str:
    """Returns a text as it may stand in the page."""
    return html.escape(visible(str(text)))


def folded(text: str) -> str:
    """Returns a text, and of a long one the rest behind a word that opens it."""
    if len(text) <= LONG:
        return shown(text)
    return (f"{shown(text[:LONG])}<details><summary>{len(text) - LONG} more characters</summary>"
            f"{shown(text[LONG:])}</details>")


def line_text(row: Dict[str, Any]) -> str:
    """Returns the text of a line, as far as the report has it."""
    more = f" <span class=\"soft\">.. {row['cut']} more characters</span>" if row["cut"] else ""
    return folded(row["text"]) + more


def page_of(facts: Dict[str, Any]) -> Iterator[str]:
    """Yields the page, part by part."""
    name = facts["list"] or facts["folder"]
    yield ("<!DOCTYPE html>\n<html lang=\"en\"><head><meta charset=\"utf-8\">"
           "<meta name=\"viewport\" content=\"width=device-width,initial-scale=1\">"
           f"<meta http-equiv=\"Content-Security-Policy\" content=\"{html.escape(policy())}\">"
           f"<title>{shown(name)}: report of amo</title><style>{STYLE}</style></head><body>")
    yield from head(facts, name)
    yield from doubts(facts)
    yield from rows(facts, "failures", "Failed", "Each command ended with the status that is shown."
                    " It may have done something.")
    yield from rows(facts, "untouched", "Untouched", "Each command reported that it did nothing."
                    " The last command here opens all of these lines once more.")
    yield from table(facts, "answered", "Answered by hand", "Nobody has answered.")
    yield from timeline(facts)
    yield from table(facts, "slowest", "Slowest lines", "No attempt has ended.")
    yield from histogram(facts)
    yield from given(facts)
    yield f"<script>{SCRIPT}</script></body></html>\n"


def head(facts: Dict[str, Any], name: str) -> Iterator[str]:
    """Yields the title, the counts, the rates, and links to the parts."""
    yield (f"<header><h1>Report of {shown(name)}</h1><p>{facts['lines']} lines, as they stood at"
           f" <time>{dated(facts['made'])}</time>.</p>")
    yield "<dl class=\"counts\">"
    for kind, count in facts["counts"].items():
        yield f"<div><dt class=\"{kind}\">{NAMES[kind]}</dt><dd>{count}</dd></div>"
    yield f"</dl><p>{shown(pace_text(facts))}</p>"
    parts = [("doubts", "In doubt"), ("failures", "Failed"), ("untouched", "Untouched"),
             ("answered", "Answered"), ("timeline", "Timeline"), ("slowest", "Slowest lines"),
             ("histogram", "Durations"), ("given", "Settings of the run")]
    links = "".join(f"<li><a href=\"#{it}\">{text}</a></li>" for it, text in parts)
    yield f"<nav aria-label=\"Parts\"><ul>{links}</ul></nav><p class=\"tools\" id=\"tools\"></p>"
    yield f"{left_out(facts)}</header>"


def left_out(facts: Dict[str, Any]) -> str:
    """Returns what the page leaves out."""
    items = "".join(f"<li>{shown(it)}</li>" for it in facts["left_out"])
    return f"<div id=\"left_out\"><p>Left out here:</p><ul>{items}</ul></div>" if items else ""


def pace_text(facts: Dict[str, Any]) -> str:
    """Returns how fast the run was, and when it will be over."""
    rates, counts = facts["rates"], facts["counts"]
    if rates["begun"] is None:
        return "No line was begun yet."
    text = f"The first line was begun {dated(rates['begun'])}"
    if rates["ended"] is not None:
        span = lasting(rates["ended"] - rates["begun"])
        text += f", the last end was recorded {dated(rates['ended'])}, {span} later"
    text += (f". {rates['ends']} attempts have ended: {rates['a_second']:g} a second without doubts"
             f" and pauses, and {rates['last_minute']:g} a second in the last minute.")
    if rates["over_at"] is not None:
        return f"{text} At that pace all lines are closed at {dated(rates['over_at'])}."
    if counts["open"] or counts["pending"]:
        return f"{text} No attempt ended in the last minute, so no end can be expected."
    return f"{text} All lines are closed."


def doubts(facts: Dict[str, Any]) -> Iterator[str]:
    """Yields the lines in doubt, and those that are running or in doubt."""
    yield "<section id=\"doubts\"><h2>In doubt</h2>"
    if not facts["doubts"] and not facts["pending"]:
        yield "<p>No line is in doubt, and none is running.</p>"
    if facts["doubts"]:
        yield ("<p>Each of these lines may have been performed, and no process has the lock of its"
               " command any more. Find out at the receiver whether it happened. Then give one"
               " of the two commands. <strong>Don't answer not-done while a request may still be on"
               " its way</strong>: the line would be performed twice.</p>")
    yield from map(article, facts["doubts"])
    if facts["pending"]:
        yield ("<p>The next lines were begun, and no end is recorded. They are running, or they are"
               " in doubt: nobody has looked whether something of them still runs.</p>"
               + command(facts["pending"][0]["commands"][0], "To look:"))
    yield from map(article, facts["pending"])
    yield "</section>"


def rows(facts: Dict[str, Any], name: str, title: str, about: str) -> Iterator[str]:
    """Yields the lines of one list."""
    yield f"<section id=\"{name}\"><h2>{title}</h2>"
    yield f"<p>{about}</p>" if facts[name] else "<p>None.</p>"
    yield from map(article, facts[name])
    yield command(facts["again"], "To open all untouched lines once more:") if (
        name == "untouched" and facts[name]) else ""
    yield "</section>"


def article(row: Dict[str, Any]) -> str:
    """Returns a line with all that is known of its attempt."""
    return (f"<article class=\"{row['state']}\"><h3>Line {row['line']}: <span class=\"text\">"
            f"{line_text(row)}</span></h3><p><span class=\"{row['state']}\">"
            f"{NAMES[row['state']]}</span>, attempt {row['attempt']}, begun {dated(row['begun'])},"
            f" {end_of(row)}</p>{outputs(row)}{answers(row)}</article>")


def end_of(row: Dict[str, Any]) -> str:
    """Returns how an attempt ended, and how long ago. Nobody may have seen the end of a doubt."""
    how = "ended" if row["code"] is None else f"ended with status {row['code']}"
    if row["ended"] is None:
        return "no end is recorded" if row["state"] == "pending" else f"{how} {dated(None)}"
    age = f", {lasting(row['age'])} ago" if row["age"] is not None else ""
    return f"{'recorded as over' if row['code'] is None else how} {dated(row['ended'])}{age}"


def answers(row: Dict[str, Any]) -> str:
    """Returns the commands by which an operator answers, each with what it says."""
    if row["state"] == "pending" or not row["commands"]:
        return ""
    return "".join(map(command, row["commands"], ANSWERS.values()))


def outputs(row: Dict[str, Any]) -> str:
    """Returns the ends of what the command has printed."""
    if not row["outputs"]:
        return "<p class=\"soft\">It has printed nothing that was kept.</p>"
    return "".join(map(output, row["outputs"]))


def output(it: Dict[str, Any]) -> str:
    """Returns the end of what was printed to one file, unless the report leaves it out."""
    head = f"<p class=\"soft\">{shown(it['path'])}, {it['size']} bytes"
    return (f"{head}, its end:</p><pre>" + "\n".join(map(shown, it["end"])) + "</pre>"
            if it["end"] else f"{head}, left out here</p>")


def command(text: str, label: str) -> str:
    """Returns a command that can be copied, below what it is for."""
    return (f"<p class=\"label\">{label}</p><code class=\"command\" tabindex=\"0\">"
            f"{html.escape(text)}</code>")


def table(facts: Dict[str, Any], name: str, title: str, none: str) -> Iterator[str]:
    """Yields the table of one list, or this text if the list is empty."""
    yield f"<section id=\"{name}\"><h2>{title}</h2>"
    if not facts[name]:
        yield f"<p>{none}</p></section>"
        return
    heads = ("Line", "Text", "Attempt", "Seconds", "Begun", "How it stands")
    yield ("<table class=\"sorted\"><thead><tr>"
           + "".join(f"<th scope=\"col\">{it}</th>" for it in heads) + "</tr></thead><tbody>")
    for row in facts[name]:
        cells = [(row["line"], shown(row["line"])), (None, line_text(row)),
                 (None, shown(row["attempt"])), (row["seconds"], shown(row["seconds"])),
                 (row["begun"], dated(row["begun"])), (None, standing(row))]
        yield "<tr>" + "".join(cell(head, *it) for head, it in zip(heads, cells)) + "</tr>"
    yield "</tbody></table></section>"


def standing(row: Dict[str, Any]) -> str:
    """Returns how an attempt stands. An answer counts for its line, not for what was seen."""
    if row["answer"]:
        return "done, as answered" if row["answer"] == "done" else "opened again"
    return "not started" if row["state"] == "open" else NAMES[row["state"]]


def cell(name: str, key: Optional[int], content: str) -> str:
    """Returns a cell of a table, with the number by which it is sorted, if it has one."""
    more = "" if key is None else f" data-key=\"{key}\""
    return f"<td data-name=\"{name}\"{more}><span class=\"text\">{content}</span></td>"


def given(facts: Dict[str, Any]) -> Iterator[str]:
    """Yields what the run was given."""
    yield ("<section id=\"given\"><h2>Settings of the run</h2><table><thead><tr>"
           "<th scope=\"col\">What</th><th scope=\"col\">Value</th></tr></thead><tbody>")
    options, words = facts["options"], facts["command"]
    values = [("List", facts["list"]), ("Folder", facts["folder"]), ("Id", facts["id"]),
              ("Command", shlex.join(words) if words else None),
              ("Options", shlex.join(options) if options else None),
              ("Results", facts["results"]), ("Workers", facts["workers"]),
              ("Round", facts["round"]), ("Attempts", facts["attempts"]),
              ("Version of the crew", facts["version"]),
              ("Version of this report", facts["program"])]
    for name, value in values:
        text = "not known" if value is None else value
        yield f"<tr>{cell('What', None, name)}{cell('Value', None, folded(str(text)))}</tr>"
    yield "</tbody></table></section>"
