"""The charts of the report: the timeline, and the histogram of durations."""

from __future__ import annotations

from typing import Any, Dict, Iterator

from amo_jobs.runner_state import BY_CREW, RUNNER_AGAIN, WORKER_AGAIN
from amo_watch import snapshot
from amo_watch.texts import dated
from amo_watch.timeline import MACHINE, MEANINGS

NAMES = {**snapshot.NAMES, "open": "not started, or opened again"}
SIGNS = {MACHINE: "M", BY_CREW: "C", RUNNER_AGAIN: "R", WORKER_AGAIN: "W"}


def timeline(facts: Dict[str, Any]) -> Iterator[str]:
    """Yields the timeline: a lane a worker, and a bar an attempt."""
    found = facts["timeline"]
    yield "<section id=\"timeline\"><h2>Timeline</h2>"
    if not found["lanes"]:
        yield "<p>No line was begun yet.</p></section>"
        return
    yield "<ul class=\"key\">" + "".join(
        f"<li><i class=\"b-{it}\"></i> {name}</li>" for it, name in NAMES.items()) + "</ul>"
    if found["is_aggregated"]:
        yield ("<p>Each bar stands for all attempts of its worker that began in its time, by their"
               " shares.</p>")
    for lane in found["lanes"]:
        high = " high" if found["is_aggregated"] else ""
        yield (f"<div class=\"lane\"><span>worker {lane['worker']}<span class=\"soft\">:"
               f" {lane['attempts']} begun</span></span><div class=\"bars{high}\">")
        for bar in lane["bars"]:
            yield bar_of(bar, found)
        yield "".join(mark_of(it, found) for it in found["marks"]
                      if lane["worker"] in it["workers"] or it["kind"] == MACHINE) + "</div></div>"
    yield f"<p class=\"scale soft\"><span>{dated(found['from'])}</span>"
    yield f"<span>{dated(found['to'])}</span></p>"
    yield from marks(found)
    yield "</section>"


def marks(found: Dict[str, Any]) -> Iterator[str]:
    """Yields what the marks mean, when each was, and which starts have none."""
    yield "<p>Lines with a letter are marks:</p><ul class=\"key\">" + "".join(
        f"<li>{sign(it)} {MEANINGS[it].format('workers')}</li>" for it in SIGNS) + "</ul>"
    items = "".join(f"<li>{sign(it['kind'])} {dated(it['time'])}: {it['what']}</li>"
                    for it in sorted(found["marks"], key=lambda it: int(it["time"])))
    yield f"<ul>{items}</ul>" if items else "<p>There is no mark.</p>"
    yield ("<p>A crew or a runner notes each start just before it. A start has no mark if its"
           " note could not be written, or was lost in a power cut. A start of the machine has one"
           " if a worker was started after it, or if it is the last.</p>")


def sign(kind: str) -> str:
    """Returns the letter that stands for a kind of marks."""
    return f"<span class=\"sign\">{SIGNS[kind]}</span>"


def place(seconds: float, found: Dict[str, Any]) -> float:
    """Returns where a time stands in the lane, in percent."""
    first, last = float(found["from"]), float(found["to"])
    return round(100 * (seconds - first) / (last - first), 2)


def bar_of(bar: Dict[str, Any], found: Dict[str, Any]) -> str:
    """Returns a bar; one of many attempts has a part for each kind."""
    left, right = place(bar["from"], found), place(bar["to"], found)
    width = max(right - left, 0) + (0 if bar["attempt"] else 0.02)  # no seam between two
    style = f"left:{min(left, 99.8):g}%;width:{width:.4g}%"
    if bar["attempt"]:
        kind = next(iter(bar["counts"]))
        title = f"line {bar['line']}, attempt {bar['attempt']}: {NAMES[kind]}"
        return f"<i class=\"b-{kind}\" style=\"{style}\" title=\"{title}\"></i>"
    total = sum(bar["counts"].values())
    shares = {it: 100 * bar["counts"][it] / total for it in NAMES if it in bar["counts"]}
    parts = "".join(f"<i class=\"b-{it}\" style=\"height:{share:g}%\"></i>"
                    for it, share in shares.items())
    title = ", ".join(f"{count} {NAMES[it]}" for it, count in bar["counts"].items())
    return f"<i style=\"{style}\" title=\"{title}\">{parts}</i>"


def mark_of(mark: Dict[str, Any], found: Dict[str, Any]) -> str:
    """Returns a line with a letter at the time of a mark."""
    return (f"<b class=\"m-{mark['kind']}\" style=\"left:{place(mark['time'], found):g}%\""
            f" title=\"{mark['what']}\">{sign(mark['kind'])}</b>")


def histogram(facts: Dict[str, Any]) -> Iterator[str]:
    """Yields how many attempts took how long."""
    yield "<section id=\"histogram\"><h2>Durations</h2>"
    rows = facts["histogram"]
    if not rows:
        yield "<p>No attempt has ended.</p></section>"
        return
    yield ("<p>Records have whole seconds, so each duration is right to a second.</p><table><thead>"
           "<tr><th scope=\"col\">Seconds</th><th scope=\"col\">Attempts</th><th scope=\"col\">"
           "Share</th></tr></thead><tbody>")
    most = max(it["count"] for it in rows)
    for it in rows:
        last = it["below"] - 1
        span = "below 1" if not last else "1" if last == 1 else f"{it['from']} to {last}"
        bar = f"<span class=\"bar\" style=\"width:{100 * it['count'] / most:.1f}%\"></span>"
        yield (f"<tr><td>{span}</td><td>{it['count']}</td>"
               f"<td class=\"wide\">{bar if it['count'] else ''}</td></tr>")
    yield "</tbody></table></section>"
