"""Shapes of a picture in SVG, with the colours of the pictures that amo_show draws.

`picture` is where to start reading. A kind is a class of the style: `proved`, `tested`, `assumed`,
`plain` or `faint`. Lengths are in pixels, and a letter is LETTER wide.
"""

from __future__ import annotations

from typing import Iterable, Sequence
from xml.sax.saxutils import escape

LETTER, ROW = 7.25, 16
STYLE = """
.g{fill:#fff}.i{fill:#1f2328}.f{fill:#59636e}
.proved{fill:#0072b2}.tested{fill:#b84a00}.assumed{fill:#59636e}
.b{fill:none;stroke-width:2}.l{fill:none;stroke-width:1.5;stroke:#59636e}.a{fill:#59636e}
.b.proved{stroke:#0072b2}.b.tested{stroke:#b84a00}.b.assumed{stroke:#8c959f;stroke-dasharray:5 4}
.b.plain{stroke:#c4ccd4}.b.faint{stroke:#c4ccd4;stroke-dasharray:2 3}
@media(prefers-color-scheme:dark){
.g{fill:#0d1117}.i{fill:#e6edf3}.f{fill:#9198a1}
.proved{fill:#56b4e9}.tested{fill:#e69f00}.assumed{fill:#9198a1}
.b{fill:none}.l{stroke:#9198a1}.a{fill:#9198a1}
.b.proved{stroke:#56b4e9}.b.tested{stroke:#e69f00}.b.assumed{stroke:#6e7681}
.b.plain{stroke:#3d444d}.b.faint{stroke:#3d444d}
}
"""


def number(value: float) -> str:
    """Returns a length with at most one decimal."""
    return f"{value:.1f}".removesuffix(".0")


def text(x: float, y: float, words: str, kind: str = "i", anchor: str = "start") -> str:
    """Returns a line of text that begins, ends or has its middle at a place."""
    return (f'<text class="{kind}" x="{number(x)}" y="{number(y)}" text-anchor="{anchor}"'
            f' xml:space="preserve">{escape(words)}</text>')


def frame(x: float, y: float, width: float, height: float, kind: str) -> str:
    """Returns the frame of a box."""
    return (f'<rect class="b {kind}" x="{number(x)}" y="{number(y)}" width="{number(width)}"'
            f' height="{number(height)}" rx="4"/>')


def box(x: float, y: float, width: float, lines: Sequence[str], kind: str) -> str:
    """Returns a box with lines of text; the first one has the colour of its kind."""
    height = box_height(lines)
    first = kind if kind in ("proved", "tested", "assumed") else "i"
    shown = [text(x + width / 2, y + 21 + ROW * k, it, "f" if k else first, "middle")
             for k, it in enumerate(lines)]
    return "\n".join([frame(x, y, width, height, kind), *shown])


def box_height(lines: Sequence[str]) -> float:
    """Returns the height of a box with so many lines."""
    return ROW * len(lines) + 16


def line(points: Sequence[tuple[float, float]]) -> str:
    """Returns a line through these points."""
    path = "M" + "L".join(f"{number(x)} {number(y)}" for x, y in points)
    return f'<path class="l" d="{path}"/>'


def arrow(points: Sequence[tuple[float, float]], both: bool = False) -> str:
    """Returns a line through these points, with a head at its end, or at both ends."""
    heads = [head(points[-2], points[-1])] + ([head(points[1], points[0])] if both else [])
    return "\n".join([line(points), *heads])


def head(start: tuple[float, float], end: tuple[float, float]) -> str:
    """Returns the head of an arrow that comes from the start; it lies along an axis."""
    (x, y), across = end, start[1] == end[1]
    step = 8 if (end[0] > start[0] if across else end[1] > start[1]) else -8
    back = [(x - step, y - 4), (x - step, y + 4)] if across else [(x - 4, y - step),
                                                                 (x + 4, y - step)]
    corners = "L".join(f"{number(px)} {number(py)}" for px, py in [end, *back])
    return f'<path class="a" d="M{corners}z"/>'


def legend(x: float, y: float, kinds: Iterable[tuple[str, str]]) -> str:
    """Returns a row of small frames, each with its meaning beside it."""
    shown = []
    for kind, words in kinds:
        shown += [frame(x, y - 10, 22, 12, kind), text(x + 30, y, words)]
        x += 30 + LETTER * len(words) + 26
    return "\n".join(shown)


def picture(width: int, height: int, title: str, words: str, shapes: Iterable[str]) -> str:
    """Returns a picture with a title, and with words for readers who can't see it."""
    return (f'<svg xmlns="http://www.w3.org/2000/svg" lang="en" role="img" font-family="monospace"'
            f' font-size="12" viewBox="0 0 {width} {height}" width="{width}" height="{height}">\n'
            f"<title>{escape(title)}</title>\n<desc>{escape(words)}</desc>\n"
            f"<style>{STYLE}</style>\n"
            f'<path class="g" d="M0 0h{width}v{height}h-{width}z"/>\n'
            + "\n".join(shapes) + "\n</svg>\n")
