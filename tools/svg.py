"""What pictures share: numbers, texts, colours, hatching, and legends whose lines break before the border."""
from __future__ import annotations

import re
from typing import Dict, List, Tuple
from xml.sax.saxutils import escape

# The colours of Okabe and Ito, which colour-blind readers can tell apart; each with the colour of text upon it.
COLOURS = [
    ("#0072b2", "#ffffff"),
    ("#e69f00", "#000000"),
    ("#009e73", "#ffffff"),
    ("#cc79a7", "#000000"),
    ("#56b4e9", "#000000"),
    ("#d55e00", "#ffffff"),
    ("#f0e442", "#000000"),
    ("#999999", "#000000"),
]
GREY = "#555555"
# Characters that XML doesn't have, and those by which a terminal would do something.
UNFIT = re.compile("[\x00-\x1f\x7f-\x9f\ud800-\udfff\ufffe\uffff]")
# Viewers that are dark show these in the place of the colours that pictures have on white.
DARK = """<style>@media (prefers-color-scheme: dark) {
  :not(text)[fill="#ffffff"] { fill: #14181d } [stroke="#ffffff"] { stroke: #14181d }
  [fill="#f3f3f3"] { fill: #2a3138 } [fill="#555555"] { fill: #b0b8c0 } [stroke="#222222"] { stroke: #d0d7de }
  text:not([fill]), text[stroke] { fill: #e8ecf0 }
}</style>"""
LABEL = 11  # the size of letters
TITLE = 15  # and of those of titles
GAP = 26  # between pictures and the border, and between lines of the legend


def colour_at(place: int) -> Tuple[str, str]:
    """Returns the colour of a place in a list, from 0, and that of text upon it."""
    return COLOURS[place % len(COLOURS)]


def number(value: float) -> str:
    """Returns a number with two digits after the point at most."""
    text = f"{value:.2f}".rstrip("0").rstrip(".")
    return "0" if text == "-0" else text


def length(said: str, size: float = LABEL) -> float:
    """Returns about how long a text is at most, in any of the fonts of pictures."""
    return 0.68 * size * len(said)


def escaped(said: str) -> str:
    """Returns a text as a picture can have it, between tags and in quotes."""
    return escape(UNFIT.sub("\ufffd", said), {'"': "&quot;"})


def tip(said: str) -> str:
    """Returns the text that a viewer shows beside a part."""
    return f"<title>{escaped(said)}</title>"


def text(x: float, y: float, said: str, anchor: str = "middle", more: str = "") -> str:
    """Returns a text at a place."""
    return f'<text x="{number(x)}" y="{number(y)}" text-anchor="{anchor}"{more}>{escaped(said)}</text>'


def title(x: float, y: float, said: str) -> str:
    """Returns the title of a part of a picture."""
    return text(x, y, said, more=f' font-size="{TITLE}" font-weight="bold"')


def pattern(name: object, colour: str) -> str:
    """Returns the hatching of what is written and not read."""
    return (
        f'<pattern id="pending-{name}" width="6" height="6" patternUnits="userSpaceOnUse"'
        ' patternTransform="rotate(45)">'
        f'<rect width="6" height="6" fill="#ffffff"/><rect width="3" height="6" fill="{colour}"/></pattern>'
    )


def wrapped(said: str, width: float) -> List[str]:
    """Returns a sentence in lines that are no longer than a width."""
    lines = [""]
    for word in said.split(" "):
        longer = f"{lines[-1]} {word}".strip()
        if lines[-1] and length(longer) > width:
            lines.append(word)
        else:
            lines[-1] = longer
    return lines


def legend(fields: List[Tuple[str, str]], caption: str, width: float) -> Tuple[List[str], float]:
    """Draws a legend of fills and what they say, with a caption below, and returns its height."""
    parts, x, y = [], float(GAP), 0.0
    for fill, said in fields:
        step = 38 + length(said)
        if x + step > width - GAP / 2 and x > GAP:
            x, y = float(GAP), y + GAP - 6
        parts.append(f'<rect x="{number(x)}" y="{number(y)}" width="18" height="12" fill="{fill}" stroke="{GREY}"/>')
        parts.append(text(x + 24, y + 10, said, "start"))
        x += step
    y += GAP if parts else 0
    for line in wrapped(caption, width - 2 * GAP):
        parts.append(text(GAP, y + 8, line, "start", f' fill="{GREY}"'))
        y += LABEL + 5
    return parts, y + GAP - LABEL - 5


def picture(width: float, height: float, hatchings: Dict[object, str], parts: List[str]) -> str:
    """Returns a picture of these parts."""
    lines = [
        f'<svg xmlns="http://www.w3.org/2000/svg" viewBox="0 0 {number(width)} {number(height)}"'
        f' width="{number(width)}" height="{number(height)}"'
        f' font-family="DejaVu Sans, Verdana, sans-serif" font-size="{LABEL}">',
        DARK,
        '<rect width="100%" height="100%" fill="#ffffff"/>',
        "<defs>" + "".join(pattern(name, it) for name, it in hatchings.items()) + "</defs>",
        *parts,
        "</svg>",
    ]
    return "\n".join(lines) + "\n"
