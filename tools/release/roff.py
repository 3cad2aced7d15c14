"""Text of pages as man pages: the part of Markdown that the pages use, and the help of argparse."""
from __future__ import annotations

import re
from typing import List

LITERAL = str.maketrans(
    {"\\": "\\e", "-": "\\-", "'": "\\(aq", "`": "\\(ga", "^": "\\(ha", "~": "\\(ti"}
)


def escaped(text: str) -> str:
    """Returns a text as roff shows it literally."""
    return re.sub(r"^\.", r"\\&.", text.translate(LITERAL))


def inline(text: str) -> str:
    """Returns a line of prose: names in backticks are bold, links are their words."""
    text = re.sub(r"\[([^\]]*)\]\([^)\s]*\)", r"\1", text)
    parts = re.split(r"(`[^`]+`|\*\*.+?\*\*|\*[^*\s][^*]*\*)", text)
    return "".join(font(it) for it in parts)


def font(part: str) -> str:
    """Returns a part of a line in its font."""
    if len(part) > 2 and part[0] == part[-1] == "`":
        return f"\\fB{escaped(part[1:-1])}\\fR"
    if part.startswith("**") and len(part) > 4:
        return f"\\fB{escaped(part[2:-2])}\\fR"
    if part.startswith("*") and part.endswith("*") and len(part) > 2:
        return f"\\fI{escaped(part[1:-1])}\\fR"
    return escaped(part)


def verbatim(lines: List[str]) -> List[str]:
    """Returns lines that stay as they are."""
    return [".PP", ".nf", ".RS 4", *(escaped(it) for it in lines), ".RE", ".fi"]


def heading(line: str) -> str:
    """Returns a heading of a page as one of a section, or of a part of it."""
    name = inline(line.lstrip("# "))
    return f'.SH "{name.upper()}"' if line.startswith("## ") else f'.SS "{name}"'


def row(line: str) -> List[str]:
    """Returns a row of a table as a tagged paragraph: its first cell, then the others."""
    first, *others = [it.strip() for it in re.split(r"(?<!\\)\|", line.strip().strip("|"))]
    return [".TP", inline(first), inline("; ".join(it for it in others if it))]


def from_markdown(lines: List[str]) -> List[str]:
    """Returns the lines of a page, without its title, as roff."""
    made: List[str] = []
    at = 0
    while at < len(lines):
        line, begin = lines[at], at
        at += 1
        if line.startswith(("    ", "```")):
            fenced = line.startswith("```")
            while at < len(lines) and (not lines[at].startswith("```") if fenced else lines[at].startswith("    ")):
                at += 1
            made += verbatim(lines[begin + 1 : at] if fenced else [it[4:] for it in lines[begin:at]])
            at += fenced
        elif line.startswith("|"):
            is_head = at < len(lines) and lines[at].startswith("|---")
            made += [] if is_head or line.startswith("|---") else row(line)
        elif line.startswith("#"):
            made.append(heading(line))
        elif re.match(r"[-*] |\d+\. ", line):
            mark, _, rest = line.partition(" ")
            made += [".IP " + ("\\(bu" if mark in "-*" else mark) + " 4", inline(rest)]
        elif line:
            made += [".PP", inline(line)]
    return made


def page(name: str, section: int, about: str, version: str) -> List[str]:
    """Returns the head of a man page."""
    return [
        f'.TH {name.upper()} {section} "" "Vongxeli {version}" "Vongxeli"',
        ".SH NAME",
        f"{escaped(name)} \\- {escaped(about)}",
    ]
