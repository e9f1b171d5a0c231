"""The parts of a page: all text is escaped, and nothing comes from outside."""

from __future__ import annotations

import html
import re
from typing import Iterable, List, Sequence

from .rows import Cell, cell_text
from .unseen import seen

_LONG_WORD = re.compile(r"\S{25}")
_MOST_SHOWN = 15
_MOST_HELD = 485

STYLE = """
:root { color-scheme: light dark; --paper: #ffffff; --panel: #f5f6f8; --ink: #1b1f24; --quiet: #57606a; --line: #d5d9de; --bar: #2f6fb3;
  --track: #e4e8ed; --odd: #a3430f; --mark: #ffe9a8; }
@media (prefers-color-scheme: dark) { :root { --paper: #14171a; --panel: #1d2126; --ink: #e7e9ec; --quiet: #a3abb5; --line: #363c44;
  --bar: #6ba7e2; --track: #2b3138; --odd: #f0a36b; --mark: #5c4a12; } }
* { box-sizing: border-box; }
body { margin: 0 auto; padding: 1rem; max-width: 72rem; background: var(--paper); color: var(--ink); font: 1rem/1.5 system-ui, sans-serif; }
h1 { font-size: 1.6rem; line-height: 1.2; margin: .5rem 0; overflow-wrap: anywhere; }
h2 { font-size: 1.25rem; margin: 2.5rem 0 .5rem; overflow-wrap: anywhere; }
h3 { font-size: 1rem; margin: 1.5rem 0 .5rem; }
p { margin: .5rem 0; max-width: 46rem; }
.quiet { color: var(--quiet); }
.odd { color: var(--odd); font-weight: 600; }
code, pre { font-family: ui-monospace, monospace; font-size: .9em; }
code { overflow-wrap: anywhere; }
pre { background: var(--panel); padding: .75rem; margin: .5rem 0; border-radius: .4rem; white-space: pre-wrap; overflow-wrap: anywhere; }
.wide { overflow-x: auto; }
table { border-collapse: collapse; font-size: .9rem; }
th, td { padding: .3rem .6rem; border-bottom: 1px solid var(--line); text-align: left; vertical-align: top; }
th { color: var(--quiet); font-weight: 600; }
td { white-space: pre-wrap; min-width: 3rem; max-width: 22rem; }
@media (max-width: 40rem) { table { width: 100%; font-size: .85rem; } th, td { padding: .25rem .3rem; min-width: 0; overflow-wrap: anywhere; }
  td.number { white-space: pre-wrap; } .bars { grid-template-columns: fit-content(8rem) minmax(2rem, 24rem) 1fr; } }
.long { overflow-wrap: anywhere; }
td.number { text-align: right; white-space: nowrap; font-variant-numeric: tabular-nums; }
ul.facts { display: flex; flex-wrap: wrap; gap: .5rem; list-style: none; padding: 0; margin: 1rem 0; }
ul.facts li { flex: 1 1 8rem; background: var(--panel); border-radius: .4rem; padding: .6rem .8rem; }
ul.facts b { display: block; font-size: 1.4rem; font-variant-numeric: tabular-nums; }
.bars { display: grid; grid-template-columns: fit-content(14rem) minmax(4rem, 24rem) 1fr; gap: .35rem .75rem; align-items: center;
  font-size: .9rem; }
.bars .name { overflow-wrap: anywhere; }
.bars .track { background: var(--track); height: .8rem; border-radius: .2rem; overflow: hidden; }
.bars .bar { background: var(--bar); height: 100%; }
.bars .count { font-variant-numeric: tabular-nums; }
.values { margin: 0; padding: 0; list-style: none; }
.pair { display: grid; grid-template-columns: repeat(auto-fit, minmax(min(100%, 22rem), 1fr)); gap: 0 2rem; }
svg.graph { max-width: 100%; height: auto; display: block; }
svg.graph text { fill: var(--ink); font: 13px system-ui, sans-serif; text-anchor: middle; dominant-baseline: central; }
svg.graph rect { fill: var(--panel); stroke: var(--quiet); }
svg.graph .weak { fill: none; stroke: var(--quiet); stroke-width: 1.5; stroke-dasharray: 5 4; }
svg.graph .strong { fill: none; stroke: var(--odd); stroke-width: 3; }
svg.graph .weak-head { fill: var(--quiet); }
svg.graph .strong-head { fill: var(--odd); }
mark { background: var(--mark); color: inherit; padding: 0 .15em; border-radius: .2em; }
a { color: var(--bar); }
.contents { margin: .5rem 0; padding-left: 1.6rem; }
.contents li { margin: .2rem 0; overflow-wrap: anywhere; }
details summary { cursor: pointer; color: var(--quiet); margin: .4rem 0; }
"""


def text(value: Cell) -> str:
    """A value as text of the page: its own direction, and marks for what nobody sees."""
    shown = seen(cell_text(value))
    if not shown:
        return '<bdi class="quiet">(empty)</bdi>'
    kind = ' class="long"' if _LONG_WORD.search(shown) else ""
    return "<bdi%s>%s</bdi>" % (kind, html.escape(shown))


def number(count: int) -> str:
    """A count with commas."""
    return format(count, ",")


def table(columns: Sequence[str], rows: Sequence[Sequence[Cell]]) -> str:
    """A table of values: the first rows are seen, and more of them can be."""
    if not rows:
        return '<p class="quiet">none</p>'
    return _table(columns, rows[:_MOST_SHOWN]) + more(columns, rows[_MOST_SHOWN:])


def more(columns: Sequence[str], rows: Sequence[Sequence[Cell]]) -> str:
    """Further rows behind a line that opens them, and how many are on no page."""
    if not rows:
        return ""
    held = rows[:_MOST_HELD]
    rest = "" if len(rows) == len(held) else '<p class="quiet">%s further rows aren\'t on this page; <code>cqa csv</code> writes all.</p>' % number(len(rows) - len(held))
    return "<details><summary>%s more</summary>%s</details>%s" % (number(len(held)), _table(columns, held), rest)


def _table(columns: Sequence[str], rows: Iterable[Sequence[Cell]]) -> str:
    return raw_table(columns, ([cell(value) for value in row] for row in rows))


def raw_table(columns: Sequence[str], rows: Iterable[Sequence[str]]) -> str:
    """A table whose cells are parts of the page already."""
    head = "".join('<th scope="col">%s</th>' % text(name) for name in columns)
    body = "".join("<tr>%s</tr>" % "".join(row) for row in rows)
    return '<div class="wide"><table><thead><tr>%s</tr></thead><tbody>%s</tbody></table></div>' % (head, body)


def cell(value: Cell, is_marked: bool = False) -> str:
    """A cell of a table, with a mark where it is told."""
    shown = "<mark>%s</mark>" % text(value) if is_marked else text(value)
    return '<td%s>%s</td>' % ("" if isinstance(value, str) else ' class="number"', shown)


def contents(items: Sequence["tuple[str, str, str]"], are_numbered: bool) -> str:
    """A list of links: where each leads, its words, and what stands behind it."""
    tag = "ol" if are_numbered else "ul"
    return '<%s class="contents">%s</%s>' % (tag, "".join(
        '<li><a href="#%s">%s</a> <span class="quiet">%s</span></li>' % (html.escape(to), text(words), text(said) if said else "")
        for to, words, said in items), tag)


def facts(pairs: Sequence["tuple[str, int]"]) -> str:
    """Counts with their names, which are written for several."""
    named = [(count, re.sub(r"s\b", "", name, count=1) if count == 1 else name) for name, count in pairs]
    return '<ul class="facts">%s</ul>' % "".join("<li><b>%s</b>%s</li>" % (number(count), html.escape(name)) for count, name in named)


def bars(counts: Sequence["tuple[str, int]"], whole: int) -> str:
    """A bar for each name, as long as its count is of the whole."""
    rows: List[str] = []
    for name, count in counts:
        share = 100 * count / max(1, whole)
        rows.append('<div class="name">%s</div><div class="track"><div class="bar" style="width:%.2f%%"></div></div><div class="count">%s '
                    '<span class="quiet">%.1f%%</span></div>' % (text(name), share, number(count), share))
    return '<div class="bars">%s</div>' % "".join(rows)


def page(title: str, body: str) -> str:
    """A whole page."""
    return ('<!doctype html>\n<html lang="en">\n<head>\n<meta charset="utf-8">\n'
            "<meta http-equiv=\"Content-Security-Policy\" content=\"default-src 'none'; style-src 'unsafe-inline'\">\n"
            '<meta name="viewport" content="width=device-width, initial-scale=1">\n<title>%s</title>\n<style>%s</style>\n</head>\n'
            "<body>\n%s\n</body>\n</html>\n" % (html.escape(title), STYLE, body))
