"""The attack graph of a query as a picture (SVG)."""

from __future__ import annotations

import html
import math
from typing import Dict, List, Sequence, Tuple

from .answers import Attack

_LONGEST = 20
_LETTER = 7.6
_HEIGHT = 30.0

_HEAD = ('<marker id="%s-head" viewBox="0 0 10 10" refX="9" refY="5" markerWidth="%d" markerHeight="%d" markerUnits="userSpaceOnUse" '
         'orient="auto"><path class="%s-head" d="M0 0L10 5L0 10z"/></marker>')
#: The heads of the lines, which stand once in a page.
HEADS = ('<svg class="graph" width="0" height="0" style="position:absolute" aria-hidden="true"><defs>%s%s</defs></svg>'
         % (_HEAD % ("weak", 9, 9, "weak"), _HEAD % ("strong", 13, 13, "strong")))

_Point = Tuple[float, float]


def attack_graph(tables: Sequence[str], attacks: Sequence[Attack]) -> str:
    """The tables on a circle, weak attacks with a thin broken line, strong ones with a thick one."""
    widths = {name: 24 + _LETTER * min(len(name), _LONGEST) for name in tables}
    radius = max(90.0, len(tables) * 34.0) if len(tables) > 1 else 0.0
    across = radius + max(widths.values(), default=0) / 2 + 30
    down = (radius if len(tables) > 2 else 0.0) + _HEIGHT / 2 + 46
    points = {name: _on_circle(at, len(tables), radius) for at, name in enumerate(tables)}
    lines = "".join(_line(points, widths, attack) for attack in attacks if attack.attacker in points and attack.attacked in points)
    nodes = "".join(_node(name, points[name], widths[name]) for name in tables)
    told = ["%s attacks %s, %s" % (one.attacker, one.attacked, "strong" if one.is_strong else "weak") for one in attacks]
    label = "; ".join(told) or "no attacks"
    return ('<svg class="graph" role="img" aria-label="%s" viewBox="%.0f %.0f %.0f %.0f" width="%.0f" height="%.0f">'
            "%s%s</svg>"
            % (html.escape(label), -across, -down, 2 * across, 2 * down, 2 * across, 2 * down, lines, nodes))


def _on_circle(at: int, count: int, radius: float) -> _Point:
    """The places of a circle; two tables stand side by side."""
    turn = math.pi + 2 * math.pi * at / max(1, count)
    return radius * math.cos(turn), radius * math.sin(turn)


def _node(name: str, point: _Point, width: float) -> str:
    shown = name if len(name) <= _LONGEST else name[:_LONGEST - 1] + "\u2026"
    return ('<g><title>%s</title><rect x="%.1f" y="%.1f" width="%.1f" height="%.1f" rx="6"/><text x="%.1f" y="%.1f">%s</text></g>'
            % (html.escape(name), point[0] - width / 2, point[1] - _HEIGHT / 2, width, _HEIGHT, point[0], point[1], html.escape(shown)))


def _line(points: Dict[str, _Point], widths: Dict[str, float], attack: Attack) -> str:
    """A bent line from one node's edge to the other's, so that two attacks between two tables are seen apart."""
    begin, end = points[attack.attacker], points[attack.attacked]
    length = math.hypot(end[0] - begin[0], end[1] - begin[1]) or 1.0
    bend = min(44.0, 0.22 * length)
    middle = ((begin[0] + end[0]) / 2 + bend * (end[1] - begin[1]) / length, (begin[1] + end[1]) / 2 - bend * (end[0] - begin[0]) / length)
    first, last = _edge(begin, middle, widths[attack.attacker]), _edge(end, middle, widths[attack.attacked])
    kind = "strong" if attack.is_strong else "weak"
    return '<path class="%s" marker-end="url(#%s-head)" d="M%.1f %.1fQ%.1f %.1f %.1f %.1f"/>' % (kind, kind, *first, *middle, *last)


def _edge(point: _Point, towards: _Point, width: float) -> _Point:
    """Where a line from a node's middle leaves its rectangle."""
    across, down = towards[0] - point[0], towards[1] - point[1]
    ways: List[float] = [1.0]
    if across:
        ways.append((width / 2 + 3) / abs(across))
    if down:
        ways.append((_HEIGHT / 2 + 3) / abs(down))
    way = min(ways)
    return point[0] + way * across, point[1] + way * down
