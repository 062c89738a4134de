"""A picture of one document of a book, as SVG: positions across, levels down.

Only the order of positions says what is inside what. So each position at which a node starts or
ends takes the same width, and those between take none; and a level without nodes takes no height.
Nodes of one level that overlap are drawn in lanes, one below the other.
"""
from html import escape
from textwrap import shorten, wrap
from typing import Dict, List, NamedTuple, Optional, Sequence, Set, Tuple

from . import HINTS, Answer, Node, nodes
from ._show import Look, Spot, marks

_WIDTH = 1120
_LEFT, _RIGHT = 84, 36  # the room beside the positions
_WIDEST = 90.0  # the most width of a position
_DIGIT = 6.4  # the most width of a digit
_LINE = 18  # the height of a line of text
_NAME_LETTERS, _HINT_LETTERS = 60, 150  # the most letters of the book's name, and of a hint's line
_CLEAR = 50  # of more nodes, those around the fault are drawn a second time
_LEGIBLE = 400  # more nodes are drawn without labels
_AROUND = 8  # how many nodes are drawn around the fault, on each side
_ENCLOSING = 64  # and how many of those in which it starts
_LANES = 8  # how many lanes a level has; nodes that fit into none share one more, without labels

_KINDS = ("zone", "sample")  # what the nodes of the two joined lists are called
_OTHER = "node"  # what those of another list are called, if it has the fault
_SCALE = "Positions go across in their order, all equally wide; levels go down."

_STYLE = """\
svg { max-width: 100%; height: auto; font: 12px system-ui, "DejaVu Sans", Arial, sans-serif }
text { fill: #1f2328 }
.head { font-size: 16px; font-weight: 600 }
.faint { fill: #59636e; font-size: 11px }
.end { text-anchor: end }
.middle { text-anchor: middle }
.paper { fill: #ffffff }
.stripe { fill: #f3f5f7 }
.tick { stroke: #d9dee3 }
.bar { stroke: #4a5560; stroke-width: .8 }
.bar text { fill: #14181c; stroke: none; font-size: 10px }
.thin { stroke: none }
.turned { stroke-dasharray: 4 3; stroke-width: 2 }
.zone { fill: #b5dcae }
.sample { fill: #b3d0f2 }
.node { fill: #d9c8ee }
.fault { fill: #c8102e; stroke: #7a0019 }
.partner { fill: #ffab2e; stroke: #8a5200 }
.bar.fault text { fill: #ffffff }
.guide { fill: none; stroke-dasharray: 2 2 }
@media (prefers-color-scheme: dark) {
text { fill: #e6edf3 }
.faint { fill: #9aa6b2 }
.paper { fill: #10151b }
.stripe { fill: #1a212a }
.tick { stroke: #333d48 }
.bar { stroke: #0b0f14 }
.fault { fill: #d42a45; stroke: #ffd3da }
.partner { stroke: #ffe3b8 }
}
"""


class _Bar(NamedTuple):
    """A node to be drawn: where it is in the book, what it is called, and its mark or none."""

    node: Node
    spot: Spot
    kind: str
    mark: str

    def title(self) -> str:
        """Returns what is said of the node."""
        name = f"{self.mark}: {self.kind}" if self.mark else self.kind
        return f"{name}, {_described(self.node, self.spot, self.node.document)}"


class _Grid(NamedTuple):
    """Where a panel's nodes are. It has the place of each position, counted from 0, its width, and
    the lane of each node. It also has the upper border of each level and the heights of a lane and
    of the panel.
    """

    places: Dict[int, int]
    step: float
    lanes: Dict[Spot, int]
    tops: Dict[int, int]
    lane_height: int
    bottom: int

    def sides(self, bar: _Bar) -> Tuple[float, float]:
        """Returns the left and the right border of a node."""
        low, high = _ends(bar, self.places)
        return _LEFT + self.step * low, _LEFT + self.step * (high + 1)

    def top(self, bar: _Bar) -> int:
        """Returns the upper border of a node."""
        return self.tops[bar.node.level] + self.lane_height * self.lanes[bar.spot]


_Block = Tuple[List[str], int]  # lines of SVG, and the height that they take


def document_of(look: Look) -> Optional[int]:
    """Returns the document of the faulty node or, where there is none, the first of the lists'."""
    if look.fault is not None and look.fault.node is not None:
        return _node_at(look, look.fault.node).document
    drawn = (node for number in _kinds(look) for node in nodes(look.lists[number]))
    return next((node.document for node in drawn), None)


def picture(name: str, look: Look, document: int) -> Optional[str]:
    """Returns the picture of a document, or None if the lists to be drawn have no node of it."""
    bars = _bars(look, document)
    if not bars:
        return None
    headline = _headline(name, look, document)
    blocks = [_heading(headline, look), _legend(look, document)]
    blocks.append(_panel(bars, len(bars) <= _LEGIBLE))
    near = _near(bars)
    if near and len(bars) > _CLEAR:
        caption = f"Around the fault: {len(near)} of {len(bars)} nodes."
        blocks += [([f'<text x="16" y="18">{caption}</text>'], 26), _panel(near, True)]
    return _page(headline, blocks)


def _page(headline: str, blocks: Sequence[_Block]) -> str:
    """Returns the SVG of some blocks, one below the other."""
    lines: List[str] = []
    height = 0
    for block, block_height in blocks:
        lines += [f'<g transform="translate(0 {height})">', *block, "</g>"]
        height += block_height
    size = f'viewBox="0 0 {_WIDTH} {height}" width="{_WIDTH}" height="{height}"'
    opening = [
        f'<svg xmlns="http://www.w3.org/2000/svg" {size} role="img">',
        f"<title>{escape(headline)}</title>",
        f"<style>\n{_STYLE}</style>",
        f'<rect class="paper" width="{_WIDTH}" height="{height}"/>',
    ]
    return "\n".join([*opening, *lines, "</svg>", ""])


# Which nodes are drawn.

def _kinds(look: Look) -> Dict[int, str]:
    """Returns what the nodes of each drawn list are called, by the list's number."""
    found: Dict[int, str] = {}
    for number, kind in [*zip(look.joined, _KINDS), *((spot.list, _OTHER) for spot in marks(look))]:
        if number is not None:
            found.setdefault(number, kind)
    return found


def _bars(look: Look, document: int) -> List[_Bar]:
    """Returns the nodes of a document, list by list."""
    marked = marks(look)
    drawn = ((Spot(number, index), node, kind) for number, kind in _kinds(look).items()
             for index, node in enumerate(nodes(look.lists[number])))
    return [_Bar(node, spot, kind, marked.get(spot, "")) for spot, node, kind in drawn
            if node.document == document]


def _near(bars: Sequence[_Bar]) -> List[_Bar]:
    """Returns the nodes at fault, those that start next to them, and those in which they start."""
    ordered = sorted(bars, key=lambda bar: bar.node.start)
    chosen: Set[int] = set()
    for place in [place for place, bar in enumerate(ordered) if bar.mark]:
        start = ordered[place].node.start
        enclosing = [other for other, bar in enumerate(ordered)
                     if bar.node.start <= start <= bar.node.end]
        chosen.update(range(place - _AROUND, place + _AROUND + 1), enclosing[-_ENCLOSING:])
    return [bar for place, bar in enumerate(ordered) if place in chosen]


def _node_at(look: Look, spot: Spot) -> Node:
    """Returns the node at a place."""
    return list(nodes(look.lists[spot.list]))[spot.index]


# What is above them.

def _headline(name: str, look: Look, document: int) -> str:
    """Returns the name of the book, the document and the answer."""
    answer = Answer.TAKEN if look.fault is None else look.fault.answer
    refused = "" if look.fault is None else "refused "
    name = shorten(name, _NAME_LETTERS, placeholder="...")
    return f"{name}, document {document}: {refused}{answer:d} {answer.name}"


def _heading(headline: str, look: Look) -> _Block:
    """Draws the headline and, for a refused book, the hint."""
    hint = [] if look.fault is None else wrap(HINTS[look.fault.answer], _HINT_LETTERS)
    lines = [f'<text class="head" x="16" y="28">{escape(headline)}</text>']
    for row, text in enumerate(hint):
        lines.append(f'<text x="16" y="{52 + _LINE * row}">{escape(text)}</text>')
    return lines, 42 + _LINE * len(hint)


def _legend(look: Look, document: int) -> _Block:
    """Draws what the colours mean."""
    entries = [(kind, f"{kind}s: list {number}, tag {look.entries[number].tag}")
               for number, kind in _kinds(look).items()]
    entries += [(mark, f"{mark}: {_described(_node_at(look, spot), spot, document)}")
                for spot, mark in marks(look).items()]
    lines = []
    for row, (kind, text) in enumerate(entries):
        top = 4 + _LINE * row
        swatch = f'<rect x="16" y="{top}" width="22" height="12" rx="2"/>'
        lines.append(f'<g class="bar {kind}">{swatch}</g><text x="46" y="{top + 10}">{text}</text>')
    below = _LINE * len(entries)
    lines.append(f'<text class="faint" x="16" y="{below + 14}">{_SCALE}</text>')
    return lines, below + _LINE + 16


def _described(node: Node, spot: Spot, document: int) -> str:
    """Says what a node is, and of which document if it is another than the one that is drawn."""
    place = f"list {spot.list}, index {spot.index}"
    elsewhere = "" if node.document == document else f", document {node.document}"
    return f"{place}: {node.start} to {node.end}, level {node.level}{elsewhere}"


# A panel: nodes below an axis.

def _panel(bars: Sequence[_Bar], legible: bool) -> _Block:
    """Draws nodes with labels or, where there are too many, without."""
    grid = _grid(bars, legible)
    marked_last = sorted(bars, key=lambda bar: bar.mark != "")
    lines = [*_levels(grid), *_axis(grid)]
    lines += [_guides(bar, grid) for bar in marked_last if bar.mark]
    lines += [_labelled(bar, grid) if legible else _thin(bar, grid) for bar in marked_last]
    return lines, grid.bottom + 12


def _grid(bars: Sequence[_Bar], legible: bool) -> _Grid:
    """Returns the places of all positions, levels and nodes."""
    ends = {position for bar in bars for position in (bar.node.start, bar.node.end)}
    places = {position: place for place, position in enumerate(sorted(ends))}
    lanes, lane_counts = _lanes(bars, places)
    lane_height, gap = (22, 8) if legible else (6, 3)
    tops, top = {}, 26
    for level in sorted(lane_counts):
        tops[level] = top
        top += lane_height * lane_counts[level] + gap
    step = min((_WIDTH - _LEFT - _RIGHT) / len(places), _WIDEST)
    return _Grid(places, step, lanes, tops, lane_height, top)


def _lanes(bars: Sequence[_Bar], places: Dict[int, int]) -> Tuple[Dict[Spot, int], Dict[int, int]]:
    """Returns the lane of each node in its level, and how many lanes each level has."""
    lanes: Dict[Spot, int] = {}
    last_places: Dict[int, List[int]] = {}
    for bar in sorted(bars, key=lambda bar: _ends(bar, places)[0]):
        low, high = _ends(bar, places)
        last = last_places.setdefault(bar.node.level, [])
        free = (lane for lane, place in enumerate(last[:_LANES]) if place < low)
        lane = next(free, min(len(last), _LANES))
        last[lane:lane + 1] = [high]
        lanes[bar.spot] = lane
    return lanes, {level: len(last) for level, last in last_places.items()}


def _ends(bar: _Bar, places: Dict[int, int]) -> Tuple[int, int]:
    """Returns the first and the last place of a node, which may end before it starts."""
    start, end = places[bar.node.start], places[bar.node.end]
    return min(start, end), max(start, end)


def _levels(grid: _Grid) -> List[str]:
    """Draws a stripe for each level, and its number where there is room for it."""
    lines, free = ['<text class="faint" x="16" y="13">level</text>'], 0
    borders = [*grid.tops.values(), grid.bottom]
    for level, top, below in zip(grid.tops, borders, borders[1:]):
        size = f'width="{_WIDTH - _LEFT - _RIGHT}" height="{below - top - 1}"'
        lines.append(f'<rect class="stripe" x="{_LEFT}" y="{top - 2}" {size}/>')
        if top >= free:
            place = f'x="{_LEFT - 8}" y="{(top + below) / 2 + 1:.1f}"'
            lines.append(f'<text class="faint end" {place}>{level}</text>')
            free = top + 14
    return lines


def _axis(grid: _Grid) -> List[str]:
    """Draws the positions, as many as have room for their numbers."""
    longest = max(len(str(position)) for position in grid.places)
    every = int((longest * _DIGIT + 8) / grid.step) + 1
    lines = []
    for position, place in list(grid.places.items())[::every]:
        x = _LEFT + grid.step * (place + .5)
        lines.append(f'<path class="tick" d="M{x:.1f} 18V{grid.bottom - 3}"/>')
        lines.append(f'<text class="faint middle" x="{x:.1f}" y="13">{position}</text>')
    return lines


def _guides(bar: _Bar, grid: _Grid) -> str:
    """Draws lines down the panel at both sides of a node."""
    left, right = grid.sides(bar)
    down = f"18V{grid.bottom - 3}"
    return f'<path class="guide {bar.mark}" d="M{left + .5:.1f} {down}M{right - .5:.1f} {down}"/>'


def _labelled(bar: _Bar, grid: _Grid) -> str:
    """Draws a node with its start and end in it, as far as there is room for them."""
    (left, right), top = grid.sides(bar), grid.top(bar)
    place = f'x="{left + .5:.1f}" y="{top}"'
    size = f'width="{max(right - left - 1, 1):.1f}" height="{grid.lane_height - 2}"'
    turned = " turned" if bar.node.end < bar.node.start else ""
    label = _label(bar.node, right - left) if grid.lanes[bar.spot] < _LANES else ""
    middle = f'x="{(left + right) / 2:.1f}" y="{top + 14}"'
    text = f'<text class="middle" {middle}>{label}</text>' if label else ""
    return (f'<g class="bar {bar.mark or bar.kind}{turned}"><title>{bar.title()}</title>'
            f'<rect {place} {size} rx="3"/>{text}</g>')


def _label(node: Node, width: float) -> str:
    """Returns the longest label that fits into a width, which may be none."""
    both = str(node.start) if node.start == node.end else f"{node.start}\u2013{node.end}"
    fitting = (text for text in (both, f"{node.start}\u2026") if len(text) * _DIGIT + 4 <= width)
    return next(fitting, "")


def _thin(bar: _Bar, grid: _Grid) -> str:
    """Draws a node without a label. One at fault is wide enough to be seen."""
    (left, right), top = grid.sides(bar), grid.top(bar)
    width = max(right - left, 4 if bar.mark else .8)
    size = f'width="{width:.2f}" height="{grid.lane_height - 1}"'
    return (f'<g class="bar thin {bar.mark or bar.kind}"><title>{bar.title()}</title>'
            f'<rect x="{left:.2f}" y="{top}" {size}/></g>')
