"""The constraints of a map as a network of points, for Graphviz or as an SVG.

    python3 -m tmm network SCRIPT [-o FILE] [--line N]

runs the script, `-` for standard input, and writes the constraints that stand in the end as DOT, the
language of Graphviz; with `--line N` those that stand after line N. Where a line was refused for a cycle,
the cycle of the last such line is red, and dashed where a constraint of it does not stand: the refused
one, and one that was erased since. Refused lines are told on standard error.

From Python, `network_of` gives the network of a live map, which `dot` and `draw` write.
"""

import argparse
import sys
from dataclasses import dataclass, replace
from enum import Enum
from typing import Dict, List, Optional, Sequence, Set, Tuple
from xml.sax.saxutils import quoteattr

import tmm
from tmm import picture

START = "start"


class Sort(Enum):
    """What declares a point."""

    START = "start"
    POINT = "point"
    EVENT = "event"
    TOKEN = "token"
    SPAN = "span"
    # the end of a span
    END = "end"
    # it is declared no longer, and a step of the cycle names it
    GONE = "gone"


@dataclass(frozen=True)
class Node:
    """A point, with its earliest and its latest date; `latest` is None where there is none."""

    name: str
    sort: Sort
    earliest: int = 0
    latest: Optional[int] = None


@dataclass(frozen=True)
class Edge:
    """`lower <= target - origin <= upper`, by a premise; None for no bound.

    What is `implied` no line says: a span lasts at least 1, and no point is before `start`.
    """

    premise: str
    origin: str
    target: str
    lower: Optional[int]
    upper: Optional[int]
    implied: bool = False
    in_cycle: bool = False
    stands: bool = True


@dataclass(frozen=True)
class Network:
    """Points and the constraints between them, in the order of the standing premises."""

    nodes: Tuple[Node, ...]
    edges: Tuple[Edge, ...]


# ---- what there is to draw


def network_of(time_map: tmm.TimeMap, cycle: Sequence[tmm.Step] = ()) -> Network:
    """The network of a live map, with the steps of a refusal as its cycle.

    Raises what the questions `dump` and `bounds` of `TimeMap` raise.
    """
    sorts: Dict[str, Sort] = {START: Sort.START}
    edges: List[Edge] = []
    for premise in time_map.dump().premises:
        word, name, *rest = premise.split()
        if word in ("point", "event", "token", "span"):
            sorts[name] = Sort(word)
        if word == "span":
            sorts[f"{name}.end"] = Sort.END
            edges.append(Edge(name, name, f"{name}.end", 1, None, implied=True))
        elif word == "dist":
            origin, target, lower, upper = rest
            edges.append(Edge(name, origin, target, bound_of(lower), bound_of(upper)))
    # no point is before `start`, so there is an earliest date
    dates = time_map.dates(sorts)
    nodes = [Node(name, sort, dates[name].lower or 0, dates[name].upper) for name, sort in sorts.items()]
    for step in cycle:
        mark_step(edges, step, sorts)
        for name in (step.origin, step.target):
            if name not in sorts:
                sorts[name] = Sort.GONE
                nodes.append(Node(name, Sort.GONE))
    return Network(tuple(nodes), tuple(edges))


def bound_of(word: str) -> Optional[int]:
    """The bound that a word of a line says."""
    return None if word == "*" else int(word)


def edge_of(step: tmm.Step) -> Edge:
    """The side of a constraint that a step says."""
    if step.side is tmm.Side.UPPER:
        return Edge(step.premise, step.origin, step.target, None, step.weight)
    implied = step.side is not tmm.Side.LOWER
    return Edge(step.premise, step.target, step.origin, -step.weight, None, implied)


def says(edge: Edge, side: Edge) -> bool:
    """Whether a standing constraint says what a step says."""
    same = (edge.premise, edge.origin, edge.target) == (side.premise, side.origin, side.target)
    return same and (edge.upper == side.upper if side.lower is None else edge.lower == side.lower)


def mark_step(edges: List[Edge], step: tmm.Step, declared: Dict[str, Sort]) -> None:
    """Marks the constraint of a step, and adds it where it is not among those that stand."""
    side = edge_of(step)
    for place, edge in enumerate(edges):
        if says(edge, side):
            edges[place] = replace(edge, in_cycle=True)
            return
    # that no point is before `start` stands for each declared point, and is drawn in a cycle alone
    stands = step.side is tmm.Side.BASE and side.target in declared
    edges.append(replace(side, in_cycle=True, stands=stands))


def part(network: Network, names: Set[str]) -> Network:
    """These points, and the constraints between them."""
    nodes = tuple(node for node in network.nodes if node.name in names)
    edges = tuple(edge for edge in network.edges if edge.origin in names and edge.target in names)
    return Network(nodes, edges)


def points_of(cycle: Sequence[tmm.Step]) -> Set[str]:
    """The points of some steps."""
    return {name for step in cycle for name in (step.origin, step.target)}


def cycle_after(refusals: Sequence[Tuple[int, tmm.Refusal]]) -> Tuple[tmm.Step, ...]:
    """The steps of the last refusal for a cycle, and none where there is no such refusal."""
    for _, refusal in reversed(refusals):
        if refusal.cause is tmm.Cause.CYCLE:
            return refusal.steps
    return ()


# ---- for Graphviz

SHAPES = {
    Sort.START: "doublecircle",
    Sort.POINT: "ellipse",
    Sort.EVENT: "diamond",
    Sort.TOKEN: "box",
    Sort.SPAN: "box",
    Sort.END: "box",
    Sort.GONE: "plaintext",
}


def range_of(lower: Optional[int], upper: Optional[int]) -> str:
    """Two bounds, with `*` for none as in a line."""
    return f"{'*' if lower is None else lower}..{'*' if upper is None else upper}"


def label_of(edge: Edge) -> str:
    """What is written at a constraint."""
    return f"{edge.premise} {range_of(edge.lower, edge.upper)}"


def dot(network: Network) -> str:
    """The network in the language of Graphviz. A constraint leads from its first point to its second."""
    lines = [
        "digraph tmm {",
        "  rankdir=LR;",
        '  node [fontname="monospace", fontsize=11];',
        '  edge [fontname="monospace", fontsize=10, color="#404a54"];',
    ]
    for node in network.nodes:
        # A backslash and an n part the lines of a label. Names have neither quotes nor backslashes.
        dates = "" if node.sort in (Sort.START, Sort.GONE) else f"\\n{range_of(node.earliest, node.latest)}"
        lines.append(f'  "{node.name}" [shape={SHAPES[node.sort]}, label="{node.name}{dates}"];')
    for edge in network.edges:
        look = [f'label="{label_of(edge)}"']
        if edge.in_cycle:
            look.append(f'color="{picture.BROKEN_COLOUR}", fontcolor="{picture.BROKEN_COLOUR}", penwidth=2')
        if not edge.stands:
            look.append("style=dashed")
        elif edge.implied:
            look.append("style=dotted")
        lines.append(f'  "{edge.origin}" -> "{edge.target}" [{", ".join(look)}];')
    lines.append("}")
    return "\n".join(lines) + "\n"


# ---- as an SVG; lengths are in pixels

NODE_ROW = 26
PLOT_WIDTH = 560
MARGIN = 16
# from a point to what is written before and behind it, and between two labels
LABEL_GAP = 12
# how far an arrow bends to the left of another one
BEND = 14
LETTER_WIDTH = 6.7
EDGE_COLOUR = "#8a949e"


@dataclass(frozen=True)
class Place:
    """Where something is drawn."""

    x: float
    y: float


def width_of(text: str) -> float:
    """About how wide a text is."""
    return LETTER_WIDTH * len(text)


def places_of(network: Network) -> Dict[str, Place]:
    """A row for each point, in the order of the earliest dates, which lead to the right too.

    Before a point there is room for what is written at the constraints that lead to it.
    """
    latest = max((node.earliest for node in network.nodes), default=0) or 1
    across = {node.name: PLOT_WIDTH * node.earliest / latest for node in network.nodes}
    room = dict.fromkeys(across, 0.0)
    for edge in network.edges:
        room[edge.target] += width_of(label_of(edge)) + LABEL_GAP
    left = MARGIN + LABEL_GAP + max((room[name] - x for name, x in across.items()), default=0)
    # `start` is at 0 as others are, and comes first
    ordered = sorted(network.nodes, key=lambda node: (node.earliest, node.sort is not Sort.START))
    return {
        node.name: Place(left + across[node.name], MARGIN + NODE_ROW * (row + 0.5))
        for row, node in enumerate(ordered)
    }


def draw(network: Network) -> str:
    """The network as an SVG: points by their earliest dates, the later ones lower down.

    Elements have the attributes `data-premise` and `data-point`, and `data-occurrence` where a point has
    reasons, by which a page finds them.
    """
    places = places_of(network)
    drawn: List[str] = []
    labels = {name: place.x - LABEL_GAP for name, place in places.items()}
    met: Dict[Tuple[str, ...], int] = {}
    # what is red lies over the rest
    for edge in sorted(network.edges, key=lambda edge: edge.in_cycle):
        pair = tuple(sorted((edge.origin, edge.target)))
        end = places[edge.target]
        label = Place(labels[edge.target], end.y + 4)
        drawn.append(arrow(edge, places[edge.origin], end, met.get(pair, 0), label))
        labels[edge.target] -= width_of(label_of(edge)) + LABEL_GAP
        met[pair] = met.get(pair, 0) + 1
    right = 0.0
    red = {name for edge in network.edges if edge.in_cycle for name in (edge.origin, edge.target)}
    for node in network.nodes:
        place = places[node.name]
        text = node.name if node.sort is Sort.GONE else f"{node.name} {range_of(node.earliest, node.latest)}"
        right = max(right, place.x + LABEL_GAP + width_of(text))
        drawn.append(dot_of(node, place, text, node.name in red))
    width, height = round(right + MARGIN), 2 * MARGIN + NODE_ROW * len(network.nodes)
    return "\n".join(
        [
            f'<svg xmlns="http://www.w3.org/2000/svg" width="{width}" height="{height}"'
            f' viewBox="0 0 {width} {height}" font-family="monospace" font-size="11">',
            f"<defs>{head('head', EDGE_COLOUR)}{head('red-head', picture.BROKEN_COLOUR)}</defs>",
            f'<rect width="{width}" height="{height}" fill="#ffffff"/>',
            *drawn,
            "</svg>",
            "",
        ]
    )


def head(name: str, colour: str) -> str:
    """The head of an arrow."""
    return (
        f'<marker id="{name}" viewBox="0 0 8 8" refX="12" refY="4" markerWidth="8" markerHeight="8"'
        f' markerUnits="userSpaceOnUse" orient="auto"><path d="M0 0 L8 4 L0 8 z" fill="{colour}"/></marker>'
    )


# White around a text sets it off from what it lies over.
HALO = 'stroke="#ffffff" stroke-width="3" paint-order="stroke"'


def arrow(edge: Edge, begin: Place, end: Place, met: int, label: Place) -> str:
    """A constraint, with its label, which ends there; `met` is how many were drawn between the two points."""
    # It leaves its first point upright, and bends to the left of others between the two.
    bow = Place(begin.x - BEND * met, begin.y + 0.6 * (end.y - begin.y))
    if abs(end.x - begin.x) < BEND:
        bow = Place(begin.x - BEND * (met + 1), (begin.y + end.y) / 2)
    colour, marker, width = (
        (picture.BROKEN_COLOUR, "red-head", 2.2) if edge.in_cycle else (EDGE_COLOUR, "head", 1.0)
    )
    dashes = ""
    if edge.implied or not edge.stands:
        dashes = f' stroke-dasharray="{"2 3" if edge.stands else "7 4"}"'
    return (
        f"<g data-premise={quoteattr(edge.premise)}>"
        f'<path d="M{begin.x:.1f} {begin.y:.1f} Q{bow.x:.1f} {bow.y:.1f} {end.x:.1f} {end.y:.1f}" fill="none"'
        f' stroke="{colour}" stroke-width="{width}"{dashes} marker-end="url(#{marker})"/>'
        f'<text x="{label.x:.1f}" y="{label.y:.1f}" text-anchor="end" fill="{colour}" {HALO}>'
        f"{label_of(edge)}</text></g>"
    )


def dot_of(node: Node, place: Place, text: str, red: bool) -> str:
    """A point, and its name and dates behind it."""
    colour = picture.BROKEN_COLOUR if red else picture.LINE_COLOUR
    reasons = ""
    if node.sort in (Sort.EVENT, Sort.TOKEN, Sort.SPAN):
        reasons = f" data-occurrence={quoteattr(node.name)}"
    return (
        f"<g data-point={quoteattr(node.name)}{reasons}>"
        f'<circle cx="{place.x:.1f}" cy="{place.y:.1f}" r="5" fill="{colour}"/>'
        f'<text x="{place.x + LABEL_GAP:.1f}" y="{place.y + 4:.1f}" fill="{colour}" {HALO}>{text}</text></g>'
    )


# ---- the program


def main(words: Sequence[str]) -> int:
    """Writes the network of a script, and gives the exit status."""
    parser = argparse.ArgumentParser(
        prog="python3 -m tmm network", description="Writes the constraints of a script as DOT for Graphviz."
    )
    parser.add_argument("script", metavar="SCRIPT", help="a file, or - for standard input")
    parser.add_argument("-o", "--output", metavar="FILE", help="where to write; standard output by default")
    parser.add_argument("--line", metavar="N", type=int, help="draw what stands after line N")
    chosen = parser.parse_args(words)
    if chosen.line is not None and chosen.line < 0:
        parser.error("a line has a number from 0 on")
    try:
        lines = picture.lines_of(chosen.script)[: chosen.line]
        with tmm.TimeMap() as time_map:
            cycle = cycle_after(picture.run_lines(time_map, lines))
            picture.write(dot(network_of(time_map, cycle)), chosen.output)
    except (OSError, tmm.TmmError) as error:
        print(f"tmm network: {error}", file=sys.stderr)
        return 1
    return 0
