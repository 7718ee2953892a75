"""Draws what a map believes, over the earliest dates, as an SVG.

    python3 -m tmm picture SCRIPT [-o FILE] [--bars ROW BEGIN END].. [--row NAME].. [--kinds-in-one-row] [--timeline]

runs the script, `-` for standard input, and then draws what is believed: a row for the points, one
for each kind of event and one for each class of facts. A bar is a token: one with a thick end is
clipped there, one without lasts to its end, and one that fades has no end. Below the bars are the
protections of the class, the broken ones in red. Refused lines are told on standard error.

`--bars` adds a row of bars between pairs of points, as a Gantt chart has them. ROW, BEGIN and END may have
a `*` each: `--bars saw 'cut-*' 'cut-*/ends'` draws a bar for each point whose name is of this form and has
such an end. `--row` draws this row, in the order in which rows are named, instead of all.
`--kinds-in-one-row` puts the events of all kinds in a row `events`. `--timeline` draws below each row of a
kind or a class another, as `door, played`, of what occurs where all comes as early as it may.

From Python, `draw(rows_of(time_map))` gives the picture of a live map.
"""

import argparse
import re
import sys
from dataclasses import dataclass, field
from enum import Enum
from typing import Dict, Iterable, List, Optional, Sequence, Tuple
from xml.sax.saxutils import escape, quoteattr

import tmm


class Look(Enum):
    """How an item is drawn."""

    MARK = "mark"
    CLIPPED = "clipped"
    SPAN = "span"
    LASTING = "lasting"
    KEPT = "kept"
    BROKEN = "broken"
    # between two points
    BETWEEN = "between"


@dataclass(frozen=True)
class Item:
    """What is drawn from `begin` to `end`; what lasts has no end. `fact` is its fact's place in the class.

    `names` are attributes of its element, by which a page finds what it shows.
    """

    look: Look
    begin: int
    end: Optional[int]
    label: str
    fact: int = 0
    names: Tuple[Tuple[str, str], ...] = field(default=(), compare=False)


@dataclass
class Row:
    """The items of the points, of a kind or of a class."""

    name: str
    items: List[Item] = field(default_factory=list)


@dataclass(frozen=True)
class Bars:
    """A row of bars between pairs of points. Each word may have a `*`, which is the same text in all three.

    Where `begin` has none, there is one bar.
    """

    row: str
    begin: str
    end: str


# ---- what there is to draw

POINTS = "points"
EVENTS = "events"
# what stands behind the name of a row for that of what is played
PLAYED = ", played"

# the row of each kind and fact, and the place of the fact in its class
Places = Dict[str, Tuple[Row, int]]


def rows_of(
    time_map: tmm.TimeMap,
    bars: Sequence[Bars] = (),
    rows: Optional[Sequence[str]] = None,
    kinds_in_one_row: bool = False,
    timeline: bool = False,
) -> List[Row]:
    """The rows that have an item: bars first, then the points, then classes and kinds as they were declared.

    `rows` names those that are wanted, in their order; by default all are. `kinds_in_one_row` puts the
    events of all kinds in a row `events`. `timeline` puts below each row that of what is played.

    Raises `ValueError` for a row that is not there and for bars that name no points, and what the questions
    of `TimeMap` raise.
    """
    premises = [premise.split() for premise in time_map.dump().premises]
    made: Dict[str, Row] = {}
    places: Places = {}
    points = row_in(made, POINTS)
    for word, name, *rest in premises:
        if word == "point":
            points.items.append(mark(earliest(time_map, name), name, ("point", name)))
        elif word in ("class", "kind"):
            row = row_in(made, EVENTS if word == "kind" and kinds_in_one_row else name)
            for place, what in enumerate(rest or [name]):
                places[what] = (row, place)
    add_believed(time_map, premises, places)
    add_protections(time_map, premises, places)
    drawn = with_played(time_map, premises, places, made) if timeline else list(made.values())
    shown = [*rows_of_bars(time_map, premises, bars), *drawn]
    if rows is not None:
        shown = [row for name in rows for row in named_rows(shown, name)]
    return [row for row in shown if row.items]


def row_in(rows: Dict[str, Row], name: str) -> Row:
    """The row of this name, which is made where it is not there."""
    return rows.setdefault(name, Row(name))


def named_rows(rows: Sequence[Row], name: str) -> List[Row]:
    """The rows of this name: one of bars and one of facts may have the same."""
    named = [row for row in rows if row.name == name]
    if not named:
        raise ValueError(f"there is no row {name}")
    return named


def rows_of_bars(time_map: tmm.TimeMap, premises: List[List[str]], bars: Sequence[Bars]) -> List[Row]:
    """The rows of bars between pairs of points."""
    points = {"start": None}
    for word, name, *_ in premises:
        if word in ("point", "event", "token", "span"):
            points[name] = None
        if word == "span":
            points[f"{name}.end"] = None
    points.update(dict.fromkeys(row.occurrence for row in time_map.list()))
    rows: Dict[str, Row] = {}
    for wanted in bars:
        met = False
        for begin, text in matching(points, wanted.begin):
            end = wanted.end.replace("*", text)
            if end not in points:
                continue
            met = True
            dates = earliest(time_map, begin), earliest(time_map, end)
            names = (("begin", begin), ("end", end))
            row = row_in(rows, wanted.row.replace("*", text))
            row.items.append(Item(Look.BETWEEN, min(dates), max(dates), begin, names=names))
        if not met:
            raise ValueError(f"there are no points {wanted.begin} and {wanted.end}")
    return list(rows.values())


def matching(points: Iterable[str], wanted: str) -> List[Tuple[str, str]]:
    """The points of this form, each with the text in the place of `*`."""
    before, star, after = wanted.partition("*")
    form = re.compile(re.escape(before) + ("([^/.]+)" if star else "()") + re.escape(after))
    met = [(point, form.fullmatch(point)) for point in points]
    return [(point, found.group(1)) for point, found in met if found]


def add_believed(time_map: tmm.TimeMap, premises: List[List[str]], places: Places) -> None:
    """Puts the believed events and tokens into their rows."""
    kinds = {name for word, name, *_ in premises if word == "kind"}
    spans = {name for word, name, *_ in premises if word == "span"}
    believed = time_map.list()
    dates = {row.occurrence: row.earliest for row in believed}
    for occurrence in believed:
        row, place = places[occurrence.what]
        begin = occurrence.earliest
        label = f"{occurrence.what} {occurrence.occurrence}"
        names = (("occurrence", occurrence.occurrence), ("point", occurrence.occurrence))
        if occurrence.what in kinds:
            row.items.append(mark(begin, occurrence.occurrence, *names))
        elif occurrence.clipped_by is not None:
            row.items.append(Item(Look.CLIPPED, begin, dates[occurrence.clipped_by], label, place, names))
        elif occurrence.occurrence in spans:
            end = earliest(time_map, occurrence.occurrence + ".end")
            row.items.append(Item(Look.SPAN, begin, end, label, place, names))
        else:
            row.items.append(Item(Look.LASTING, begin, None, label, place, names))


def with_played(
    time_map: tmm.TimeMap, premises: List[List[str]], places: Places, rows: Dict[str, Row]
) -> List[Row]:
    """The rows, each with one below it of what occurs there where all comes as early as it may."""
    spans = {name for word, name, *_ in premises if word == "span"}
    played: Dict[str, Row] = {}
    for occurrence in time_map.timeline().rows:
        row, place = places[occurrence.what]
        items = row_in(played, row.name).items
        names = (("occurrence", occurrence.occurrence), ("point", occurrence.occurrence))
        label = f"{occurrence.what} {occurrence.occurrence}"
        if not occurrence.is_token:
            items.append(mark(occurrence.date, occurrence.occurrence, *names))
        elif occurrence.until is None:
            items.append(Item(Look.LASTING, occurrence.date, None, label, place, names))
        else:
            look = Look.SPAN if occurrence.occurrence in spans else Look.CLIPPED
            items.append(Item(look, occurrence.date, occurrence.until, label, place, names))
    drawn = []
    for name, row in rows.items():
        drawn.append(row)
        if name in played:
            drawn.append(Row(name + PLAYED, played[name].items))
    return drawn


def add_protections(time_map: tmm.TimeMap, premises: List[List[str]], places: Places) -> None:
    """Puts the protections into the rows of their classes."""
    broken = {report.protection for report in time_map.check()}
    for word, name, *rest in premises:
        if word != "protect":
            continue
        fact, first, last = rest
        # Where the order of the two points is not known, their earliest dates may be the other way round.
        begin, end = sorted((earliest(time_map, first), earliest(time_map, last)))
        row, place = places[fact]
        look = Look.BROKEN if name in broken else Look.KEPT
        label = f"{name}: {fact} {look.value}"
        row.items.append(Item(look, begin, end, label, place, (("protection", name),)))


def mark(date: int, label: str, *names: Tuple[str, str]) -> Item:
    """A point or an event."""
    return Item(Look.MARK, date, date, label, names=names)


def earliest(time_map: tmm.TimeMap, point: str) -> int:
    """The earliest date of a point. It has one: no point is before `start`."""
    lower = time_map.bounds("start", point).lower
    if lower is None:
        raise tmm.ProtocolError(f"{point} has no earliest date")
    return lower


# ---- how it is drawn; lengths are in pixels

PLOT_WIDTH = 1000
LANE_HEIGHT = 20
BAR_HEIGHT = 16
ROW_GAP = 10
MARGIN = 12
# of the font, a little more than most have
LETTER_WIDTH = 6.7
# what fades needs some room behind the last date
ROOM_BEHIND = 1.06
MOST_TICKS = 12

FACT_COLOURS = ("#cfe3f5", "#f6ddb4", "#d5ead0", "#e5d7ee", "#f3d2da", "#d3e9e7", "#ece6c0", "#dcdcdc")
BETWEEN_COLOUR = "#b9c4d0"
LINE_COLOUR = "#404a54"
KEPT_COLOUR = "#3f8f4f"
BROKEN_COLOUR = "#cc1f1a"


class Drawing:
    """The elements of a picture, and how far to the right they reach."""

    def __init__(self, left: int, latest: int) -> None:
        self.left = left
        self.latest = max(latest, 1)
        self.right = self.left + PLOT_WIDTH
        self.elements: List[str] = []

    def x(self, date: int) -> float:
        """Where a date is."""
        return self.left + PLOT_WIDTH * date / (self.latest * ROOM_BEHIND)

    def end_of(self, item: Item) -> float:
        """Where an item ends."""
        return self.left + PLOT_WIDTH if item.end is None else self.x(item.end)

    def text(self, x: float, y: float, text: str, colour: str = "#000000", anchor: str = "start") -> None:
        """Writes a text on this base line."""
        if anchor == "start":
            self.right = max(self.right, round(x + LETTER_WIDTH * len(text)))
        self.elements.append(
            f'<text x="{x:.1f}" y="{y:.1f}" fill="{colour}" text-anchor="{anchor}">{escape(text)}</text>'
        )

    def line(self, x1: float, y1: float, x2: float, y2: float, colour: str, width: float) -> None:
        """Draws a straight line."""
        self.elements.append(
            f'<line x1="{x1:.1f}" y1="{y1:.1f}" x2="{x2:.1f}" y2="{y2:.1f}"'
            f' stroke="{colour}" stroke-width="{width}"/>'
        )

    def item(self, item: Item, top: float) -> None:
        """Draws an item in the lane of this top."""
        self.elements.append(f"<g{''.join(f' data-{sort}={quoteattr(name)}' for sort, name in item.names)}>")
        if item.look is Look.MARK:
            self.diamond(item, top)
        elif item.look in (Look.KEPT, Look.BROKEN):
            self.protection(item, top)
        else:
            self.bar(item, top)
        self.elements.append("</g>")

    def diamond(self, item: Item, top: float) -> None:
        """Draws a point or an event."""
        x, y = self.x(item.begin), top + BAR_HEIGHT / 2
        self.elements.append(
            f'<path d="M{x:.1f} {y - 5:.1f} l5 5 l-5 5 l-5 -5 z" fill="{LINE_COLOUR}"/>'
        )
        self.text(x + 8, y + 4, item.label)

    def protection(self, item: Item, top: float) -> None:
        """Draws what a protection is to protect as a line between two ticks."""
        colour = BROKEN_COLOUR if item.look is Look.BROKEN else KEPT_COLOUR
        begin, end, y = self.x(item.begin), self.end_of(item), top + BAR_HEIGHT / 2
        self.line(begin, y, end, y, colour, 2.5)
        self.line(begin, y - 6, begin, y + 6, colour, 2.5)
        self.line(end, y - 6, end, y + 6, colour, 2.5)
        # A label in the line would hide it.
        self.text(end + 6, y + 4, item.label, colour)

    def bar(self, item: Item, top: float) -> None:
        """Draws a token."""
        begin, end = self.x(item.begin), self.end_of(item)
        colour = BETWEEN_COLOUR if item.look is Look.BETWEEN else FACT_COLOURS[item.fact]
        fill = f"url(#fade{item.fact})" if item.look is Look.LASTING else colour
        self.elements.append(
            f'<rect x="{begin:.1f}" y="{top:.1f}" width="{end - begin:.1f}" height="{BAR_HEIGHT}"'
            f' fill="{fill}"/>'
        )
        self.line(begin, top, begin, top + BAR_HEIGHT, LINE_COLOUR, 1)
        if item.look in (Look.SPAN, Look.BETWEEN):
            self.line(end, top, end, top + BAR_HEIGHT, LINE_COLOUR, 1)
        if item.look is Look.CLIPPED:
            self.line(end - 2, top, end - 2, top + BAR_HEIGHT, LINE_COLOUR, 4)
        self.text(self.label_of_bar(item), top + BAR_HEIGHT - 4, item.label)

    def label_of_bar(self, item: Item) -> float:
        """Where the label of a token begins: in its bar where it fits, and else behind that."""
        begin, end = self.x(item.begin), self.end_of(item)
        if item.look is Look.LASTING or begin + 5 + LETTER_WIDTH * len(item.label) < end - 5:
            return begin + 5
        return end + 5

    def reach(self, item: Item) -> float:
        """Where an item and its label end."""
        label = LETTER_WIDTH * len(item.label)
        if item.look is Look.MARK:
            return self.x(item.begin) + 8 + label
        if item.look in (Look.KEPT, Look.BROKEN):
            return self.end_of(item) + 6 + label
        return max(self.end_of(item), self.label_of_bar(item) + label)


def in_lanes(drawing: Drawing, items: Iterable[Item]) -> List[List[Item]]:
    """Puts each item in the first lane that is free where it begins."""
    lanes: List[List[Item]] = []
    ends: List[float] = []
    for item in sorted(items, key=lambda item: item.begin):
        begin = drawing.x(item.begin) - 6
        for lane, end in enumerate(ends):
            if end <= begin:
                break
        else:
            lane = len(lanes)
            lanes.append([])
            ends.append(0)
        lanes[lane].append(item)
        ends[lane] = drawing.reach(item)
    return lanes


def tick_step(latest: int) -> int:
    """The least of 1, 2, 5, 10, 20, 50 and so on that leaves few enough ticks."""
    power = 1
    while True:
        for step in (power, 2 * power, 5 * power):
            if latest <= step * MOST_TICKS:
                return step
        power *= 10


def draw(rows: Sequence[Row]) -> str:
    """The picture of these rows."""
    dates = [item.end if item.end is not None else item.begin for row in rows for item in row.items]
    left = MARGIN + round(LETTER_WIDTH * max((len(row.name) for row in rows), default=0)) + MARGIN
    drawing = Drawing(left, max(dates, default=0))
    axis = MARGIN + 14
    top = axis + ROW_GAP
    for row in rows:
        drawing.line(MARGIN, top - ROW_GAP / 2, left + PLOT_WIDTH, top - ROW_GAP / 2, "#d0d0d0", 1)
        drawing.text(left - MARGIN, top + BAR_HEIGHT - 4, row.name, anchor="end")
        protections = [item for item in row.items if item.look in (Look.KEPT, Look.BROKEN)]
        others = [item for item in row.items if item not in protections]
        for lane in in_lanes(drawing, others) + in_lanes(drawing, protections):
            for item in lane:
                drawing.item(item, top)
            top += LANE_HEIGHT
        top += ROW_GAP

    # The lines of the ticks are behind all else.
    shown, drawing.elements = drawing.elements, []
    step = tick_step(drawing.latest)
    for date in range(0, drawing.latest + 1, step):
        drawing.line(drawing.x(date), axis, drawing.x(date), top - ROW_GAP, "#e4e4e4", 1)
        drawing.text(drawing.x(date), axis - 4, str(date), "#606060", "middle")
    fades = [
        f'<linearGradient id="fade{place}"><stop offset="0" stop-color="{colour}"/>'
        f'<stop offset="1" stop-color="{colour}" stop-opacity="0"/></linearGradient>'
        for place, colour in enumerate(FACT_COLOURS)
    ]
    width, height = drawing.right + MARGIN, top
    return "\n".join(
        [
            f'<svg xmlns="http://www.w3.org/2000/svg" width="{width}" height="{height}"'
            f' viewBox="0 0 {width} {height}" font-family="monospace" font-size="11">',
            f"<defs>{''.join(fades)}</defs>",
            f'<rect width="{width}" height="{height}" fill="#ffffff"/>',
            *drawing.elements,
            *shown,
            "</svg>",
            "",
        ]
    )


# ---- the program


def lines_of(script: str) -> List[str]:
    """The lines of a script, `-` for standard input. Raises `OSError`."""
    # Lines end at byte 10 alone, and comments may hold any bytes.
    if script == "-":
        text = sys.stdin.buffer.read()
    else:
        with open(script, "rb") as file:
            text = file.read()
    lines = text.decode("utf-8", "surrogateescape").split("\n")
    # what is behind the last line's end is a line where there is something
    return lines if lines[-1] else lines[:-1]


def run_lines(time_map: tmm.TimeMap, lines: Iterable[str]) -> List[Tuple[int, tmm.Refusal]]:
    """Runs a script, tells on standard error of each line that was not taken, and gives the refusals."""
    refused = []
    for number, line in enumerate(lines, start=1):
        reply = time_map.send(line)
        if isinstance(reply, tmm.Refusal):
            print(f"line {number} is refused: {reply.cause.value}", file=sys.stderr)
            refused.append((number, reply))
        elif isinstance(reply, tmm.NoMemory):
            print(f"there was no memory for line {number}", file=sys.stderr)
    return refused


def write(text: str, output: Optional[str]) -> None:
    """Writes a text to a file, or to standard output. Raises `OSError`."""
    if output is None:
        sys.stdout.write(text)
    else:
        with open(output, "w", encoding="utf-8") as file:
            file.write(text)


def main(words: Sequence[str]) -> int:
    """Draws a script, and gives the exit status."""
    parser = argparse.ArgumentParser(
        prog="python3 -m tmm picture", description="Draws what a script leaves believed, as an SVG."
    )
    parser.add_argument("script", metavar="SCRIPT", help="a file, or - for standard input")
    parser.add_argument("-o", "--output", metavar="FILE", help="where to write; standard output by default")
    parser.add_argument(
        "--bars",
        nargs=3,
        action="append",
        default=[],
        metavar=("ROW", "BEGIN", "END"),
        help="a row of bars from BEGIN to END, points; a * is the same text in all three",
    )
    parser.add_argument("--row", action="append", metavar="NAME", help="draw this row; by default all are drawn")
    parser.add_argument("--kinds-in-one-row", action="store_true", help="put all events in a row `events`")
    parser.add_argument("--timeline", action="store_true", help="draw what is played below what is believed")
    chosen = parser.parse_args(words)
    try:
        with tmm.TimeMap() as time_map:
            run_lines(time_map, lines_of(chosen.script))
            bars = [Bars(*each) for each in chosen.bars]
            rows = rows_of(time_map, bars, chosen.row, chosen.kinds_in_one_row, chosen.timeline)
        write(draw(rows), chosen.output)
    except (OSError, ValueError, tmm.TmmError) as error:
        print(f"tmm picture: {error}", file=sys.stderr)
        return 1
    return 0
