"""Tests of tmm.picture: which items a map has, where they are put, and that the picture is an SVG."""

import contextlib
import io
import tempfile
import unittest
from pathlib import Path
from typing import List
from xml.etree import ElementTree

import tmm
from tmm import picture
from tmm.picture import Bars, Drawing, Item, Look, Row

SVG = "{http://www.w3.org/2000/svg}"

DOOR = [
    "class door open shut",
    "class day light dark",
    "kind push",
    "rule shuts push 1 2 shut if open",
    "token held open",
    "dist h start held 0 0",
    "span sun light",
    "dist up start sun 5 5",
    "dist down start sun.end 20 25",
    "event e push",
    "dist x start e 10 12",
    "point late",
    "dist l start late 15 *",
    "protect keep open held late",
    "protect see light e e",
]


def rows_after(lines: List[str]) -> List[Row]:
    """The rows of the map that a script leaves."""
    with tmm.TimeMap() as time_map:
        picture.run_lines(time_map, lines)
        return picture.rows_of(time_map)


class RowsTest(unittest.TestCase):
    """What there is to draw."""

    def test_an_empty_map(self) -> None:
        self.assertEqual(rows_after([]), [])

    def test_a_door(self) -> None:
        self.assertEqual(
            rows_after(DOOR),
            [
                Row("points", [Item(Look.MARK, 15, 15, "late")]),
                Row(
                    "door",
                    [
                        Item(Look.CLIPPED, 0, 11, "open held", 0),
                        Item(Look.LASTING, 11, None, "shut e/shuts", 1),
                        Item(Look.BROKEN, 0, 15, "keep: open broken", 0),
                    ],
                ),
                Row(
                    "day",
                    [Item(Look.SPAN, 5, 20, "light sun", 0), Item(Look.KEPT, 10, 10, "see: light kept", 0)],
                ),
                Row("push", [Item(Look.MARK, 10, 10, "e")]),
            ],
        )

    def test_a_timeline(self) -> None:
        with tmm.TimeMap() as time_map:
            picture.run_lines(time_map, DOOR)
            rows = picture.rows_of(time_map, rows=["door, played", "day, played", "push, played"], timeline=True)
            self.assertEqual(
                [row.items for row in rows],
                [
                    [
                        Item(Look.CLIPPED, 0, 11, "open held", 0),
                        Item(Look.LASTING, 11, None, "shut e/shuts", 1),
                    ],
                    [Item(Look.SPAN, 5, 20, "light sun", 0)],
                    [Item(Look.MARK, 10, 10, "e")],
                ],
            )
            names = [row.name for row in picture.rows_of(time_map, timeline=True)]
        self.assertEqual(names, ["points", "door", "door, played", "day", "day, played", "push", "push, played"])

    def test_an_interval_that_is_out_of_order(self) -> None:
        # `early` may be before `late` or not, and its earliest date is the later one
        rows = rows_after(
            ["class c f", "point late", "point early", "dist d start early 7 *", "protect x f early late"]
        )
        self.assertEqual(rows[1], Row("c", [Item(Look.BROKEN, 0, 7, "x: f broken", 0)]))


JOBS = [
    "class saw free busy",
    "kind cut",
    "kind cut-end",
    "rule ends cut 20 30 cut-end",
    "point s1-1",
    "point e1-1",
    "point s2-1",
    "point e2-1",
    "point s3-1",
    "dist d1 start s1-1 5 5",
    "dist d2 s1-1 e1-1 10 10",
    "dist d3 e1-1 s2-1 0 0",
    "dist d4 s2-1 e2-1 7 9",
    "event cut-a cut",
    "dist d5 start cut-a 3 3",
    "span shift free",
    "dist d6 start shift 2 2",
    "dist d7 shift shift.end 40 40",
]


class ChoiceTest(unittest.TestCase):
    """Bars between pairs of points, a choice of rows, and kinds in one row."""

    def setUp(self) -> None:
        self.map = tmm.TimeMap()
        self.addCleanup(self.map.close)
        picture.run_lines(self.map, JOBS)

    def test_bars_between_points(self) -> None:
        self.assertEqual(
            picture.rows_of(self.map, [Bars("jobs", "s*", "e*")])[0],
            # s3-1 has no end
            Row("jobs", [Item(Look.BETWEEN, 5, 15, "s1-1"), Item(Look.BETWEEN, 15, 22, "s2-1")]),
        )

    def test_a_row_for_each(self) -> None:
        self.assertEqual(
            picture.rows_of(self.map, [Bars("job *", "s*-1", "e*-1")])[:2],
            [Row("job 1", [Item(Look.BETWEEN, 5, 15, "s1-1")]), Row("job 2", [Item(Look.BETWEEN, 15, 22, "s2-1")])],
        )

    def test_effects_ends_and_start(self) -> None:
        bars = [Bars("saw", "cut-*", "cut-*/ends"), Bars("day", "shift", "shift.end"), Bars("day", "start", "s1-1")]
        self.assertEqual(
            picture.rows_of(self.map, bars)[:3],
            [
                Row("saw", [Item(Look.BETWEEN, 3, 23, "cut-a")]),
                Row("day", [Item(Look.BETWEEN, 2, 42, "shift"), Item(Look.BETWEEN, 0, 5, "start")]),
                Row("points", picture.rows_of(self.map)[0].items),
            ],
        )

    def test_points_that_are_not_there(self) -> None:
        for bars in (Bars("x", "t*", "e*"), Bars("x", "s1-1", "s9-1"), Bars("x", "*s", "*e")):
            with self.assertRaisesRegex(ValueError, "no points"):
                picture.rows_of(self.map, [bars])

    def test_a_choice_of_rows(self) -> None:
        bars = [Bars("jobs", "s*", "e*")]
        self.assertEqual(
            [row.name for row in picture.rows_of(self.map, bars)], ["jobs", "points", "saw", "cut", "cut-end"]
        )
        self.assertEqual(
            [row.name for row in picture.rows_of(self.map, bars, ["cut", "jobs"])], ["cut", "jobs"]
        )
        with self.assertRaisesRegex(ValueError, "no row press"):
            picture.rows_of(self.map, rows=["press"])

    def test_kinds_in_one_row(self) -> None:
        rows = picture.rows_of(self.map, kinds_in_one_row=True)
        self.assertEqual([row.name for row in rows], ["points", "saw", "events"])
        self.assertEqual(
            rows[2].items, [Item(Look.MARK, 3, 3, "cut-a"), Item(Look.MARK, 23, 23, "cut-a/ends")]
        )

    def test_elements_name_what_they_show(self) -> None:
        self.map.protect("keep", "free", "start", "s1-1")
        drawn = picture.draw(picture.rows_of(self.map, [Bars("jobs", "s1*", "e1*")]))
        groups = [dict(group.attrib) for group in ElementTree.fromstring(drawn).iter(f"{SVG}g")]
        for names in (
            {"data-begin": "s1-1", "data-end": "e1-1"},
            {"data-point": "s3-1"},
            {"data-occurrence": "cut-a/ends", "data-point": "cut-a/ends"},
            {"data-occurrence": "shift", "data-point": "shift"},
            {"data-protection": "keep"},
        ):
            self.assertIn(names, groups)


class CommandTest(unittest.TestCase):
    """`python3 -m tmm picture`."""

    def test_words_choose_what_is_drawn(self) -> None:
        with tempfile.TemporaryDirectory() as folder:
            script, output = Path(folder) / "jobs.tmm", Path(folder) / "jobs.svg"
            script.write_text("\n".join([*JOBS, "point s1-1"]))
            with contextlib.redirect_stderr(io.StringIO()) as told:
                words = [str(script), "-o", str(output), "--bars", "jobs", "s*", "e*", "--kinds-in-one-row"]
                self.assertEqual(picture.main([*words, "--row", "jobs", "--row", "events"]), 0)
            self.assertEqual(told.getvalue(), f"line {len(JOBS) + 1} is refused: taken\n")
            texts = [text.text for text in ElementTree.parse(output).iter(f"{SVG}text")]
        for text in ("jobs", "s1-1", "s2-1", "events", "cut-a/ends"):
            self.assertIn(text, texts)
        self.assertNotIn("s3-1", texts)

    def test_a_row_that_is_not_there(self) -> None:
        with tempfile.TemporaryDirectory() as folder, contextlib.redirect_stderr(io.StringIO()) as told:
            script = Path(folder) / "empty.tmm"
            script.write_text("")
            self.assertEqual(picture.main([str(script), "--row", "x"]), 1)
            self.assertEqual(picture.main([str(script), "--bars", "x", "y", "z"]), 1)
            self.assertEqual(picture.main([f"{script}.none"]), 1)
        self.assertEqual(len(told.getvalue().splitlines()), 3)


class DrawingTest(unittest.TestCase):
    """Where items are, and what is written."""

    def test_lanes(self) -> None:
        drawing = Drawing(left=0, latest=1000)
        first = Item(Look.SPAN, 0, 500, "a")
        within = Item(Look.SPAN, 100, 200, "b")
        behind = Item(Look.SPAN, 600, 700, "c")
        self.assertEqual(picture.in_lanes(drawing, [behind, within, first]), [[first, behind], [within]])

    def test_labels_take_their_room(self) -> None:
        drawing = Drawing(left=0, latest=1000)
        first = Item(Look.MARK, 0, 0, "a-name-of-some-length")
        second = Item(Look.MARK, 20, 20, "b")
        self.assertEqual(picture.in_lanes(drawing, [first, second]), [[first], [second]])

    def test_ticks(self) -> None:
        for latest, step in ((1, 1), (12, 1), (13, 2), (60, 5), (61, 10), (480, 50), (10**9, 10**8)):
            self.assertEqual(picture.tick_step(latest), step)

    def test_the_picture(self) -> None:
        root = ElementTree.fromstring(picture.draw(rows_after(DOOR)))
        self.assertEqual(root.tag, "{http://www.w3.org/2000/svg}svg")
        texts = {text.text: text.get("fill") for text in root.iter("{http://www.w3.org/2000/svg}text")}
        self.assertEqual(texts["keep: open broken"], picture.BROKEN_COLOUR)
        self.assertEqual(texts["see: light kept"], picture.KEPT_COLOUR)
        for text in ("points", "late", "door", "open held", "shut e/shuts", "day", "light sun", "push", "e"):
            self.assertIn(text, texts)

    def test_the_picture_of_an_empty_map(self) -> None:
        ElementTree.fromstring(picture.draw([]))


if __name__ == "__main__":
    unittest.main()
