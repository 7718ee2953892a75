"""Tests of tmm.network: which points and constraints a map has, and how they are written.

What is expected is that of docs/SCRIPT.md, or a calculation by hand.
"""

import contextlib
import io
import shutil
import subprocess
import tempfile
import unittest
from pathlib import Path
from typing import List
from xml.etree import ElementTree

import tmm
from tmm import network, picture
from tmm.network import Edge, Network, Node, Sort

# the script of docs/SCRIPT.md that is refused for cycles
CYCLES = [
    "point a",
    "point b",
    "point c",
    "dist d a b 3 7",
    "dist e b c 2 4",
    "dist x c a 0 *",
    "class crew on off",
    "span s on",
    "dist f s s.end * 0",
]


def network_after(lines: List[str]) -> Network:
    """The network that a script leaves, with its last cycle."""
    with tmm.TimeMap() as time_map, contextlib.redirect_stderr(io.StringIO()):
        cycle = network.cycle_after(picture.run_lines(time_map, lines))
        return network.network_of(time_map, cycle)


def written(*words: str) -> str:
    """What the command writes."""
    output = io.StringIO()
    with contextlib.redirect_stdout(output), contextlib.redirect_stderr(io.StringIO()):
        assert network.main(words) == 0
    return output.getvalue()


class NetworkTest(unittest.TestCase):
    """What there is to draw."""

    def test_an_empty_map(self) -> None:
        self.assertEqual(network_after([]), Network((Node("start", Sort.START, 0, 0),), ()))

    def test_points_of_all_sorts(self) -> None:
        lines = ["class c f", "kind k", "point p", "token t f", "span s f", "event e k", "dist d start p 2 *"]
        self.assertEqual(
            network_after([*lines, "dist x s s.end * 9", "dist y start s 1 1"]),
            Network(
                (
                    Node("start", Sort.START, 0, 0),
                    Node("p", Sort.POINT, 2, None),
                    Node("t", Sort.TOKEN, 0, None),
                    Node("s", Sort.SPAN, 1, 1),
                    Node("s.end", Sort.END, 2, 10),
                    Node("e", Sort.EVENT, 0, None),
                ),
                (
                    Edge("s", "s", "s.end", 1, None, implied=True),
                    Edge("d", "start", "p", 2, None),
                    Edge("x", "s", "s.end", None, 9),
                    Edge("y", "start", "s", 1, 1),
                ),
            ),
        )

    def test_a_cycle_of_constraints(self) -> None:
        self.assertEqual(
            network_after(CYCLES[:6]).edges,
            (
                Edge("d", "a", "b", 3, 7, in_cycle=True),
                Edge("e", "b", "c", 2, 4, in_cycle=True),
                Edge("x", "c", "a", 0, None, in_cycle=True, stands=False),
            ),
        )

    def test_a_cycle_by_the_length_of_a_span(self) -> None:
        self.assertEqual(
            network_after(CYCLES).edges[2:],
            (
                Edge("s", "s", "s.end", 1, None, implied=True, in_cycle=True),
                Edge("f", "s", "s.end", None, 0, in_cycle=True, stands=False),
            ),
        )

    def test_a_cycle_by_the_beginning_of_dates(self) -> None:
        # no point is before `start`
        self.assertEqual(
            network_after(["point a", "dist d start a * -1"]).edges,
            (
                Edge("d", "start", "a", None, -1, in_cycle=True, stands=False),
                Edge("a", "start", "a", 0, None, implied=True, in_cycle=True),
            ),
        )

    def test_a_cycle_of_which_a_part_is_erased(self) -> None:
        drawn = network_after([*CYCLES[:6], "erase e", "dist e b c 2 9", "erase a"])
        self.assertEqual(drawn.nodes[-1], Node("a", Sort.GONE))
        self.assertEqual(
            drawn.edges,
            (
                # its lower bound is as it was
                Edge("e", "b", "c", 2, 9, in_cycle=True),
                Edge("x", "c", "a", 0, None, in_cycle=True, stands=False),
                Edge("d", "a", "b", 3, None, in_cycle=True, stands=False),
            ),
        )

    def test_a_part(self) -> None:
        whole = network_after(CYCLES[:5])
        self.assertEqual(
            network.part(whole, {"a", "b"}), Network(whole.nodes[1:3], (Edge("d", "a", "b", 3, 7),))
        )


class WritingTest(unittest.TestCase):
    """DOT, SVG and the command."""

    def script(self, lines: List[str]) -> str:
        """A file with these lines."""
        folder = tempfile.TemporaryDirectory()
        self.addCleanup(folder.cleanup)
        path = Path(folder.name) / "script.tmm"
        path.write_text("\n".join(lines) + "\n")
        return str(path)

    def test_dot(self) -> None:
        lines = written(self.script(CYCLES[:6])).splitlines()
        red = 'color="#cc1f1a", fontcolor="#cc1f1a", penwidth=2'
        self.assertEqual(lines[0], "digraph tmm {")
        self.assertEqual(
            lines[4:],
            [
                '  "start" [shape=doublecircle, label="start"];',
                '  "a" [shape=ellipse, label="a\\n0..*"];',
                '  "b" [shape=ellipse, label="b\\n3..*"];',
                '  "c" [shape=ellipse, label="c\\n5..*"];',
                f'  "a" -> "b" [label="d 3..7", {red}];',
                f'  "b" -> "c" [label="e 2..4", {red}];',
                f'  "c" -> "a" [label="x 0..*", {red}, style=dashed];',
                "}",
            ],
        )

    def test_after_a_line(self) -> None:
        # the second refusal is not there yet, and after the last line it is the one that is red
        script = self.script(CYCLES)
        self.assertIn('"x 0..*", color', written(script, "--line", "6"))
        self.assertNotIn("x 0..*", written(script, "--line", "5"))
        self.assertNotIn("x 0..*", written(script))
        self.assertIn('"f *..0", color', written(script))

    @unittest.skipUnless(shutil.which("dot"), "Graphviz is not here")
    def test_graphviz_reads_it(self) -> None:
        done = subprocess.run(
            ["dot", "-Tsvg"], input=written(self.script(CYCLES)), stdout=subprocess.PIPE, text=True, check=True
        )
        root = ElementTree.fromstring(done.stdout)
        titles = [title.text for title in root.iter("{http://www.w3.org/2000/svg}title")]
        for title in ("start", "s.end", "a->b", "s->s.end"):
            self.assertIn(title, titles)

    def test_svg(self) -> None:
        root = ElementTree.fromstring(network.draw(network_after(CYCLES[:6])))
        groups = list(root.iter("{http://www.w3.org/2000/svg}g"))
        self.assertEqual([group.get("data-point") for group in groups[3:]], ["start", "a", "b", "c"])
        self.assertEqual({group.get("data-premise") for group in groups[:3]}, {"d", "e", "x"})
        for group in groups[:3]:
            self.assertEqual(group[0].get("stroke"), picture.BROKEN_COLOUR)
            self.assertEqual(group[0].get("stroke-dasharray") is None, group.get("data-premise") != "x")
        self.assertEqual(groups[3][0].get("fill"), picture.LINE_COLOUR)

    def test_what_cannot_be_read_or_written(self) -> None:
        for words in (["/nowhere/script.tmm"], [self.script([]), "-o", "/nowhere/network.dot"]):
            with contextlib.redirect_stderr(io.StringIO()) as told:
                self.assertEqual(network.main(words), 1)
            self.assertIn("/nowhere", told.getvalue())

    def test_wrong_words(self) -> None:
        for words in ("", "a b", "a --line -1", "a --line x"):
            with contextlib.redirect_stderr(io.StringIO()), self.assertRaises(SystemExit) as ended:
                network.main(words.split())
            self.assertEqual(ended.exception.code, 2)


if __name__ == "__main__":
    unittest.main()
