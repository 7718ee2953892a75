"""Tests of what is tried out and undone: the premises, their order, the horizon, and what is believed."""

import random
import tempfile
import unittest
from pathlib import Path
from typing import List, Tuple
from unittest import mock

import tmm
from tmm.program import modes_of

DOOR = [
    "class door open shut",
    "kind push",
    "rule shuts push 1 2 shut if open",
    "token held open",
    "dist h start held 0 0",
    "event e push",
    "dist x start e 10 12",
    "point late",
    "dist l start late 15 15",
    "protect keep open held late",
]


class TryingTest(unittest.TestCase):
    """Over the map of a door, by suppositions of the program."""

    def setUp(self) -> None:
        self.map = tmm.TimeMap()
        self.addCleanup(self.map.close)
        self.map.send_all(DOOR)

    def state(self) -> Tuple[tmm.Dump, Tuple[tmm.Row, ...], Tuple[tmm.Broken, ...]]:
        """All that a map tells of itself."""
        return self.map.dump(), self.map.list(), self.map.check()

    def test_what_stands_is_known_without_asking(self) -> None:
        self.assertEqual(self.map.premises, tuple(DOOR))
        self.map.erase("door")
        self.map.send("  point\tp \r")
        self.map.send("point p")
        self.assertEqual(self.map.premises, self.map.dump().premises)
        self.assertEqual(self.map.premises, ("kind push", "event e push", "dist x start e 10 12", "point late",
                                             "dist l start late 15 15", "point p"))

    def test_edits_are_undone(self) -> None:
        before = self.state()
        with self.map.suppose():
            self.assertEqual(self.map.erase("shuts").mended, ("keep",))
            self.map.point("p")
            self.map.dist("q", "start", "p", 3, 4)
            self.map.horizon(5)
        self.assertEqual(self.state(), before)

    def test_the_order_comes_back(self) -> None:
        with self.map.suppose():
            # with it goes all that mentions a fact of the class
            self.map.erase("door")
        self.assertEqual(self.map.dump().premises, tuple(DOOR))

    def test_what_is_kept_stays(self) -> None:
        with self.map.suppose() as supposed:
            self.map.point("p")
            supposed.keep()
            self.map.point("q")
        self.assertEqual(self.map.dump().premises, (*DOOR, "point p", "point q"))

    def test_blocks_within_blocks(self) -> None:
        with self.map.suppose():
            self.map.point("p")
            with self.map.suppose():
                self.map.erase("p")
                self.map.point("q")
            self.assertEqual(self.map.dump().premises, (*DOOR, "point p"))
            with self.map.suppose() as inner:
                self.map.point("r")
                inner.keep()
            self.assertEqual(self.map.dump().premises, (*DOOR, "point p", "point r"))
        self.assertEqual(self.map.dump().premises, tuple(DOOR))

    def test_a_refusal_within_a_block(self) -> None:
        with self.assertRaises(tmm.RefusedForCycle), self.map.suppose():
            self.map.point("p")
            self.map.dist("early", "start", "late", upper=3)
        self.assertEqual(self.map.dump().premises, tuple(DOOR))

    def test_any_error_within_a_block(self) -> None:
        with self.assertRaises(KeyError), self.map.suppose():
            self.map.point("p")
            raise KeyError
        self.assertEqual(self.map.dump().premises, tuple(DOOR))

    def test_a_program_that_ends_within_a_block(self) -> None:
        with self.assertRaises(tmm.ProgramEnded), self.map.suppose():
            self.map.process.kill()
            self.map.process.wait()
            self.map.point("p")
        self.assertFalse(self.map.is_usable)

    def test_marks_are_gone_to_in_any_order(self) -> None:
        first = self.map.mark()
        self.map.point("p")
        second = self.map.mark()
        self.map.back(first)
        self.assertEqual(self.map.dump().premises, tuple(DOOR))
        self.map.back(second)
        self.assertEqual(self.map.dump().premises, (*DOOR, "point p"))

    def test_the_way_back_passes_a_map_that_is_too_large(self) -> None:
        # `bars` is there when the rule that it holds back is given, and is replaced by `bars2` later.
        time_map = tmm.TimeMap()
        self.addCleanup(time_map.close)
        time_map.upgrade()
        time_map.send_all(
            ["class c on off", "kind tick", "event first tick", "dist f start first 0 0", "token bars on",
             "dist b start bars 0 0", "rule again tick 1 1 tick unless on", "token bars2 on",
             "dist b2 start bars2 0 0", "erase bars"]
        )
        before = time_map.dump()
        self.assertNotIn("token bars on", before.premises)
        with time_map.suppose():
            time_map.erase("c")
        self.assertEqual(time_map.dump(), before)
        self.assertEqual(time_map.size(), 3)

    def test_version_2(self) -> None:
        with tmm.TimeMap() as time_map:
            with time_map.suppose():
                time_map.upgrade()
            self.assertEqual(time_map.dump(), tmm.Dump(1000))
            mark = time_map.mark()
            time_map.upgrade()
            with self.assertRaisesRegex(tmm.TmmError, "version 2"):
                time_map.back(mark)

    def test_random_histories_come_back(self) -> None:
        for seed in range(5):
            chance = random.Random(seed)
            with self.subTest(seed=seed), self.map.suppose():
                before = self.state()
                with self.map.suppose():
                    for number in range(20):
                        self.map.send(self.some_edit(chance, number))
                        self.assertEqual(self.map.premises, self.map.dump().premises)
                self.assertEqual(self.state(), before)

    def some_edit(self, chance: random.Random, number: int) -> str:
        """An edit, which may be refused."""
        names = [premise.split()[1] for premise in self.map.premises] or ["none"]
        some, other = chance.choice(names), chance.choice(names)
        edits: List[str] = [
            f"erase {some}",
            f"point p{number}",
            f"token k{number} {chance.choice(['open', 'shut'])}",
            f"event e{number} push",
            f"dist d{number} start {some} {chance.randrange(20)} *",
            f"dist d{number} {some} {other} {chance.randrange(4)} {chance.randrange(4, 9)}",
            f"rule r{number} push 1 3 {chance.choice(['open', 'shut', 'push'])} if open",
            f"horizon {chance.randrange(40)}",
        ]
        return chance.choice(edits)


class UndoingTest(TryingTest):
    """The same over a program without suppositions, by edits that undo."""

    def setUp(self) -> None:
        self.enterContext(mock.patch("tmm.client.modes_of", return_value=frozenset()))
        super().setUp()

    def test_version_2(self) -> None:
        with tmm.TimeMap() as time_map, self.assertRaisesRegex(tmm.TmmError, "version 2"):
            with time_map.suppose():
                time_map.upgrade()


class SuppositionTest(unittest.TestCase):
    """Suppositions of the program, and lines that are about them."""

    def setUp(self) -> None:
        self.told: List[str] = []
        self.map = tmm.TimeMap(log=lambda line, reply: self.told.append(line))
        self.addCleanup(self.map.close)

    def test_which_lines_are_given(self) -> None:
        with self.map.suppose():
            self.map.point("p")
        with self.map.suppose() as supposed:
            supposed.keep()
            self.map.point("q")
        self.assertEqual(self.told, ["suppose", "point p", "drop", "suppose", "point q", "keep"])
        self.assertEqual(self.map.close(), 0)

    def test_more_blocks_than_suppositions(self) -> None:
        self.open_blocks(12)
        self.assertEqual(self.told.count("suppose"), 8)
        self.assertEqual(self.map.dump().premises, ())
        self.assertEqual(self.map.close(), 0)

    def open_blocks(self, count: int) -> None:
        with self.map.suppose():
            self.map.point(f"p{count}")
            if count > 1:
                self.open_blocks(count - 1)
            self.assertEqual(len(self.map.dump().premises), 13 - count)

    def test_lines_that_are_given_as_they_are(self) -> None:
        for line in ("point a", "suppose", "horizon 5", "erase a", "class c f", "suppose", "point b", " keep "):
            self.assertEqual(self.map.send(line), tmm.Changes(erased=("a",) if line == "erase a" else ()))
            self.assertEqual(self.map.premises, self.map.dump().premises)
        self.assertEqual(self.map.send("drop"), tmm.Changes())
        self.assertEqual((self.map.premises, self.map.horizon_date), (("point a",), 1000))
        self.assertFalse(self.map.is_declared("f"))
        self.assertEqual(self.map.send("drop"), tmm.Refusal(tmm.Cause.NO_SUPPOSITION))
        replies = self.map.send_all(["suppose"] * 9)
        self.assertEqual(replies, [tmm.Changes()] * 8 + [tmm.Refusal(tmm.Cause.TOO_MANY_SUPPOSITIONS)])

    def test_lines_within_a_block(self) -> None:
        with self.map.suppose():
            self.map.send_all(["point a", "suppose", "suppose", "point b"])
        self.assertEqual(self.map.send("keep"), tmm.Refusal(tmm.Cause.NO_SUPPOSITION))
        with self.map.suppose():
            self.map.send_all(["point a", "keep", "point b"])
        self.assertEqual(self.map.dump().premises, ("point a", "point b"))

    def test_a_command_with_words_is_started_as_it_is(self) -> None:
        program = tmm.find_program()
        with tmm.TimeMap([program, "suppose"]) as time_map, time_map.suppose():
            time_map.point("a")
        with mock.patch("tmm.client.modes_of", return_value=frozenset()), tmm.TimeMap([program]) as time_map:
            self.assertEqual(time_map.send("suppose"), tmm.Refusal(tmm.Cause.FORM))

    def test_the_modes_of_a_program(self) -> None:
        self.assertIn("suppose", modes_of(tmm.find_program()))
        for usage, modes in (
            ("usage: tmm [demo N], N from 1 to 1000", []),
            ("usage: tmm [demo N | suppose], N from 1 to 1000", ["suppose"]),
            (
                "usage: tmm [demo N | suppose | agents | repairs | timeline], N from 1 to 1000",
                ["agents", "repairs", "suppose", "timeline"],
            ),
            ("usage: another", []),
        ):
            with self.subTest(usage=usage), tempfile.TemporaryDirectory() as folder:
                program = Path(folder) / "program"
                program.write_text(f"#!/bin/sh\necho '{usage}'\n", encoding="ascii")
                program.chmod(0o755)
                self.assertEqual(sorted(modes_of(str(program))), modes)

    def test_a_program_that_does_not_tell(self) -> None:
        with tempfile.TemporaryDirectory() as folder:
            program = Path(folder) / "program"
            program.write_text("#!/bin/sh\nexec sleep 1000\n", encoding="ascii")
            program.chmod(0o755)
            self.assertEqual(modes_of(str(program), 0.2), frozenset())


class ChangeTest(unittest.TestCase):
    """Other bounds for a constraint."""

    def setUp(self) -> None:
        self.map = tmm.TimeMap()
        self.addCleanup(self.map.close)
        self.map.send_all(DOOR)

    def test_a_change(self) -> None:
        self.assertEqual(
            self.map.change("x", 20, 22), (tmm.Changes(erased=("x",), mended=("keep",)), tmm.Changes())
        )
        self.assertEqual(self.map.bounds("start", "e"), tmm.Bounds(20, 22))
        self.assertEqual(self.map.dump().premises[-1], "dist x start e 20 22")

    def test_a_change_that_is_refused_changes_nothing(self) -> None:
        before = self.map.dump()
        self.map.dist("m", "e", "late", 1)
        self.map.erase("m")
        self.map.dist("m", "e", "late", 1)
        with self.assertRaises(tmm.RefusedForCycle):
            self.map.change("x", 20, 22)
        self.assertEqual(self.map.dump().premises, (*before.premises, "dist m e late 1 *"))

    def test_what_is_no_constraint(self) -> None:
        for name in ("late", "none", "shuts"):
            with self.subTest(name=name), self.assertRaisesRegex(ValueError, name):
                self.map.change(name, 1)

    def test_bounds_that_no_line_can_have(self) -> None:
        with self.assertRaisesRegex(ValueError, "reversed"):
            self.map.change("x", 5, 3)
        self.assertEqual(self.map.dump().premises, tuple(DOOR))


if __name__ == "__main__":
    unittest.main()
