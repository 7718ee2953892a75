"""Tests of the mode `repairs`: what mends a broken protection, and that it does."""

import random
import unittest
from typing import List, Set

import tmm
from tmm.program import REPAIRS
from tmm.replies import parse_reply

# A cooler is cold from 40 to 60 on, and a visit at 90 to 100 warms it. A sample is to be kept cold.
LAB = [
    "class cooler cold warm",
    "kind visit",
    "rule warms visit 5 10 warm if cold",
    "token chilled cold",
    "dist c start chilled 40 60",
    "event v visit",
    "dist v1 start v 90 100",
    "point begin",
    "dist b start begin 50 65",
    "point end",
    "dist e begin end 30 40",
    "protect kept cold begin end",
]

ADDED = tmm.AddedConstraint("chilled", "begin", 0)


class RepairsTest(unittest.TestCase):
    """Over the map of a laboratory, in the mode `repairs`."""

    def setUp(self) -> None:
        self.map = tmm.TimeMap(mode=REPAIRS)
        self.addCleanup(self.map.close)
        self.map.send_all(LAB)

    def broken(self) -> Set[str]:
        return {broken.protection for broken in self.map.check()}

    def test_what_mends_is_told(self) -> None:
        self.assertEqual(self.broken(), {"kept"})
        self.assertIn(ADDED, self.map.repairs("kept"))
        self.assertEqual(self.broken(), {"kept"})

    def test_what_is_told_mends(self) -> None:
        for repair in self.map.repairs("kept"):
            with self.subTest(repair=repair):
                before = self.map.mark()
                changes = self.map.apply(repair)
                self.assertEqual(len(changes), 2 if isinstance(repair, tmm.LoosenedConstraint) else 1)
                self.assertEqual(self.broken(), set())
                self.assertEqual(self.map.repairs("kept"), ())
                self.map.back(before)

    def test_an_added_constraint_has_a_free_name(self) -> None:
        self.map.point("repair-0")
        self.map.class_("colours", "repair-1", "other")
        self.map.apply(ADDED)
        self.assertEqual(self.map.premises[-1], "dist repair-2 chilled begin 0 *")

    def test_a_bound_is_given_up(self) -> None:
        self.map.apply(tmm.LoosenedConstraint("b", tmm.Side.LOWER))
        self.assertEqual(self.map.premises[-1], "dist b start begin * 65")
        with self.assertRaises(ValueError):
            self.map.apply(tmm.LoosenedConstraint("b", tmm.Side.UPPER))
        with self.assertRaises(ValueError):
            self.map.apply(tmm.LoosenedConstraint("begin", tmm.Side.UPPER))
        self.map.apply(tmm.LoosenedConstraint("e", tmm.Side.UPPER))
        self.assertEqual(self.map.premises[-1], "dist e begin end 30 *")

    def test_other_names_are_refused(self) -> None:
        for name, cause in (("begin", tmm.Cause.SORT), ("cold", tmm.Cause.SORT), ("start", tmm.Cause.SORT), ("nil", tmm.Cause.UNKNOWN)):
            with self.subTest(name=name):
                self.assertEqual(self.map.send(f"repairs {name}"), tmm.Refusal(cause, name))
        with self.assertRaises(ValueError):
            self.map.repairs("end.end")

    def test_the_line_wants_its_mode(self) -> None:
        with tmm.TimeMap() as plain:
            plain.send_all(LAB)
            with self.assertRaises(tmm.Refused):
                plain.repairs("kept")

    def test_blocks_are_undone_by_edits(self) -> None:
        stood = self.map.premises
        with self.map.suppose():
            self.map.apply(ADDED)
            self.assertEqual(self.broken(), set())
        self.assertEqual(self.map.premises, stood)
        self.assertEqual(self.broken(), {"kept"})

    def test_each_change_of_random_maps_mends(self) -> None:
        told = 0
        for seed in range(40):
            with tmm.TimeMap(mode=REPAIRS) as time_map:
                time_map.send_all(random_lines(random.Random(seed)))
                before = {broken.protection for broken in time_map.check()}
                for name in sorted(before):
                    for repair in time_map.repairs(name):
                        told += 1
                        with self.subTest(seed=seed, name=name, repair=repair):
                            mark = time_map.mark()
                            time_map.apply(repair)
                            after = {broken.protection for broken in time_map.check()}
                            self.assertLessEqual(after, before)
                            self.assertNotIn(name, after)
                            time_map.back(mark)
        self.assertGreater(told, 100)


def random_lines(rng: random.Random) -> List[str]:
    """A small map with protections that are likely to be broken by little."""
    lines = ["class c f g", "class d h i", "kind k", "rule r k 1 2 g if h"]
    points = ["start"]
    for number in range(rng.randint(5, 9)):
        name = f"p{number}"
        sort = rng.choice(["point {}", "token {} f", "token {} f", "token {} g", "span {} f", "event {} k", "token {} h"])
        lines.append(sort.format(name))
        lower = rng.randint(0, 4)
        lines.append(f"dist d{number} {rng.choice(points)} {name} {lower} {lower + rng.randint(0, 6)}")
        points.append(name)
    for number in range(8):
        first, second = sorted(rng.choices(points, k=2), key=points.index)
        lines.append(f"protect x{number} {rng.choice('ffgh')} {first} {rng.choice([first, second])}")
    return lines


class ReplyTest(unittest.TestCase):
    """The text of the reply."""

    def test_reply_is_read(self) -> None:
        text = "9 repairs 4\n  add s.end start -3 *\n  erase add\n  loosen lo lo\n  loosen erase hi\n"
        self.assertEqual(
            parse_reply(text, 9),
            tmm.Repairs(
                (
                    tmm.AddedConstraint("s.end", "start", -3),
                    tmm.ErasedPremise("add"),
                    tmm.LoosenedConstraint("lo", tmm.Side.LOWER),
                    tmm.LoosenedConstraint("erase", tmm.Side.UPPER),
                )
            ),
        )
        self.assertEqual(parse_reply("1 repairs 0\n", 1), tmm.Repairs())

    def test_other_texts_are_none(self) -> None:
        for detail in ("add a b 0 5", "add a b *", "loosen d base", "loosen d", "erase", "mend d lo"):
            with self.subTest(detail=detail), self.assertRaises(tmm.ProtocolError):
                parse_reply(f"1 repairs 1\n  {detail}\n", 1)
        with self.assertRaises(tmm.ProtocolError):
            parse_reply("1 repairs 2\n  erase d\n", 1)


if __name__ == "__main__":
    unittest.main()
