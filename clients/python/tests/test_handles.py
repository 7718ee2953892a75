"""Tests of handles and of names that are made up."""

import gc
import unittest
import weakref

import tmm


class HandlesTest(unittest.TestCase):
    """Over a map of its own."""

    def setUp(self) -> None:
        self.map = tmm.TimeMap()
        self.addCleanup(self.map.close)

    def test_points_and_constraints(self) -> None:
        first, second = self.map.new.point(), self.map.new.point("late")
        far = self.map.new.dist("start", first, 3, 7)
        self.map.new.dist(first, second, 2, 2, name="gap")
        self.assertEqual((first, second, far), ("point1", "late", "dist1"))
        self.assertEqual(second.dates(), tmm.Bounds(5, 9))
        self.assertEqual(far.change(upper=4), (tmm.Changes(erased=("dist1",)), tmm.Changes()))
        self.assertEqual(second.dates(), tmm.Bounds(2, 6))
        self.assertEqual(
            self.map.dump().premises,
            ("point point1", "point late", "dist gap point1 late 2 2", "dist dist1 start point1 * 4"),
        )
        self.assertEqual(first.erase().erased, ("point1", "gap", "dist1"))

    def test_facts_events_and_protections(self) -> None:
        self.map.new.class_("open", "shut")
        push = self.map.new.kind("push")
        shuts = self.map.new.rule(push, 1, 2, "shut", given="open")
        held = self.map.new.token("open")
        self.map.new.dist("start", held, 0, 0)
        event = self.map.new.event(push)
        self.assertEqual(event.changes.entered, ("event1/rule1",))
        self.assertEqual(event.effect(shuts), "event1/rule1")
        late = self.map.new.point()
        self.map.new.dist("start", late, 15, 15)
        keep = self.map.new.protect("open", held, late)
        self.assertIsNone(keep.broken())
        at = self.map.new.dist("start", event, 10, 10)
        blame = tmm.Blame("token1", tmm.BlameCause.CLIPPED, "event1/rule1")
        self.assertEqual(keep.broken(), tmm.Broken("protect1", blames=(blame,)))
        self.assertEqual(at.changes.broken, (tmm.Broken("protect1", blames=(blame,)),))
        self.assertEqual(at.erase().mended, (keep,))

    def test_a_span(self) -> None:
        self.map.new.class_("light", "dark")
        sun = self.map.new.span("light")
        self.map.new.dist(sun, sun.end, upper=9)
        self.assertEqual(self.map.bounds(sun, sun.end), tmm.Bounds(1, 9))

    def test_against(self) -> None:
        self.map.upgrade()
        self.map.new.class_("open", "shut")
        self.map.new.class_("calm", "ringing")
        self.map.new.against("open", "ringing")
        self.assertEqual(self.map.dump().premises[-1], "against against1 open ringing")

    def test_names_that_are_taken(self) -> None:
        # all names share one space: a fact, a kind, and a point that is erased
        self.map.class_("c", "point1", "other")
        self.map.kind("point2")
        self.assertEqual([self.map.new.point() for _ in range(2)], ["point3", "point4"])
        self.map.erase("point4")
        self.assertEqual(self.map.new.point(), "point5")
        self.assertEqual(self.map.close(), 0)

    def test_a_refusal_declares_nothing(self) -> None:
        with self.assertRaises(tmm.Refused):
            self.map.new.token("none")
        self.assertFalse(self.map.is_declared("token1"))

    def test_facts_are_declared_as_long_as_their_class(self) -> None:
        self.map.class_("c", "f", "g")
        self.assertTrue(self.map.is_declared("f"))
        self.map.erase("c")
        self.assertFalse(self.map.is_declared("f"))

    def test_a_map_that_nobody_holds_goes(self) -> None:
        other = tmm.TimeMap()
        point = other.new.point("only-in-this-test")
        other.bounds(point, point)
        other.close()
        known = weakref.ref(other)
        del other, point
        gc.collect()
        self.assertIsNone(known())


if __name__ == "__main__":
    unittest.main()
