"""Tests of many questions at once, dates, short reasons, and the log."""

import unittest
from typing import List, Optional, Tuple

import tmm

# the example of docs/SCRIPT.md for points and distances
NETWORK = ["point a", "point b", "point c", "dist d a b 3 7", "dist e b c 2 4"]


class ManyTest(unittest.TestCase):
    """What is answered by one fence is what is answered line by line."""

    def setUp(self) -> None:
        self.map = tmm.TimeMap()
        self.addCleanup(self.map.close)
        self.map.send_all(NETWORK)

    def test_bounds_and_paths(self) -> None:
        self.assertEqual(
            self.map.bounds_all([("a", "c"), ("start", "a")]), [tmm.Bounds(5, 11), tmm.Bounds(0, None)]
        )
        upper = (tmm.Step("d", tmm.Side.UPPER, "a", "b", 7), tmm.Step("e", tmm.Side.UPPER, "b", "c", 4))
        self.assertEqual(self.map.path_all([("a", "c"), ("start", "a")]), [tmm.Walk(11, upper), tmm.Walk(None)])

    def test_answers(self) -> None:
        self.map.send_all(["class door open shut", "token k open", "token m shut", "dist x k m 5 5"])
        blame = tmm.Blame("k", tmm.BlameCause.CLIPPED, "m")
        self.assertEqual(
            self.map.ask_all([("open", "k", "k"), ("open", "k", "m"), ("shut", "m", "m")]),
            [
                tmm.Answer(tmm.Verdict.YES, "k"),
                tmm.Answer(tmm.Verdict.NO, blames=(blame,)),
                tmm.Answer(tmm.Verdict.YES, "m"),
            ],
        )

    def test_no_questions(self) -> None:
        self.assertEqual(self.map.bounds_all([]), [])
        self.assertEqual(self.map.size(), 0)

    def test_more_than_pipes_hold(self) -> None:
        answers = self.map.path_all([("a", "c")] * 20000)
        self.assertEqual(len(answers), 20000)
        self.assertEqual({answer.upper for answer in answers}, {11})

    def test_a_refusal_is_raised_when_all_are_answered(self) -> None:
        with self.assertRaises(tmm.Refused) as caught:
            self.map.bounds_all([("a", "c"), ("a", "none"), ("b", "c")])
        self.assertEqual(caught.exception.line, "bounds a none")
        self.assertEqual(self.map.bounds("a", "c"), tmm.Bounds(5, 11))

    def test_lines_of_all_kinds(self) -> None:
        self.assertEqual(
            self.map.send_all(["# silent", "bounds a c", "", "point a", "size"]),
            [None, tmm.Bounds(5, 11), None, tmm.Refusal(tmm.Cause.TAKEN, "a"), tmm.Size(0)],
        )

    def test_a_word_that_no_line_can_have(self) -> None:
        with self.assertRaises(ValueError):
            self.map.bounds_all([("a", "c"), ("a", "b c")])
        self.assertEqual(self.map.bounds("a", "c"), tmm.Bounds(5, 11))

    def test_dates(self) -> None:
        self.map.send_all(["class door open shut", "span s open", "dist z start s 2 3", "dist y start a 1 4"])
        self.assertEqual(
            self.map.dates(),
            {
                "a": tmm.Bounds(1, 4),
                "b": tmm.Bounds(4, 11),
                "c": tmm.Bounds(6, 15),
                "s": tmm.Bounds(2, 3),
                "s.end": tmm.Bounds(3, None),
            },
        )
        self.assertEqual(self.map.dates(["c"]), {"c": tmm.Bounds(6, 15)})

    def test_dates_of_effects(self) -> None:
        self.map.send_all(
            ["class door open shut", "kind push", "rule shuts push 1 2 shut", "event v push", "dist x start v 10 10"]
        )
        self.assertEqual(self.map.dates(["v/shuts"]), {"v/shuts": tmm.Bounds(11, 12)})


class WhyTest(unittest.TestCase):
    """Reasons down to a depth."""

    def setUp(self) -> None:
        self.map = tmm.TimeMap()
        self.addCleanup(self.map.close)
        self.map.send_all(
            [
                "class door open shut",
                "kind push",
                "kind bang",
                "rule shuts push 1 2 bang if open",
                "rule rings bang 1 2 shut if open",
                "token held open",
                "dist h start held 0 0",
                "event e push",
                "dist x start e 10 10",
            ]
        )

    def told(self, depth: Optional[int]) -> List[str]:
        """What each reason is of, an order by the two that it orders."""
        told = []
        for reason in self.map.why("e/shuts/rings", depth):
            if isinstance(reason, tmm.PremiseReason):
                told.append(reason.premise)
            elif isinstance(reason, tmm.EffectReason):
                told.append(reason.effect)
            else:
                told.append(f"{reason.first} {reason.second}")
        return told

    def test_the_whole(self) -> None:
        whole = ["held", "e", "held e", "e/shuts", "held e/shuts", "e/shuts/rings"]
        self.assertEqual(self.told(None), whole)
        self.assertEqual(self.told(3), whole)
        self.assertEqual(self.told(99), whole)

    def test_short(self) -> None:
        self.assertEqual(self.told(1), ["held e/shuts", "e/shuts/rings"])
        self.assertEqual(self.told(2), ["held", "held e", "e/shuts", "held e/shuts", "e/shuts/rings"])

    def test_a_premise(self) -> None:
        self.assertEqual(self.map.why("held", 1), (tmm.PremiseReason("held"),))

    def test_no_depth(self) -> None:
        for depth in (0, -1, 1.5, True):
            with self.subTest(depth=depth), self.assertRaises(ValueError):
                self.map.why("held", depth)  # type: ignore[arg-type]


class LogTest(unittest.TestCase):
    """Each line is told, with its reply."""

    def test_the_log(self) -> None:
        told: List[Tuple[str, Optional[tmm.Reply]]] = []
        with tmm.TimeMap(log=lambda line, reply: told.append((line, reply))) as time_map:
            time_map.point("a")
            time_map.send("# silent")
            with self.assertRaises(tmm.Refused):
                time_map.point("a")
            time_map.bounds_all([("start", "a")] * 2)
        self.assertEqual(
            told,
            [
                ("point a", tmm.Changes()),
                ("# silent", None),
                ("point a", tmm.Refusal(tmm.Cause.TAKEN, "a")),
                ("bounds start a", tmm.Bounds(0, None)),
                ("bounds start a", tmm.Bounds(0, None)),
            ],
        )

    def test_an_error_of_the_log_leaves_the_map_in_step(self) -> None:
        def fail(line: str, reply: Optional[tmm.Reply]) -> None:
            raise KeyError(line)

        with tmm.TimeMap(log=fail) as time_map:
            for _ in range(2):
                with self.assertRaises(KeyError):
                    time_map.size()
            self.assertTrue(time_map.is_usable)


if __name__ == "__main__":
    unittest.main()
