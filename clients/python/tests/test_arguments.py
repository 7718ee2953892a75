"""Tests of what no line can have: the client says why, and the program would call it `form`."""

import unittest
from typing import Callable, List, Tuple

import tmm

# A call, the line that it would be, and a part of the reason.
WRONG: List[Tuple[Callable[[tmm.TimeMap], object], str, str]] = [
    (lambda m: m.point("1a"), "point 1a", "letter"),
    (lambda m: m.point("a.b"), "point a.b", "letter"),
    (lambda m: m.point("a" * 25), "point " + "a" * 25, "24"),
    (lambda m: m.point("gr\u00fc\u00df"), "point gr\u00fc\u00df", "letter"),
    (lambda m: m.dist("d", "a", "b", 1.5, 3), "dist d a b 1.5 3", "whole number"),  # type: ignore[arg-type]
    (lambda m: m.dist("d", "a", "b", 0, True), "dist d a b 0 True", "truth value"),
    (lambda m: m.dist("d", "a", "b", "3"), "dist d a b +3 *", "whole number"),  # type: ignore[arg-type]
    (lambda m: m.dist("d", "a", "b", 5, 3), "dist d a b 5 3", "reversed: 5 is above 3"),
    (lambda m: m.dist("d", "a", "b"), "dist d a b * *", "at least one bound"),
    (lambda m: m.dist("d", "a", "b", 10**9 + 1), "dist d a b 1000000001 *", "beyond 1,000,000,000"),
    (lambda m: m.dist("d", "a/x", "b", 1), "dist d a/x b 1 *", "point"),
    (lambda m: m.bounds("a", "e/r.end"), "bounds a e/r.end", "point or occurrence"),
    (lambda m: m.path("a", "e/"), "path a e/", "point or occurrence"),
    (lambda m: m.ask("f/x", "a", "b"), "ask f/x a b", "name"),
    (lambda m: m.why("s.end"), "why s.end", "occurrence"),
    (lambda m: m.class_("d"), "class d", "1 to 8 facts"),
    (lambda m: m.class_("d", *[f"f{n}" for n in range(9)]), "class d f0 f1 f2 f3 f4 f5 f6 f7 f8", "1 to 8 facts"),
    (lambda m: m.rule("r", "t", 0, 1, "f"), "rule r t 0 1 f", "at least 1"),
    (lambda m: m.rule("r", "t", 2, 1, "f"), "rule r t 2 1 f", "reversed"),
    (lambda m: m.rule("r", "t", None, 1, "f"), "rule r t * 1 f", "least delay"),  # type: ignore[arg-type]
    (lambda m: m.rule("r", "t", 1, 1, "f", given=list("fghfg")), "rule r t 1 1 f if f g h f g", "4"),
    (lambda m: m.rule("r", "t", 1, 1, "f", unless=list("fgh")), "rule r t 1 1 f unless f g h", "2"),
    (lambda m: m.against("x", "f", "f"), "against x f f", "itself"),
    (lambda m: m.horizon(100_001), "horizon 100001", "100,000"),
    (lambda m: m.horizon(-1), "horizon -1", "100,000"),
    (lambda m: m.erase("s.end"), "erase s.end", "name"),
    (lambda m: m.protect("x", "f", "a", "b/c"), "protect x f a b/c", "point"),
]

# What looks odd, and is well formed: the program answers it, and not by `form`.
RIGHT: List[Callable[[tmm.TimeMap], object]] = [
    lambda m: m.point("a" * 24),
    lambda m: m.point("a_-"),
    lambda m: m.point("start"),
    lambda m: m.dist("far", "a", "b", -(10**9), 10**9),
    lambda m: m.dist("u", "a", "b.end", 1),
    lambda m: m.dist("u", "start.end", "b", 1),
    lambda m: m.bounds("start/x", "s.end"),
    lambda m: m.class_("w", *[f"w{n}" for n in range(8)]),
    lambda m: m.rule("r", "t", 1, None, "f", given=["f", "g", "h", "f"]),
    lambda m: m.rule("q", "t", 1, 1, "f", unless=["f", "g"]),
    lambda m: m.horizon(0),
    lambda m: m.horizon(100_000),
    lambda m: m.protect("v", "f", "start", "s.end"),
    lambda m: m.why("start"),
]


class ArgumentsTest(unittest.TestCase):
    """Over version 2 of the script, which has every form."""

    def setUp(self) -> None:
        self.map = tmm.TimeMap()
        self.addCleanup(self.map.close)
        self.map.upgrade()
        for line in ("class c f g h", "kind t", "event e t", "span s g", "point a", "point b"):
            self.assertEqual(self.map.send(line), tmm.Changes())

    def test_what_no_line_can_have(self) -> None:
        for call, line, reason in WRONG:
            with self.subTest(line=line):
                before = self.map.premises
                with self.assertRaises(ValueError) as caught:
                    call(self.map)
                self.assertIn(reason, str(caught.exception))
                self.assertEqual(self.map.premises, before)
                # The client is no stricter than the language.
                self.assertEqual(self.map.send(line), tmm.Refusal(tmm.Cause.FORM))

    def test_what_is_well_formed(self) -> None:
        for number, call in enumerate(RIGHT):
            with self.subTest(number=number):
                try:
                    call(self.map)
                except tmm.Refused as refused:
                    self.assertIsNot(refused.cause, tmm.Cause.FORM)

    def test_names_that_are_no_texts(self) -> None:
        for word in (1, True, None, b"a"):
            with self.subTest(word=word), self.assertRaisesRegex(ValueError, type(word).__name__):
                self.map.point(word)  # type: ignore[arg-type]


if __name__ == "__main__":
    unittest.main()
