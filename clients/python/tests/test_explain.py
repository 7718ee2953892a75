"""Tests of why something is not believed, and of threats.

What is expected is worked out by hand, by the definitions of docs/SCRIPT.md.
"""

import random
import unittest
from typing import List

import tmm
from tmm import Blame, BlameCause, Bounds, CutOff, Failure, Obstacle, Shared, Threat, Threats, WhyNot

DOOR = [
    "class door open shut",
    "kind push",
    "rule shuts push 1 2 shut if open",
    "token held open",
    "dist h start held 0 0",
]

# A machine, and whether it works. A job takes it from 1 to 11 later.
SHOP = [
    "class machine free busy",
    "class state fine broken",
    "kind job",
    "kind done",
    "rule takes job 1 1 busy if free",
    "rule ends job 10 10 done if free",
    "rule frees done 1 1 free if fine",
    "token idle free",
    "dist i start idle 0 0",
    "token well fine",
    "dist w start well 0 0",
    "event j1 job",
    "dist a start j1 5 5",
    "event j2 job",
    "dist b start j2 20 20",
]
CRASH = ["token crash broken", "dist c start crash 12 12", "token mended fine", "dist m start mended 17 17"]


class Explaining(unittest.TestCase):
    """Over a map of its own."""

    def setUp(self) -> None:
        self.map = tmm.TimeMap()
        self.addCleanup(self.map.close)

    def give(self, *lines: str) -> None:
        """Gives edits, each of which is taken."""
        for line, reply in zip(lines, self.map.send_all(lines)):
            self.assertIsInstance(reply, tmm.Changes, line)


class WhyNotTest(Explaining):
    """What stands against an occurrence."""

    def test_what_is_believed(self) -> None:
        self.give(*DOOR, "event a push", "dist x start a 10 10")
        for occurrence in ("a/shuts", "a", "held"):
            self.assertIsNone(self.map.why_not(occurrence))

    def test_what_is_no_occurrence(self) -> None:
        for word in ("s.end", "a/", "a b", ""):
            with self.subTest(word=word), self.assertRaises(ValueError):
                self.map.why_not(word)

    def test_what_took_the_fact_away(self) -> None:
        self.give(*DOOR, "event a push", "dist x start a 10 10", "event b push", "dist y start b 20 20")
        clipped = Blame("held", BlameCause.CLIPPED, "a/shuts")
        expected = WhyNot(
            "b/shuts", "b", "shuts", (Failure(Obstacle.CONDITION, "open", (clipped,), blame=clipped, premise="a"),)
        )
        found = self.map.why_not("b/shuts")
        self.assertEqual(found, expected)
        assert found is not None
        self.assertEqual(found.premises, ("a",))
        self.assertEqual(
            str(found),
            "b/shuts is not believed:\n"
            "  shuts wants open at b, and held is clipped by a/shuts, which comes of a",
        )

    def test_a_crash_that_is_among_no_blames(self) -> None:
        self.give(*SHOP)
        self.assertIsNone(self.map.why_not("j2/takes"))
        self.give(*CRASH)
        taken = Blame("idle", BlameCause.CLIPPED, "j1/takes")
        by_crash = Blame("well", BlameCause.CLIPPED, "crash")
        missing = WhyNot(
            "j1/ends/frees",
            "j1/ends",
            "frees",
            (
                Failure(
                    Obstacle.CONDITION,
                    "fine",
                    (Blame("mended", BlameCause.LATE), by_crash),
                    blame=by_crash,
                    premise="crash",
                ),
            ),
        )
        found = self.map.why_not("j2/takes")
        assert found is not None
        (failure,) = found.failures
        self.assertEqual((failure.fact, failure.blames, failure.premise), ("free", (taken,), "crash"))
        assert failure.missing is not None
        # The order of the blames is the program's.
        (within,) = failure.missing.failures
        self.assertEqual(set(within.blames), set(missing.failures[0].blames))
        self.assertEqual((within.fact, within.blame, within.premise), ("fine", by_crash, "crash"))
        self.assertEqual((failure.missing.effect, failure.missing.event), ("j1/ends/frees", "j1/ends"))
        self.assertEqual(
            str(found),
            "j2/takes is not believed:\n"
            "  takes wants free at j2, and j1/ends/frees would have led to it:\n"
            "    j1/ends/frees is not believed:\n"
            "      frees wants fine at j1/ends, and well is clipped by crash",
        )

    def test_the_first_on_the_way_is_told(self) -> None:
        self.give(*SHOP, *CRASH)
        found = self.map.why_not("j2/ends/frees")
        assert found is not None
        self.assertEqual((found.effect, found.event, found.rule), ("j2/ends", "j2", "ends"))

    def test_several_rules_would_have_led_to_it(self) -> None:
        # here it is the end of the first job that fails, and what frees the machine rests on that
        self.give(*SHOP, "erase ends", "rule ends job 10 10 done if fine", *CRASH)
        self.give("erase c", "dist c start crash 3 3")
        found = self.map.why_not("j2/takes")
        assert found is not None
        missing = found.failures[0].missing
        assert missing is not None
        self.assertEqual((missing.effect, missing.event, missing.premises), ("j1/ends", "j1", ("crash",)))

    def test_what_would_have_been_clipped_is_no_reason(self) -> None:
        # `p/opens` would be at 6, and the push at 10 shuts the door after that
        self.give(
            *DOOR, "kind pull", "rule opens pull 1 1 open if shut", "event p pull", "dist q start p 5 5",
            "event a push", "dist x start a 10 10", "event b push", "dist y start b 20 20",
        )
        found = self.map.why_not("b/shuts")
        assert found is not None
        self.assertIsNone(found.failures[0].missing)
        self.assertEqual(found.premises, ("a",))
        # at 12 it would come in time: `a/shuts` is at 11 to 12, which is too late for the pull at 11
        self.give("erase q", "dist q start p 11 11")
        found = self.map.why_not("b/shuts")
        assert found is not None and found.failures[0].missing is not None
        self.assertEqual(found.failures[0].missing.effect, "p/opens")
        self.assertEqual(found.failures[0].missing.failures[0].blame, Blame("a/shuts", BlameCause.LATE))
        self.assertEqual(found.premises, ("a",))

    def test_late(self) -> None:
        self.give(*DOOR, "erase h", "dist h start held 8 15", "event a push", "dist x start a 10 10")
        late = Blame("held", BlameCause.LATE)
        expected = Failure(Obstacle.CONDITION, "open", (late,), blame=late, premise="held")
        self.assertEqual(self.map.why_not("a/shuts"), WhyNot("a/shuts", "a", "shuts", (expected,)))

    def test_a_span_that_may_end_before(self) -> None:
        self.give(
            *DOOR, "erase held", "span s open", "dist u start s 5 5", "dist v start s.end 8 20",
            "event a push", "dist x start a 10 10",
        )
        ends = Blame("s", BlameCause.ENDS)
        expected = Failure(Obstacle.CONDITION, "open", (ends,), blame=ends, premise="s")
        self.assertEqual(self.map.why_not("a/shuts"), WhyNot("a/shuts", "a", "shuts", (expected,)))

    def test_nothing_brings_it_about(self) -> None:
        self.give(*DOOR, "erase held", "event a push", "dist x start a 10 10")
        found = self.map.why_not("a/shuts")
        self.assertEqual(found, WhyNot("a/shuts", "a", "shuts", (Failure(Obstacle.CONDITION, "open"),)))
        self.assertIn("nothing brings that about", str(found))

    def test_an_exception(self) -> None:
        self.give(
            "tmm 2", *DOOR, "class bolt fast loose", "erase shuts",
            "rule shuts push 1 2 shut if open unless fast", "event e push", "dist x start e 10 10",
            "token drawn fast", "dist d start drawn 0 0",
        )
        expected = Failure(Obstacle.EXCEPTION, "fast", token="drawn", premise="drawn")
        found = self.map.why_not("e/shuts")
        self.assertEqual(found, WhyNot("e/shuts", "e", "shuts", (expected,)))
        self.assertEqual(
            str(found), "e/shuts is not believed:\n  shuts is barred at e: fast holds by drawn"
        )

    def test_two_things_at_once(self) -> None:
        self.give(*DOOR, "erase held", "event a push", "dist x start a 10 10", "horizon 10")
        found = self.map.why_not("a/shuts")
        assert found is not None
        self.assertEqual([each.obstacle for each in found.failures], [Obstacle.CONDITION, Obstacle.HORIZON])
        self.assertEqual(found.failures[1].date, 11)

    def test_the_horizon(self) -> None:
        self.give(*DOOR, "kind bang", "rule slams push 3 * bang", "event e push", "dist x start e 10 10", "horizon 12")
        expected = Failure(Obstacle.HORIZON, date=13)
        found = self.map.why_not("e/slams")
        self.assertEqual(found, WhyNot("e/slams", "e", "slams", (expected,)))
        self.assertIn("13, past the horizon", str(found))

    def test_what_is_not_declared(self) -> None:
        self.give(*DOOR, "kind pull", "rule opens pull 1 1 open", "event a push")
        self.assertEqual(self.map.why_not("x/shuts"), WhyNot("x", None, None, (Failure(Obstacle.NO_EVENT),)))
        self.assertEqual(self.map.why_not("a/none"), WhyNot("a/none", "a", "none", (Failure(Obstacle.NO_RULE),)))
        self.assertEqual(
            self.map.why_not("a/opens"), WhyNot("a/opens", "a", "opens", (Failure(Obstacle.OTHER_KIND),))
        )

    def test_random_maps(self) -> None:
        for seed in range(8):
            chance = random.Random(seed)
            with self.subTest(seed=seed), tmm.TimeMap() as time_map:
                time_map.send_all(random_shop(chance))
                rows = {row.occurrence: row for row in time_map.list()}
                rules = [premise.split() for premise in time_map.premises if premise.startswith("rule ")]
                asked = 0
                for row in rows.values():
                    for _, rule, kind, *rest in rules:
                        effect = f"{row.occurrence}/{rule}"
                        if kind != row.what:
                            continue
                        found = time_map.why_not(effect)
                        self.assertEqual(found is None, effect in rows)
                        if found is not None:
                            asked += 1
                            self.look_at(time_map, found)
                self.assertGreater(asked, 0)

    def look_at(self, time_map: tmm.TimeMap, found: WhyNot) -> None:
        """What is told is what the program tells, too."""
        assert found.event is not None
        for failure in found.failures:
            if failure.obstacle is Obstacle.CONDITION:
                assert failure.fact is not None
                answer = time_map.ask(failure.fact, found.event, found.event)
                self.assertEqual((answer.verdict, answer.blames), (tmm.Verdict.NO, failure.blames))
                if failure.blame is not None and not failure.more:
                    self.assertIn(failure.blame, failure.blames)
                self.assertEqual(failure.blame is None, not failure.blames)
            if failure.missing is not None:
                self.look_at(time_map, failure.missing)


def random_shop(chance: random.Random) -> List[str]:
    """A shop with some jobs, crashes and mends at dates that are known or not."""
    lines = SHOP[:11]
    for number in range(6):
        begin, more = chance.randrange(60), chance.choice([0, 0, 4])
        lines += [f"event k{number} job", f"dist k{number}d start k{number} {begin} {begin + more}"]
    for number in range(4):
        begin, fact = chance.randrange(60), chance.choice(["fine", "broken", "free"])
        lines += [f"token t{number} {fact}", f"dist t{number}d start t{number} {begin} {begin + 2}"]
    return lines


class ThreatsTest(Explaining):
    """What is to be ordered, and what the horizon hides."""

    def test_none(self) -> None:
        self.assertEqual(self.map.threats(), Threats())
        self.give(*DOOR, "event a push", "dist x start a 10 10")
        self.assertEqual(self.map.threats(), Threats())

    def test_an_order_that_is_not_known(self) -> None:
        self.give("class door open shut", "class day light dark", "token k open", "token m shut", "token n light")
        self.assertEqual(self.map.threats().pairs, (Threat("k", "m", Bounds(None, None)),))
        self.give("dist x k m -1 3")
        (threat,) = self.map.threats().pairs
        self.assertEqual((threat.bounds, threat.at_one_date), (Bounds(-1, 3), False))

    def test_dates_that_are_or_may_be_one(self) -> None:
        self.give("class door open shut", "token k open", "token m shut", "dist x k m 0 0")
        (threat,) = self.map.threats().pairs
        self.assertTrue(threat.at_one_date)
        for lower, upper, threatened in ((0, 3, True), (-3, 0, True), (1, 3, False), (-3, -1, False)):
            with self.subTest(lower=lower, upper=upper):
                self.map.change("x", lower, upper)
                self.assertEqual(bool(self.map.threats().pairs), threatened)

    def test_dates_do_not_tell_all(self) -> None:
        # each may be at 0 to 9, and still the one is surely after the other
        self.give("class door open shut", "token k open", "token m shut", "dist a start k 0 8", "dist b start m 0 9")
        self.assertEqual(len(self.map.threats().pairs), 1)
        self.give("dist x k m 1 *")
        self.assertEqual(self.map.threats().pairs, ())

    def test_facts_of_two_classes(self) -> None:
        self.give("tmm 2", "class door open shut", "class alarm calm ringing", "token k open", "token n ringing")
        self.assertEqual(self.map.threats().pairs, ())
        self.give("against a open ringing")
        self.assertEqual(self.map.threats().pairs, (Threat("k", "n", Bounds(None, None)),))

    def test_two_jobs_on_one_machine_at_one_date(self) -> None:
        self.give(*SHOP)
        self.assertEqual(self.map.threats(), Threats())
        self.map.change("b", 5, 5)
        # nothing is broken, and both find the machine free
        self.assertEqual(self.map.check(), ())
        self.assertEqual(self.map.threats(), Threats(shared=(Shared("idle", "j1", "j2"),)))

    def test_two_jobs_in_an_order_that_is_not_known(self) -> None:
        self.give(*SHOP, "erase a", "erase b")
        self.assertEqual(self.map.threats().shared, (Shared("idle", "j1", "j2"),))
        pairs = {(each.first, each.second) for each in self.map.threats().pairs}
        # `j1` takes the machine at some time, and `j2` frees it at some time
        self.assertIn(("j1/takes", "j2/ends/frees"), pairs)
        self.assertIn(("j2/takes", "j1/ends/frees"), pairs)

    def test_effects_past_the_horizon(self) -> None:
        self.give(*SHOP, "horizon 25")
        self.assertEqual(self.map.threats().cut_off, (CutOff("j2/ends", 30),))
        self.give("horizon 30")
        self.assertEqual(self.map.threats().cut_off, (CutOff("j2/ends/frees", 31),))
        self.give("horizon 31")
        self.assertEqual(self.map.threats().cut_off, ())

    def test_past_the_horizon_a_rule_that_would_not_fire(self) -> None:
        self.give(*SHOP, *CRASH, "horizon 12")
        # the machine is broken from 12 on, so nothing would free it at 16
        self.assertEqual([each.effect for each in self.map.threats().cut_off], ["j1/ends"])


if __name__ == "__main__":
    unittest.main()
