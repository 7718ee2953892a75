"""Tests of several agents that share a map: what is held, made together, refused together."""

import stat
import tempfile
import unittest
from pathlib import Path
from typing import List

import tmm


class AgentsTest(unittest.TestCase):
    """Over a program in the mode `agents`."""

    def setUp(self) -> None:
        self.told: List[str] = []
        self.map = tmm.SharedMap(log=lambda line, reply: self.told.append(line))
        self.addCleanup(self.map.close)
        self.saw = self.map.agent("saw")
        self.lid = self.map.agent("lid")

    def declare_points(self) -> None:
        for name in ("a", "b"):
            self.saw.point(name)
        self.saw.dist("d", "a", "b", 3, 7)
        self.saw.commit()

    def test_edits_are_held_until_they_are_committed(self) -> None:
        self.assertEqual(self.saw.point("a"), 1)
        self.assertEqual(self.lid.point("b"), 1)
        self.assertEqual(self.saw.dist("d", "start", "a", 3, 7), 2)
        self.assertEqual((self.saw.held, self.lid.held), (2, 1))
        self.assertEqual(self.map.dump(), tmm.Dump(1000, (), 2))
        self.assertEqual([made.changes for made in self.saw.commit().edits], [tmm.Changes(), tmm.Changes()])
        self.assertEqual((self.saw.held, self.lid.held), (0, 1))
        self.assertEqual(self.map.dump().premises, ("point a", "dist d start a 3 7"))
        self.assertEqual(self.map.premises, self.map.dump().premises)
        self.assertEqual(self.map.bounds("start", "a"), tmm.Bounds(3, 7))

    def test_each_edit_tells_what_it_changed(self) -> None:
        self.saw.class_("door", "open", "shut")
        self.saw.kind("push")
        self.saw.rule("shuts", "push", 1, 2, "shut", given="open")
        self.saw.token("k", "open")
        self.saw.event("e", "push")
        self.saw.dist("x", "k", "e", 1, 1)
        made = self.saw.commit().edits
        self.assertEqual([edit.changes.entered for edit in made], [(), (), (), (), (), ("e/shuts",)])
        self.assertEqual(self.map.ask("open", "k", "e").verdict, tmm.Verdict.YES)

    def test_the_first_edit_that_is_refused(self) -> None:
        self.saw.class_("door", "open", "shut")
        self.saw.kind("push")
        self.saw.rule("shuts", "push", 1, 2, "shut", given="open", unless="stuck")
        self.saw.against("odd", "open", "loose")
        with self.assertRaises(tmm.BatchRefused) as caught:
            self.saw.commit()
        self.assertEqual(caught.exception.refusal, tmm.Refusal(tmm.Cause.UNKNOWN, "stuck"))
        self.assertEqual(caught.exception.line, "rule shuts push 1 2 shut if open unless stuck")
        self.assertEqual(self.told[-1], "@saw commit")
        self.assertEqual(self.told[1], "@saw kind push")

    def test_a_batch_is_made_whole_or_not_at_all(self) -> None:
        self.declare_points()
        self.lid.point("c")
        self.lid.dist("e", "b", "a", 0)
        with self.assertRaises(tmm.BatchRefused) as caught:
            self.lid.commit()
        self.assertEqual(caught.exception.cause, tmm.Cause.CYCLE)
        self.assertEqual(caught.exception.refusal.sum, -3)
        self.assertEqual(self.lid.held, 0)
        self.assertEqual(self.map.premises, self.map.dump().premises)
        self.assertFalse(self.map.is_declared("c"))
        self.assertEqual(self.lid.commit(), tmm.Batch())

    def test_a_discard(self) -> None:
        self.lid.point("c")
        self.lid.discard()
        self.assertEqual(self.lid.held, 0)
        self.assertEqual(self.lid.commit(), tmm.Batch())
        self.assertEqual(self.map.dump().premises, ())

    def test_one_agent_may_erase_what_another_declared(self) -> None:
        self.declare_points()
        self.lid.erase("a")
        self.lid.horizon(50)
        made = self.lid.commit().edits
        self.assertEqual(made[0].changes, tmm.Changes(erased=("a", "d")))
        self.assertEqual(self.map.premises, ("point b",))
        self.assertEqual((self.map.horizon_date, self.map.dump().horizon), (50, 50))

    def test_an_edit_wants_an_agent(self) -> None:
        for edit in (lambda: self.map.point("a"), lambda: self.map.horizon(5), lambda: self.map.erase("a")):
            with self.assertRaises(tmm.Refused) as caught:
                edit()
            self.assertEqual(caught.exception.cause, tmm.Cause.NO_AGENT)

    def test_what_is_no_edit_is_not_held(self) -> None:
        for line in ("", "# note", "size", "@lid point a", "commit now", "tmm 2", "point"):
            with self.subTest(line=line), self.assertRaises(tmm.Refused) as caught:
                self.saw.hold(line)
            self.assertEqual(caught.exception.cause, tmm.Cause.FORM)
        self.assertEqual(self.saw.held, 0)

    def test_what_would_be_another_line(self) -> None:
        for line in ("commit", " discard ", "point a\npoint b"):
            with self.subTest(line=line), self.assertRaises(ValueError):
                self.saw.hold(line)
        self.assertEqual(self.told, [])

    def test_lines_by_hand(self) -> None:
        lines = ["@saw point a", " @lid\tpoint  b ", "@saw commit", "@lid discard", "@lid commit", "# note", "", "dump"]
        made = tmm.Batch((tmm.Made(1, tmm.Changes()),))
        self.assertEqual(
            self.map.send_all(lines),
            [tmm.Held(1), tmm.Held(1), made, tmm.Changes(), tmm.Batch(), None, None, tmm.Dump(1000, ("point a",), 2)],
        )
        self.assertEqual(self.map.premises, ("point a",))

    def test_a_time_map_over_the_mode(self) -> None:
        with tmm.TimeMap([tmm.find_program(), "agents"]) as time_map:
            time_map.send_all(["@saw point a", "@saw commit", "@saw discard"])
            self.assertEqual(time_map.dump().premises, ("point a",))

    def test_the_most_that_may_be_held(self) -> None:
        for number in range(1, 101):
            self.assertEqual(self.saw.horizon(5), number)
        with self.assertRaises(tmm.Refused) as caught:
            self.saw.horizon(5)
        self.assertEqual(caught.exception.cause, tmm.Cause.TOO_MANY_EDITS_HELD)
        self.assertEqual(len(self.saw.commit().edits), 100)

    def test_the_most_agents_that_may_hold(self) -> None:
        agents = [self.map.agent(f"a{number}") for number in range(65)]
        for agent in agents[:64]:
            agent.horizon(5)
        with self.assertRaises(tmm.Refused) as caught:
            agents[64].horizon(5)
        self.assertEqual(caught.exception.cause, tmm.Cause.TOO_MANY_AGENTS)
        agents[0].discard()
        self.assertEqual(agents[64].horizon(5), 1)

    def test_the_name_of_an_agent(self) -> None:
        self.assertEqual(self.map.agent("start").horizon(7), 1)
        self.assertEqual(self.told[-1], "@start horizon 7")
        for name in ("", "two words", "1st", "x" * 25, "@saw"):
            with self.subTest(name=name), self.assertRaises(ValueError):
                self.map.agent(name)

    def test_arguments_that_no_line_can_have(self) -> None:
        with self.assertRaises(ValueError):
            self.saw.point("a b")
        self.assertEqual((self.saw.held, self.told), (0, []))

    def test_a_program_without_the_mode(self) -> None:
        with tempfile.TemporaryDirectory() as folder:
            program = Path(folder) / "tmm"
            program.write_text("#!/bin/sh\necho 'usage: tmm [demo N | suppose], N from 1 to 1000'\n", encoding="ascii")
            program.chmod(program.stat().st_mode | stat.S_IXUSR)
            with self.assertRaisesRegex(tmm.NoProgram, "agents"):
                tmm.SharedMap(str(program))


if __name__ == "__main__":
    unittest.main()
