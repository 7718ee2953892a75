"""Tests of timelines: what a program in the mode tells, and what a map of another one asks for."""

import tempfile
import unittest
from pathlib import Path

import tmm
from tmm.replies import parse_reply

DOOR = [
    "class door open shut",
    "kind push",
    "rule r push 1 3 shut if open",
    "token k open",
    "event e push",
]

PLAYED = tmm.Timeline(
    (tmm.PointDate("k", 0), tmm.PointDate("e", 0)),
    (
        tmm.Dated(0, "e", "push"),
        tmm.Dated(0, "k", "open", True, 1),
        tmm.Dated(1, "e/r", "shut", True),
    ),
)


class TimelineTest(unittest.TestCase):
    """What happens at the earliest dates."""

    def test_a_program_in_the_mode(self) -> None:
        with tmm.TimeMap([tmm.find_program(), "timeline"]) as time_map:
            time_map.send_all(DOOR)
            self.assertEqual(time_map.timeline(), PLAYED)
            # what is played need not be believed
            self.assertEqual([row.occurrence for row in time_map.list()], ["e", "k"])
            self.assertEqual(time_map.send("timeline now"), tmm.Refusal(tmm.Cause.FORM))

    def test_a_program_in_another_mode(self) -> None:
        with tmm.TimeMap() as time_map:
            time_map.send_all(DOOR)
            with time_map.suppose():
                time_map.dist("later", "start", "e", 20, 20)
                self.assertEqual(time_map.timeline().points[1], tmm.PointDate("e", 20))
            self.assertEqual(time_map.timeline(), PLAYED)
            time_map.horizon(0)
            self.assertEqual(len(time_map.timeline().rows), 2)
            self.assertEqual(time_map.horizon_date, 0)

    def test_version_2(self) -> None:
        with tmm.TimeMap() as time_map:
            self.assertEqual(time_map.timeline(), tmm.Timeline())
            time_map.upgrade()
            time_map.send_all([*DOOR, "span s open", "dist l s s.end 2 2"])
            time_map.rule("q", "push", 1, 1, "open", unless="open")
            rows = time_map.timeline().rows
            self.assertIn(tmm.Dated(0, "s", "open", True, 2), rows)
            self.assertEqual(len(rows), 4)

    def test_a_program_without_the_mode(self) -> None:
        with tempfile.TemporaryDirectory() as folder:
            program = Path(folder) / "program"
            program.write_text(
                "#!/bin/sh\necho 'usage: tmm [demo N], N from 1 to 1000'\nexec cat\n", encoding="ascii"
            )
            program.chmod(0o755)
            with tmm.TimeMap([str(program)]) as time_map, self.assertRaises(tmm.TmmError):
                time_map.timeline()

    def test_what_is_no_timeline(self) -> None:
        for text in (
            "1 timeline 1\n  at a 0\n",
            "1 timeline 1 0\n  on a 0\n",
            "1 timeline 1 1\n  at a 0\n",
            "1 timeline 0 1\n  0 a\n",
        ):
            with self.subTest(text=text), self.assertRaises(tmm.ProtocolError):
                parse_reply(text, 1)


if __name__ == "__main__":
    unittest.main()
