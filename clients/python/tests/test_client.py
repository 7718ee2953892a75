"""Tests of tmm.client, over the program that `find_program` finds.

What is expected is written down from the examples and the tables of docs/SCRIPT.md.
"""

import os
import signal
import sys
import tempfile
import unittest
from pathlib import Path
from typing import Iterator, List, Tuple
from unittest import mock

import tmm

REPOSITORY = Path(__file__).resolve().parents[3]


def reply_of(text: str) -> tmm.Reply:
    """The one reply of a text."""
    ((_, reply),) = tmm.parse_replies(text)
    return reply


def documented_scripts() -> Iterator[Tuple[List[str], List[str], str]]:
    """The scripts of docs/SCRIPT.md and of examples/, each with the words that it wants and its replies."""
    parts = (REPOSITORY / "docs" / "SCRIPT.md").read_text(encoding="utf-8").split("```")
    for script, replies in zip(parts, parts[2:]):
        first, *lines = script.splitlines() or [""]
        if first.split()[:1] == ["script"] and replies.startswith("replies\n"):
            yield first.split()[1:], lines, replies[len("replies\n"):]
    for path in sorted((REPOSITORY / "examples").glob("*.tmm")):
        words = path.with_suffix(".words")
        yield (
            words.read_text(encoding="utf-8").split() if words.exists() else [],
            path.read_text(encoding="utf-8").splitlines(),
            path.with_suffix(".out").read_text(encoding="utf-8"),
        )


def python_program(source: str) -> List[str]:
    """A program in the place of `tmm`, which reads lines as `lines`, and writes by `say`."""
    head = (
        "import os, signal, sys, time\n"
        "lines = iter(sys.stdin.readline, '')\n"
        "def say(text):\n"
        "    sys.stdout.write(text)\n"
        "    sys.stdout.flush()\n"
    )
    return [sys.executable, "-c", head + source]


def program(path: Path) -> None:
    """Puts a program there that only fails."""
    path.write_text("#!/bin/sh\nexit 99\n", encoding="ascii")
    path.chmod(0o755)


class ParseTest(unittest.TestCase):
    """Replies of each kind, from text to values."""

    def test_an_edit_that_changes_nothing_else(self) -> None:
        self.assertEqual(list(tmm.parse_replies("1 ok\n2 ok\n")), [(1, tmm.Changes()), (2, tmm.Changes())])

    def test_what_enters_and_what_it_clips(self) -> None:
        self.assertEqual(
            reply_of("9 ok\n  in e/shuts\n  clip held by e/shuts\n"),
            tmm.Changes(entered=("e/shuts",), clips=(tmm.Clip("held", "e/shuts"),)),
        )

    def test_what_breaks(self) -> None:
        blame = tmm.Blame("held", tmm.BlameCause.CLIPPED, "e/shuts")
        self.assertEqual(
            reply_of("10 ok\n  broken keep\n    held clipped e/shuts\n"),
            tmm.Changes(broken=(tmm.Broken("keep", blames=(blame,)),)),
        )

    def test_what_breaks_for_its_order(self) -> None:
        self.assertEqual(
            reply_of("15 ok\n  erased h\n  broken keep unordered\n"),
            tmm.Changes(erased=("h",), broken=(tmm.Broken("keep", unordered=True),)),
        )

    def test_what_leaves_is_loose_and_mended(self) -> None:
        self.assertEqual(
            reply_of("11 ok\n  erased shuts\n  out e/shuts\n  loose held\n  mended keep\n"),
            tmm.Changes(erased=("shuts",), left=("e/shuts",), loosened=("held",), mended=("keep",)),
        )

    def test_several_of_a_sort_stay_in_their_order(self) -> None:
        self.assertEqual(
            reply_of("12 ok\n  erased door\n  erased held\n  erased h\n  erased keep\n"),
            tmm.Changes(erased=("door", "held", "h", "keep")),
        )

    def test_bounds(self) -> None:
        self.assertEqual(reply_of("6 bounds 5 11\n"), tmm.Bounds(5, 11))
        self.assertEqual(reply_of("7 bounds 0 *\n"), tmm.Bounds(0, None))

    def test_path(self) -> None:
        upper = (tmm.Step("d", tmm.Side.UPPER, "a", "b", 7), tmm.Step("e", tmm.Side.UPPER, "b", "c", 4))
        self.assertEqual(reply_of("8 path 11\n  d hi a b 7\n  e hi b c 4\n"), tmm.Walk(11, upper))
        lower = (tmm.Step("e", tmm.Side.LOWER, "c", "b", -2), tmm.Step("d", tmm.Side.LOWER, "b", "a", -3))
        self.assertEqual(reply_of("9 path -5\n  e lo c b -2\n  d lo b a -3\n"), tmm.Walk(-5, lower))
        self.assertEqual(reply_of("10 path *\n"), tmm.Walk(None))

    def test_a_step_is_shown_as_in_a_reply(self) -> None:
        for line in ("d hi a b 7", "e lo c b -2", "a base a start 0", "s length s.end s -1"):
            walk = reply_of(f"1 path 0\n  {line}\n")
            assert isinstance(walk, tmm.Walk)
            self.assertEqual(str(walk.steps[0]), line)

    def test_answers(self) -> None:
        self.assertEqual(reply_of("9 yes k\n"), tmm.Answer(tmm.Verdict.YES, "k"))
        for text, blame in (
            ("k clipped m", tmm.Blame("k", tmm.BlameCause.CLIPPED, "m")),
            ("s ends", tmm.Blame("s", tmm.BlameCause.ENDS)),
            ("s late", tmm.Blame("s", tmm.BlameCause.LATE)),
        ):
            self.assertEqual(reply_of(f"10 no\n  {text}\n"), tmm.Answer(tmm.Verdict.NO, blames=(blame,)))
        self.assertEqual(reply_of("10 no\n"), tmm.Answer(tmm.Verdict.NO))

    def test_more_blames_than_are_told(self) -> None:
        # `and` is a name as any other
        late = tmm.Blame("and", tmm.BlameCause.LATE)
        self.assertEqual(
            reply_of("3 no\n  and late\n  and 12 more\n"), tmm.Answer(tmm.Verdict.NO, blames=(late,), more=12)
        )
        self.assertEqual(
            reply_of("3 check 1\n  broken x\n    and late\n    and 12 more\n"),
            tmm.Check((tmm.Broken("x", blames=(late,), more=12),)),
        )

    def test_check(self) -> None:
        blame = tmm.Blame("held", tmm.BlameCause.CLIPPED, "closed")
        self.assertEqual(reply_of("9 check 0\n"), tmm.Check())
        self.assertEqual(
            reply_of("12 check 1\n  broken keep\n    held clipped closed\n"),
            tmm.Check((tmm.Broken("keep", blames=(blame,)),)),
        )
        self.assertEqual(
            reply_of("16 check 1\n  broken keep unordered\n"),
            tmm.Check((tmm.Broken("keep", unordered=True),)),
        )

    def test_why(self) -> None:
        text = (
            "12 why\n"
            "  premise held\n"
            "  premise e\n"
            "  order held e -8\n"
            "    x lo e start -10\n"
            "    h hi start held 2\n"
            "  order e sun.end -8\n"
            "    down lo sun.end start -20\n"
            "    x hi start e 12\n"
            "  e/shuts by shuts on e with held sun\n"
            "  e/slams by slams on e\n"
        )
        before = (
            tmm.Step("x", tmm.Side.LOWER, "e", "start", -10),
            tmm.Step("h", tmm.Side.UPPER, "start", "held", 2),
        )
        behind = (
            tmm.Step("down", tmm.Side.LOWER, "sun.end", "start", -20),
            tmm.Step("x", tmm.Side.UPPER, "start", "e", 12),
        )
        self.assertEqual(
            reply_of(text),
            tmm.Why(
                (
                    tmm.PremiseReason("held"),
                    tmm.PremiseReason("e"),
                    tmm.OrderReason("held", "e", -8, before),
                    tmm.OrderReason("e", "sun.end", -8, behind),
                    tmm.EffectReason("e/shuts", "shuts", "e", ("held", "sun")),
                    tmm.EffectReason("e/slams", "slams", "e"),
                )
            ),
        )

    def test_why_with_exceptions(self) -> None:
        self.assertEqual(
            reply_of("2 why\n  e/r by r on e with held unless fast barred\n  e/s by s on e unless fast\n"),
            tmm.Why(
                (
                    tmm.EffectReason("e/r", "r", "e", ("held",), ("fast", "barred")),
                    tmm.EffectReason("e/s", "s", "e", (), ("fast",)),
                )
            ),
        )

    def test_why_of_names_that_are_words_of_a_reason(self) -> None:
        self.assertEqual(
            reply_of("2 why\n  premise order\n  order premise by 0\n  premise/order by order on premise\n"),
            tmm.Why(
                (
                    tmm.PremiseReason("order"),
                    tmm.OrderReason("premise", "by", 0, ()),
                    tmm.EffectReason("premise/order", "order", "premise"),
                )
            ),
        )

    def test_list(self) -> None:
        self.assertEqual(
            reply_of("8 list 3\n  0 held open clip e/shuts\n  10 e push\n  11 e/shuts shut\n"),
            tmm.Listing(
                (
                    tmm.Row(0, "held", "open", "e/shuts"),
                    tmm.Row(10, "e", "push"),
                    tmm.Row(11, "e/shuts", "shut"),
                )
            ),
        )
        self.assertEqual(reply_of("8 list 0\n"), tmm.Listing())

    def test_size(self) -> None:
        self.assertEqual(reply_of("9 size 5\n"), tmm.Size(5))

    def test_audit(self) -> None:
        self.assertEqual(reply_of("9 audit yes\n"), tmm.Audit())

    def test_dump(self) -> None:
        self.assertEqual(
            reply_of("10 dump 2\n  horizon 1000\n  class door open shut\n  dist h start held 0 *\n"),
            tmm.Dump(1000, ("class door open shut", "dist h start held 0 *")),
        )
        self.assertEqual(reply_of("10 dump 0\n  horizon 5\n"), tmm.Dump(5))
        self.assertEqual(
            reply_of("3 dump 1\n  tmm 2\n  horizon 1000\n  kind t\n"), tmm.Dump(1000, ("kind t",), 2)
        )

    def test_each_cause_of_a_refusal(self) -> None:
        for text, refusal in (
            ("limit line", tmm.Refusal(tmm.Cause.LINE_TOO_LONG)),
            ("form", tmm.Refusal(tmm.Cause.FORM)),
            ("taken shut", tmm.Refusal(tmm.Cause.TAKEN, "shut")),
            ("unknown m.end", tmm.Refusal(tmm.Cause.UNKNOWN, "m.end")),
            ("sort k.end", tmm.Refusal(tmm.Cause.SORT, "k.end")),
            ("limit premises", tmm.Refusal(tmm.Cause.TOO_MANY_PREMISES)),
            ("limit points", tmm.Refusal(tmm.Cause.TOO_MANY_POINTS)),
            ("limit size", tmm.Refusal(tmm.Cause.MAP_TOO_LARGE)),
            ("limit suppose", tmm.Refusal(tmm.Cause.TOO_MANY_SUPPOSITIONS)),
            ("suppose", tmm.Refusal(tmm.Cause.NO_SUPPOSITION)),
            ("agent", tmm.Refusal(tmm.Cause.NO_AGENT)),
            ("limit batch", tmm.Refusal(tmm.Cause.TOO_MANY_EDITS_HELD)),
            ("limit agents", tmm.Refusal(tmm.Cause.TOO_MANY_AGENTS)),
            ("unordered", tmm.Refusal(tmm.Cause.UNORDERED)),
        ):
            self.assertEqual(reply_of(f"4 no {text}\n"), refusal)

    def test_a_batch(self) -> None:
        self.assertEqual(reply_of("3 held 2\n"), tmm.Held(2))
        self.assertEqual(reply_of("3 ok 0\n"), tmm.Batch())
        broken = tmm.Broken("x", False, (tmm.Blame("k", tmm.BlameCause.LATE, None),), 0)
        self.assertEqual(
            reply_of("8 ok 3\n  line 2\n  line 5\n  in e/shuts\n  broken x\n    k late\n  line 6\n  erased line\n"),
            tmm.Batch(
                (
                    tmm.Made(2, tmm.Changes()),
                    tmm.Made(5, tmm.Changes(entered=("e/shuts",), broken=(broken,))),
                    tmm.Made(6, tmm.Changes(erased=("line",))),
                )
            ),
        )

    def test_a_batch_that_is_refused(self) -> None:
        for text, refusal in (
            ("  unknown b\n", tmm.Refusal(tmm.Cause.UNKNOWN, "b")),
            ("  limit size\n", tmm.Refusal(tmm.Cause.MAP_TOO_LARGE)),
            (
                "  cycle -3\n    e lo a b 0\n    d lo b a -3\n",
                tmm.Refusal(
                    tmm.Cause.CYCLE,
                    sum=-3,
                    steps=(tmm.Step("e", tmm.Side.LOWER, "a", "b", 0), tmm.Step("d", tmm.Side.LOWER, "b", "a", -3)),
                ),
            ),
        ):
            self.assertEqual(reply_of(f"4 no batch 3\n{text}"), tmm.NoBatch(3, refusal))

    def test_a_cycle(self) -> None:
        steps = (
            tmm.Step("x", tmm.Side.LOWER, "a", "c", 0),
            tmm.Step("e", tmm.Side.LOWER, "c", "b", -2),
            tmm.Step("d", tmm.Side.LOWER, "b", "a", -3),
        )
        self.assertEqual(
            reply_of("6 no cycle -5\n  x lo a c 0\n  e lo c b -2\n  d lo b a -3\n"),
            tmm.Refusal(tmm.Cause.CYCLE, sum=-5, steps=steps),
        )
        length = (
            tmm.Step("f", tmm.Side.UPPER, "s", "s.end", 0),
            tmm.Step("s", tmm.Side.LENGTH, "s.end", "s", -1),
        )
        self.assertEqual(
            reply_of("9 no cycle -1\n  f hi s s.end 0\n  s length s.end s -1\n"),
            tmm.Refusal(tmm.Cause.CYCLE, sum=-1, steps=length),
        )

    def test_want_of_memory(self) -> None:
        replies = list(tmm.parse_replies("3 memory\n4 ok\n"))
        self.assertEqual(replies, [(3, tmm.NoMemory()), (4, tmm.Changes())])

    def test_no_replies(self) -> None:
        self.assertEqual(list(tmm.parse_replies("")), [])

    def test_what_is_no_reply(self) -> None:
        for text in (
            "\n",
            "ok\n",
            "1\n",
            "1 maybe\n",
            "one ok\n",
            "1 ok\n    held clipped e/shuts\n",
            "1 ok\n  grown x\n",
            "1 ok\n  clip k\n",
            "1 ok\n  in\n",
            "1 bounds 5\n",
            "1 bounds five 11\n",
            "1 path 11\n  d up a b 7\n",
            "1 path 11\n  d hi a b\n",
            "1 yes\n",
            "1 no\n  k lost\n",
            "1 no cycle\n",
            "1 no taken\n",
            "1 no reason\n",
            "1 list 2\n  0 held open\n",
            "1 check 0\n  broken keep unordered\n",
            "1 dump 1\n",
            "1 dump 1\n  horizon 1000\n",
            "1 size\n",
            "1 audit no\n",
            "1 path 11\n    d hi a b 7\n",
            "1 why\n  order a b 0\n      d hi a b 7\n",
            "1 bounds 0 0\n  in e\n",
            "1 yes k\n  k late\n",
            "1 memory\n  k late\n",
            "1 held\n",
            "1 held 1\n  line 1\n",
            "1 ok 2\n  line 1\n",
            "1 ok 1\n  in e\n",
            "1 no batch 3\n",
            "1 no batch 3\n  cycle -3\n  e lo a b 0\n",
            "usage: tmm [demo N | suppose | agents | repairs | timeline], N from 1 to 1000\n",
        ):
            with self.subTest(text=text), self.assertRaises(tmm.ProtocolError):
                list(tmm.parse_replies(text))


class DocumentedScriptsTest(unittest.TestCase):
    """The scripts that the documents show are answered as they say, in a batch and line by line."""

    def test_there_are_some(self) -> None:
        self.assertGreater(len(list(documented_scripts())), 15)

    def test_in_a_batch(self) -> None:
        for words, script, text in documented_scripts():
            with self.subTest(script=script):
                transcript = tmm.run_script(script, [tmm.find_program(), *words])
                self.assertEqual(transcript.replies, dict(tmm.parse_replies(text)))
                refused = any(isinstance(reply, (tmm.Refusal, tmm.NoBatch)) for reply in transcript.replies.values())
                self.assertEqual(transcript.status, 1 if refused else 0)

    def test_line_by_line(self) -> None:
        for words, script, text in documented_scripts():
            if words == ["agents"]:
                # its replies tell numbers of lines, among which fences count
                continue
            replies = dict(tmm.parse_replies(text))
            with self.subTest(script=script), tmm.TimeMap(mode=next(iter(words), None)) as time_map:
                for number, line in enumerate(script, start=1):
                    # a comment and a blank line have none
                    self.assertEqual(time_map.send(line), replies.get(number))


class TimeMapTest(unittest.TestCase):
    """Each method, over the program."""

    def setUp(self) -> None:
        self.map = tmm.TimeMap()
        self.addCleanup(self.map.close)

    def declare_door(self) -> None:
        """The map of the example of `dump`."""
        self.map.class_("door", "open", "shut")
        self.map.kind("push")
        self.map.token("held", "open")
        self.map.dist("h", "start", "held", 0, 0)
        self.map.event("e", "push")
        self.map.dist("x", "start", "e", 10)

    def test_the_example_of_the_whole_map(self) -> None:
        self.declare_door()
        self.assertEqual(
            self.map.rule("shuts", "push", 1, 2, "shut", given="open"),
            tmm.Changes(entered=("e/shuts",), clips=(tmm.Clip("held", "e/shuts"),)),
        )
        self.assertEqual(
            self.map.list(),
            (tmm.Row(0, "held", "open", "e/shuts"), tmm.Row(10, "e", "push"), tmm.Row(11, "e/shuts", "shut")),
        )
        self.assertEqual(self.map.size(), 5)
        self.map.audit()
        self.assertEqual(
            self.map.dump(),
            tmm.Dump(
                1000,
                (
                    "class door open shut",
                    "kind push",
                    "token held open",
                    "dist h start held 0 0",
                    "event e push",
                    "dist x start e 10 *",
                    "rule shuts push 1 2 shut if open",
                ),
            ),
        )

    def test_a_rule_with_an_exception(self) -> None:
        self.map.upgrade()
        self.declare_door()
        self.map.class_("bolt", "fast", "loose")
        self.map.rule("shuts", "push", 1, 2, "shut", given="open", unless="fast")
        self.assertEqual(
            self.map.why("e/shuts")[-1], tmm.EffectReason("e/shuts", "shuts", "e", ("held",), ("fast",))
        )
        self.map.token("drawn", "fast")
        self.assertEqual(
            self.map.dist("b", "start", "drawn", 0, 0), tmm.Changes(left=("e/shuts",), loosened=("held",))
        )
        self.assertEqual(self.map.dump().version, 2)
        with self.assertRaises(tmm.Refused) as caught:
            self.map.upgrade()
        self.assertIs(caught.exception.cause, tmm.Cause.FORM)

    def test_facts_of_two_classes_that_contradict(self) -> None:
        self.map.upgrade()
        self.map.class_("door", "open", "shut")
        self.map.class_("alarm", "calm", "ringing")
        self.map.token("held", "open")
        self.map.dist("h", "start", "held", 0, 0)
        self.map.token("bell", "ringing")
        self.map.dist("b", "start", "bell", 4, 4)
        self.assertEqual(self.map.against("apart", "open", "ringing"), tmm.Changes(clips=(tmm.Clip("held", "bell"),)))
        self.assertEqual(self.map.dump().premises[-1], "against apart open ringing")
        self.assertEqual(self.map.erase("apart"), tmm.Changes(erased=("apart",), loosened=("held",)))
        with self.assertRaises(tmm.Refused) as caught:
            self.map.against("apart", "open", "door")
        self.assertEqual(caught.exception.refusal, tmm.Refusal(tmm.Cause.SORT, "door"))

    def test_the_line_of_each_premise_and_of_the_horizon(self) -> None:
        self.map.horizon(300)
        self.map.class_("day", "light", "dark")
        self.map.class_("door", "open", "shut")
        self.map.kind("push")
        self.map.point("noon")
        self.map.span("sun", "light")
        self.map.dist("up", "sun.end", "noon", upper=-5)
        self.map.rule("shuts", "push", 1, None, "shut", given=("open", "light"))
        self.map.rule("opens", "push", 3, 4, "open")
        self.map.protect("see", "light", "sun", "noon")
        self.assertEqual(
            self.map.dump(),
            tmm.Dump(
                300,
                (
                    "class day light dark",
                    "class door open shut",
                    "kind push",
                    "point noon",
                    "span sun light",
                    "dist up sun.end noon * -5",
                    "rule shuts push 1 * shut if open light",
                    "rule opens push 3 4 open",
                    "protect see light sun noon",
                ),
            ),
        )

    def test_a_dump_given_again_leaves_what_stood(self) -> None:
        self.declare_door()
        dump = self.map.dump()
        with tmm.TimeMap() as other:
            other.horizon(dump.horizon)
            for line in dump.premises:
                self.assertIsInstance(other.send(line), tmm.Changes)
            self.assertEqual(other.dump(), dump)
            self.assertEqual(other.list(), self.map.list())

    def test_bounds_and_path(self) -> None:
        for name in ("a", "b", "c"):
            self.map.point(name)
        self.map.dist("d", "a", "b", 3, 7)
        self.map.dist("e", "b", "c", 2, 4)
        self.assertEqual(self.map.bounds("a", "c"), tmm.Bounds(5, 11))
        self.assertEqual(self.map.bounds("start", "a"), tmm.Bounds(0, None))
        steps = [str(step) for step in self.map.path("c", "a").steps]
        self.assertEqual(steps, ["e lo c b -2", "d lo b a -3"])
        self.assertEqual(self.map.path("start", "a"), tmm.Walk(None))

    def test_ask(self) -> None:
        self.map.class_("door", "open", "shut")
        self.map.token("k", "open")
        self.map.token("m", "shut")
        self.assertEqual(self.map.dist("d", "k", "m", 5, 5), tmm.Changes(clips=(tmm.Clip("k", "m"),)))
        self.assertEqual(self.map.ask("open", "k", "k"), tmm.Answer(tmm.Verdict.YES, "k"))
        blame = tmm.Blame("k", tmm.BlameCause.CLIPPED, "m")
        self.assertEqual(self.map.ask("open", "k", "m"), tmm.Answer(tmm.Verdict.NO, blames=(blame,)))

    def test_ask_with_more_blames_than_are_told(self) -> None:
        self.map.class_("door", "open", "shut")
        self.map.point("p")
        for number in range(11):
            self.map.token(f"k{number}", "open")
            self.map.dist(f"d{number}", "p", f"k{number}", 1, 1)
        answer = self.map.ask("open", "p", "p")
        self.assertEqual((len(answer.blames), answer.more), (8, 3))

    def test_protections_break_and_are_mended(self) -> None:
        self.map.class_("door", "open", "shut")
        self.map.kind("push")
        self.map.rule("shuts", "push", 1, 2, "shut", "open")
        self.map.token("held", "open")
        self.map.dist("h", "start", "held", 0, 0)
        self.map.point("late")
        self.map.dist("l", "start", "late", 15, 15)
        self.assertEqual(self.map.protect("keep", "open", "held", "late"), tmm.Changes())
        self.assertEqual(self.map.check(), ())
        self.map.event("e", "push")
        broken = tmm.Broken("keep", blames=(tmm.Blame("held", tmm.BlameCause.CLIPPED, "e/shuts"),))
        self.assertEqual(self.map.dist("x", "start", "e", 10, 10), tmm.Changes(broken=(broken,)))
        self.assertEqual(self.map.check(), (broken,))
        self.assertEqual(
            self.map.erase("shuts"),
            tmm.Changes(erased=("shuts",), left=("e/shuts",), loosened=("held",), mended=("keep",)),
        )

    def test_why(self) -> None:
        self.declare_door()
        self.map.rule("shuts", "push", 1, 2, "shut", given=["open"])
        self.assertEqual(self.map.why("held"), (tmm.PremiseReason("held"),))
        steps = (
            tmm.Step("x", tmm.Side.LOWER, "e", "start", -10),
            tmm.Step("h", tmm.Side.UPPER, "start", "held", 0),
        )
        self.assertEqual(
            self.map.why("e/shuts"),
            (
                tmm.PremiseReason("held"),
                tmm.PremiseReason("e"),
                tmm.OrderReason("held", "e", -10, steps),
                tmm.EffectReason("e/shuts", "shuts", "e", ("held",)),
            ),
        )

    def test_the_horizon(self) -> None:
        self.map.kind("tick")
        self.map.event("first", "tick")
        self.map.horizon(2)
        self.map.rule("again", "tick", 1, 1, "tick")
        self.assertEqual(self.map.horizon(1), tmm.Changes(left=("first/again/again",)))

    def test_a_refusal_changes_nothing(self) -> None:
        self.declare_door()
        before = self.map.dump()
        with self.assertRaises(tmm.Refused) as caught:
            self.map.token("push", "open")
        self.assertEqual(caught.exception.refusal, tmm.Refusal(tmm.Cause.TAKEN, "push"))
        self.assertIs(caught.exception.cause, tmm.Cause.TAKEN)
        self.assertEqual(caught.exception.line, "token push open")
        self.assertEqual(str(caught.exception), "`token push open` is refused: taken push")
        self.assertEqual(self.map.dump(), before)
        self.assertEqual(self.map.close(), 1)

    def test_a_question_is_refused(self) -> None:
        self.declare_door()
        with self.assertRaises(tmm.Refused) as caught:
            self.map.why("e/opens")
        self.assertEqual(caught.exception.refusal, tmm.Refusal(tmm.Cause.UNKNOWN, "e/opens"))
        with self.assertRaises(tmm.Refused) as caught:
            self.map.bounds("start", "held.end")
        self.assertEqual(caught.exception.refusal, tmm.Refusal(tmm.Cause.SORT, "held.end"))
        with self.assertRaises(tmm.Refused) as caught:
            self.map.ask("open", "e", "held")
        self.assertEqual(caught.exception.refusal, tmm.Refusal(tmm.Cause.UNORDERED))

    def test_a_cycle(self) -> None:
        for name in ("a", "b", "c"):
            self.map.point(name)
        self.map.dist("d", "a", "b", 3, 7)
        self.map.dist("e", "b", "c", 2, 4)
        with self.assertRaises(tmm.RefusedForCycle) as caught:
            self.map.dist("x", "c", "a", lower=0)
        self.assertIs(caught.exception.cause, tmm.Cause.CYCLE)
        self.assertEqual(caught.exception.sum, -5)
        steps = [str(step) for step in caught.exception.steps]
        self.assertEqual(steps, ["x lo a c 0", "e lo c b -2", "d lo b a -3"])
        self.assertEqual(self.map.bounds("a", "c"), tmm.Bounds(5, 11))

    def test_a_map_that_is_too_large(self) -> None:
        self.map.kind("tick")
        self.map.event("first", "tick")
        with self.assertRaises(tmm.Refused) as caught:
            self.map.rule("again", "tick", 1, 1, "tick")
        self.assertIs(caught.exception.cause, tmm.Cause.MAP_TOO_LARGE)

    def test_a_line_of_too_many_bytes(self) -> None:
        self.assertIsNone(self.map.send("#" * 400))
        self.assertEqual(self.map.send("#" * 401), tmm.Refusal(tmm.Cause.LINE_TOO_LONG))
        self.assertEqual(self.map.size(), 0)

    def test_lines_as_files_have_them(self) -> None:
        self.assertEqual(self.map.send("point a\n"), tmm.Changes())
        self.assertEqual(self.map.send("\tpoint  b \r\n"), tmm.Changes())
        self.assertIsNone(self.map.send("\n"))
        self.assertIsNone(self.map.send("# Gr\u00fc\u00dfe"))
        self.assertEqual(self.map.dump().premises, ("point a", "point b"))

    def test_more_than_one_line_is_not_given(self) -> None:
        with self.assertRaises(ValueError):
            self.map.send("point a\npoint b")
        self.assertEqual(self.map.dump().premises, ())

    def test_what_is_no_word_is_not_given(self) -> None:
        for word in ("", " ", "a b", "a\tb", "a\rb", "a\npoint b", "a\n"):
            with self.subTest(word=word), self.assertRaises(ValueError):
                self.map.point(word)
        self.assertEqual(self.map.dump().premises, ())

    def test_a_reply_that_is_longer_than_a_pipe_holds(self) -> None:
        self.map.kind("t")
        self.map.event("e", "t")
        self.map.dist("z", "start", "e", 0, 0)
        self.map.horizon(444)
        changes = self.map.rule("r", "t", 1, 1, "t")
        # the chain of 444 effects of checks/limits.sh
        self.assertEqual(changes.entered, tuple("e" + "/r" * number for number in range(1, 445)))
        self.assertEqual(self.map.list()[444], tmm.Row(444, "e" + "/r" * 444, "t"))
        self.assertEqual(self.map.size(), 99680)


class EndingTest(unittest.TestCase):
    """What becomes of a map when its program ends, and the statuses."""

    def test_lines_that_the_client_adds_are_not_refused(self) -> None:
        time_map = tmm.TimeMap()
        time_map.point("a")
        self.assertEqual(time_map.close(), 0)
        self.assertEqual(time_map.close(), 0)

    def test_a_map_that_is_closed(self) -> None:
        with tmm.TimeMap() as time_map:
            time_map.point("a")
        with self.assertRaises(tmm.ProgramEnded) as caught:
            time_map.size()
        self.assertEqual(caught.exception.status, 0)

    def test_a_program_that_is_killed(self) -> None:
        with tmm.TimeMap() as time_map:
            time_map.point("a")
            time_map.process.kill()
            time_map.process.wait()
            for _ in range(2):
                with self.assertRaises(tmm.ProgramEnded) as caught:
                    time_map.point("b")
                self.assertEqual(caught.exception.status, -signal.SIGKILL)
                self.assertEqual(str(caught.exception), "tmm ended: signal 9 stopped it")

    def test_a_program_that_ends_before_it_reads(self) -> None:
        with tmm.TimeMap(python_program("sys.exit(5)")) as time_map:
            with self.assertRaises(tmm.ProgramEnded) as caught:
                time_map.point("a")
        self.assertEqual(caught.exception.status, 5)
        self.assertEqual(str(caught.exception), "tmm ended: status 5, there was no memory to begin with")

    def test_a_program_that_ends_within_a_reply(self) -> None:
        for written in ("1 ok\n  in e/sh", "1 ok\n  in e/shuts\n", "1 ok\n  in e/shuts\n2"):
            program = python_program(f"next(lines); say({written!r}); sys.exit(4)")
            with self.subTest(written=written), tmm.TimeMap(program) as time_map:
                with self.assertRaises(tmm.ProgramEnded) as caught:
                    time_map.dist("x", "start", "e", 10, 10)
                self.assertEqual(caught.exception.status, 4)
                self.assertEqual(caught.exception.received, written)

    def test_a_program_that_ends_behind_a_reply(self) -> None:
        # the number of the fence is there, so the reply is whole
        program = python_program("next(lines); say('1 ok\\n  in e/shuts\\n2 bou'); sys.exit(4)")
        with tmm.TimeMap(program) as time_map:
            self.assertEqual(time_map.dist("x", "start", "e", 10, 10), tmm.Changes(entered=("e/shuts",)))
            with self.assertRaises(tmm.ProgramEnded):
                time_map.size()

    def test_the_usage_line(self) -> None:
        with tmm.TimeMap([tmm.find_program(), "word"]) as time_map:
            with self.assertRaises(tmm.ProgramEnded) as caught:
                time_map.point("a")
        self.assertEqual(caught.exception.status, 2)

    def test_a_program_that_is_not_there(self) -> None:
        with self.assertRaises(OSError):
            tmm.TimeMap([str(REPOSITORY / "docs" / "no-program")])

    def test_each_status_has_words(self) -> None:
        for status in (0, 1, 2, 3, 4, 5, 6, 7, 8, 70):
            self.assertNotIn("none of its own", tmm.describe_status(status))
        self.assertIn("none of its own", tmm.describe_status(99))


class OtherProgramTest(unittest.TestCase):
    """What only a program that stands in for `tmm` can be made to write."""

    def test_want_of_memory(self) -> None:
        # the first line finds no memory, all others do
        program = python_program(
            "for number, line in enumerate(lines, 1):\n"
            "    say(f'{number} memory\\n' if number == 1 else f'{number} ok\\n')\n"
        )
        with tmm.TimeMap(program) as time_map:
            with self.assertRaises(tmm.OutOfMemory):
                time_map.point("a")
            self.assertEqual(time_map.point("a"), tmm.Changes())

    def test_want_of_memory_for_the_line_that_the_client_adds(self) -> None:
        program = python_program(
            "for number, line in enumerate(lines, 1):\n"
            "    say(f'{number} ok\\n' if line.startswith('point') else f'{number} memory\\n')\n"
        )
        with tmm.TimeMap(program) as time_map:
            self.assertEqual(time_map.point("a"), tmm.Changes())
            self.assertEqual(time_map.send("bounds a a"), tmm.NoMemory())

    def test_a_reply_that_comes_in_pieces(self) -> None:
        program = python_program(
            "next(lines)\n"
            "for byte in '1 ok\\n  in e/shuts\\n  clip held by e/shuts\\n2 bounds 0 0\\n':\n"
            "    say(byte)\n"
            "    time.sleep(0.002)\n"
        )
        with tmm.TimeMap(program) as time_map:
            self.assertEqual(
                time_map.dist("x", "start", "e", 10, 10),
                tmm.Changes(entered=("e/shuts",), clips=(tmm.Clip("held", "e/shuts"),)),
            )

    def test_a_detail_with_the_number_of_the_next_line(self) -> None:
        program = python_program("next(lines); say('1 list 1\\n  2 held open\\n'); say('2 bounds 0 0\\n')")
        with tmm.TimeMap(program) as time_map:
            self.assertEqual(time_map.list(), (tmm.Row(2, "held", "open"),))

    def test_answers_that_are_no_reply_to_the_line(self) -> None:
        for what, text in (
            ("the number of another line", "3 ok\\n2 bounds 0 0\\n"),
            ("two replies to one line", "1 ok\\n1 ok\\n2 bounds 0 0\\n"),
            ("a reply of another kind", "1 size 4\\n2 bounds 0 0\\n"),
            ("no reply to a premise", "2 bounds 0 0\\n"),
            ("something else", "hello\\n2 bounds 0 0\\n"),
        ):
            with self.subTest(what), tmm.TimeMap(python_program(f"next(lines); say('{text}')")) as time_map:
                with self.assertRaises(tmm.ProtocolError):
                    time_map.point("a")


class BatchTest(unittest.TestCase):
    """Whole scripts."""

    def test_replies_stand_under_the_numbers_of_their_lines(self) -> None:
        transcript = tmm.run_script(["# two points", "point a", "", "point a", "size"])
        self.assertEqual(
            transcript.replies, {2: tmm.Changes(), 4: tmm.Refusal(tmm.Cause.TAKEN, "a"), 5: tmm.Size(0)}
        )
        self.assertEqual(transcript.status, 1)

    def test_an_empty_script(self) -> None:
        self.assertEqual(tmm.run_script([]), tmm.Transcript({}, 0))

    def test_lines_of_a_file(self) -> None:
        with open(REPOSITORY / "examples" / "first.tmm", encoding="utf-8") as lines:
            self.assertEqual(tmm.run_script(lines).replies[5], tmm.Bounds(3, 7))

    def test_more_lines_and_replies_than_a_pipe_holds(self) -> None:
        lines = ["point a"] + ["bounds start a"] * 20000
        transcript = tmm.run_script(lines)
        self.assertEqual(len(transcript.replies), 20001)
        self.assertEqual(transcript.replies[20001], tmm.Bounds(0, None))

    def test_more_than_one_line_is_not_given(self) -> None:
        with self.assertRaises(ValueError):
            tmm.run_script(["point a\npoint b"])

    def test_want_of_memory_is_a_reply(self) -> None:
        program = python_program("next(lines); say('1 memory\\n'); sys.exit(7)")
        self.assertEqual(tmm.run_script(["point a"], program), tmm.Transcript({1: tmm.NoMemory()}, 7))

    def test_a_program_that_ends_early(self) -> None:
        program = python_program("next(lines); say('1 ok\\n2 o'); sys.exit(4)")
        with self.assertRaises(tmm.ProgramEnded) as caught:
            tmm.run_script(["point a"] * 100000, program)
        self.assertEqual(caught.exception.status, 4)
        self.assertEqual(caught.exception.received, "1 ok\n2 o")

    def test_a_program_that_is_killed(self) -> None:
        program = python_program("next(lines); os.kill(os.getpid(), signal.SIGKILL)")
        with self.assertRaises(tmm.ProgramEnded) as caught:
            tmm.run_script(["point a"], program)
        self.assertEqual(caught.exception.status, -signal.SIGKILL)


class FindProgramTest(unittest.TestCase):
    """Where the program is looked for."""

    def test_the_environment_comes_first(self) -> None:
        with mock.patch.dict(os.environ, {"TMM": "/somewhere/tmm"}):
            self.assertEqual(tmm.find_program(), "/somewhere/tmm")

    def found(self, root: Path, path: str = "") -> str:
        """What is found where the package stands in a checkout at `root`, without TMM."""
        with mock.patch.dict(os.environ, {"PATH": path}), mock.patch("tmm.program.CHECKOUT", root):
            os.environ.pop("TMM", None)
            return tmm.find_program()

    def checkout(self, built: bool) -> Path:
        """A folder that looks like a checkout. What stands for its programs only ever fails."""
        root = Path(self.enterContext(tempfile.TemporaryDirectory()))
        (root / "crates" / "tmm_cli" / "out").mkdir(parents=True)
        program(root / "tmm")
        if built:
            program(root / "crates" / "tmm_cli" / "out" / "tmm_cli")
        return root

    def test_then_path(self) -> None:
        root = self.checkout(built=True)
        (root / "bin").mkdir()
        program(root / "bin" / "tmm")
        self.assertEqual(self.found(root, str(root / "bin")), str(root / "bin" / "tmm"))

    def test_then_what_is_built_in_the_checkout(self) -> None:
        # and not the script beside it, which would build anew where a source has changed
        root = self.checkout(built=True)
        self.assertEqual(self.found(root), str(root / "crates" / "tmm_cli" / "out" / "tmm_cli"))

    def test_nothing_is_built(self) -> None:
        with self.assertRaisesRegex(tmm.NoProgram, r"\./prove"):
            self.found(self.checkout(built=False))

    def test_no_checkout(self) -> None:
        with self.assertRaisesRegex(tmm.NoProgram, "TMM"):
            self.found(Path(self.enterContext(tempfile.TemporaryDirectory())))

    def test_no_program_is_an_error_of_the_system_too(self) -> None:
        with self.assertRaises(OSError):
            self.found(self.checkout(built=False))


if __name__ == "__main__":
    unittest.main()
