"""Tests of `python3 -m tmm`: its commands, and replies as JSON lines by the schema of docs/CLIENTS.md."""

import importlib
import json
import os
import re
import subprocess
import sys
import unittest
from pathlib import Path
from typing import Any, List, Tuple

import tmm
from tmm import json_lines
from tmm.__main__ import COMMANDS

REPOSITORY = Path(__file__).resolve().parents[3]


def run(words: List[str], given: bytes = b"") -> Tuple[int, str, str]:
    """The exit status, the output and the messages of `python3 -m tmm`."""
    done = subprocess.run(
        [sys.executable, "-m", "tmm", *words],
        input=given,
        capture_output=True,
        env={**os.environ, "PYTHONPATH": str(Path(tmm.__file__).parents[1])},
    )
    return done.returncode, done.stdout.decode(), done.stderr.decode()


class CommandsTest(unittest.TestCase):
    """The words behind `python3 -m tmm`."""

    def test_each_command_has_its_module(self) -> None:
        for name, (module, _) in COMMANDS.items():
            with self.subTest(name):
                self.assertTrue(callable(importlib.import_module(module).main))

    def test_help(self) -> None:
        status, told, _ = run(["-h"])
        self.assertEqual(status, 0)
        for name in COMMANDS:
            self.assertIn(name, told)

    def test_no_command(self) -> None:
        commands: List[List[str]] = [[], ["none"], ["-x"]]
        for words in commands:
            status, told, message = run(words)
            self.assertEqual((status, told), (2, ""))
            self.assertTrue(message.startswith("usage: "))

    def test_words_that_json_does_not_take(self) -> None:
        status, told, message = run(["json", "word"])
        self.assertEqual((status, told), (2, ""))
        self.assertIn("usage: python3 -m tmm json", message)


def schema() -> Any:
    """The schema of a line, as docs/CLIENTS.md shows it."""
    text = (REPOSITORY / "docs" / "CLIENTS.md").read_text(encoding="utf-8")
    (shown,) = re.findall(r"^```json\n(.*?)^```$", text, re.DOTALL | re.MULTILINE)
    return json.loads(shown)


def fits(value: Any, rule: Any, whole: Any) -> bool:
    """Whether a value is as the schema says; of JSON Schema the words that this one uses."""
    known = {"$ref", "type", "const", "enum", "properties", "required", "additionalProperties", "items", "oneOf"}
    if not known >= rule.keys() - {"$schema", "$defs", "title"}:
        raise ValueError(f"other words in the schema: {rule.keys() - known}")
    if "$ref" in rule:
        return fits(value, whole["$defs"][rule["$ref"].removeprefix("#/$defs/")], whole)
    if "oneOf" in rule and sum(fits(value, each, whole) for each in rule["oneOf"]) != 1:
        return False
    if "const" in rule and value != rule["const"] or "enum" in rule and value not in rule["enum"]:
        return False
    types = {"object": dict, "array": list, "string": str, "integer": int, "boolean": bool,
             "null": type(None)}
    names = rule.get("type", [])
    if names and not isinstance(value, tuple(types[name] for name in ([names] if isinstance(names, str) else names))):
        return False
    if isinstance(value, list):
        return all(fits(each, rule["items"], whole) for each in value)
    if isinstance(value, dict) and "properties" in rule:
        properties = rule["properties"]
        return (
            set(rule["required"]) <= value.keys() <= properties.keys()
            and all(fits(each, properties[name], whole) for name, each in value.items())
        )
    return True


# A reply of each kind, with all that it may have, from the examples of docs/SCRIPT.md.
REPLIES = """\
1 ok
  erased e
  out e/shuts
  in e/rings
  loose held
  clip held by e/shuts
  broken keep
    held clipped e/shuts
    and 3 more
  broken late unordered
  mended see
2 bounds 3 *
3 path -5
  e lo c b -2
4 path *
5 yes held
6 no
  held late
  and 2 more
7 why
  premise held
  order held e -10
    x lo e start -10
  e/shuts by shuts on e with held unless fast
8 check 1
  broken keep unordered
9 list 2
  0 held open clip e/shuts
  10 e push
10 dump 1
  tmm 2
  horizon 1000
  kind push
11 size 5
12 audit yes
13 no cycle -1
  f hi s s.end 0
  s length s.end s -1
14 no taken shut
15 no limit size
16 memory
"""


class JsonTest(unittest.TestCase):
    """Replies as JSON lines."""

    def test_each_kind(self) -> None:
        status, told, message = run(["json"], REPLIES.encode())
        self.assertEqual((status, message), (0, ""))
        lines = [json.loads(line) for line in told.splitlines()]
        self.assertEqual([line["line"] for line in lines], list(range(1, 17)))
        self.assertEqual(
            [line["kind"] for line in lines],
            ["changes", "bounds", "path", "path", "answer", "answer", "why", "check", "list", "dump", "size",
             "audit", "refusal", "refusal", "refusal", "memory"],
        )
        self.assertEqual(lines[1], {"line": 2, "kind": "bounds", "lower": 3, "upper": None})
        self.assertEqual(lines[0]["clips"], [{"token": "held", "by": "e/shuts"}])
        self.assertEqual(lines[0]["broken"][0]["more"], 3)
        self.assertEqual(lines[5]["blames"], [{"token": "held", "cause": "late", "by": None}])
        self.assertEqual(
            lines[6]["reasons"][2],
            {"kind": "effect", "effect": "e/shuts", "rule": "shuts", "event": "e", "supporters": ["held"],
             "exceptions": ["fast"]},
        )
        self.assertEqual((lines[12]["cause"], lines[12]["sum"]), ("cycle", -1))
        self.assertEqual(lines[12]["steps"][1],
                         {"premise": "s", "side": "length", "origin": "s.end", "target": "s", "weight": -1})
        self.assertEqual((lines[13]["cause"], lines[13]["word"]), ("taken", "shut"))

    def test_the_schema(self) -> None:
        rule = schema()
        lines = [json_lines.json_line(number, reply) for number, reply in tmm.parse_replies(REPLIES)]
        for path in sorted((REPOSITORY / "examples").glob("*.out")):
            replies = tmm.parse_replies(path.read_text(encoding="utf-8"))
            lines += [json_lines.json_line(number, reply) for number, reply in replies]
        self.assertGreater(len(lines), 150)
        for line in lines:
            self.assertTrue(fits(json.loads(line), rule, rule), line)

    def test_the_schema_lets_nothing_else_through(self) -> None:
        rule = schema()
        for text in (
            '{"kind": "size", "number": 4}',
            '{"line": 1, "kind": "size"}',
            '{"line": 1, "kind": "size", "number": "4"}',
            '{"line": 1, "kind": "size", "number": 4, "more": 0}',
            '{"line": 1, "kind": "none"}',
            '{"line": 1, "kind": "bounds", "lower": 1.5, "upper": null}',
            '{"line": 1, "kind": "answer", "verdict": "maybe", "supporter": null, "blames": [], "more": 0}',
        ):
            self.assertFalse(fits(json.loads(text), rule, rule), text)

    def test_a_reply_is_written_when_the_next_begins(self) -> None:
        replies = json_lines.replies_of(iter(["1 ok\n", "  in e/shuts\n", "2 size 4\n"]))
        self.assertEqual(next(replies), (1, tmm.Changes(entered=("e/shuts",))))
        self.assertEqual(list(replies), [(2, tmm.Size(4))])

    def test_what_is_no_reply(self) -> None:
        for given in (b"1 ok\nhello\n", b"1 ok\n\xff\n", b"\n", b"  in e\n"):
            status, _, message = run(["json"], given)
            self.assertEqual(status, 1)
            self.assertTrue(message.startswith("tmm json: this is no reply of tmm:"), message)

    def test_no_replies(self) -> None:
        self.assertEqual(run(["json"]), (0, "", ""))

    def test_a_reader_that_goes(self) -> None:
        child = subprocess.Popen(
            [sys.executable, "-m", "tmm", "json"],
            stdin=subprocess.PIPE,
            stdout=subprocess.PIPE,
            stderr=subprocess.PIPE,
            env={**os.environ, "PYTHONPATH": str(Path(tmm.__file__).parents[1])},
        )
        assert child.stdout is not None
        child.stdout.close()
        child.stdout = None
        _, message = child.communicate(b"1 ok\n" * 5, timeout=60)
        self.assertEqual((child.returncode, message), (1, b""))


if __name__ == "__main__":
    unittest.main()
