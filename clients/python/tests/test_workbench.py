"""Tests of tmm.workbench, over HTTP and without a browser, over the program that `find_program` finds.

What is expected is that of docs/SCRIPT.md and of examples/, or a calculation by hand.
"""

import contextlib
import http.client
import io
import json
import os
import pty
import signal
import socket
import subprocess
import sys
import tempfile
import threading
import time
import unittest
from pathlib import Path
from typing import Any, Dict, List, Optional, Sequence, Tuple

import tmm
from tmm import picture, workbench

REPOSITORY = Path(__file__).resolve().parents[3]
WORKSHOP = (REPOSITORY / "examples" / "workshop.tmm").read_text(encoding="utf-8")

SHOW: Dict[str, Any] = {"cycle": 0, "whole": False, "bars": [], "rows": [], "one_row": False}


def replies_of(path: Path) -> Dict[int, str]:
    """The replies that are written down in a file, by their lines."""
    replies: Dict[int, str] = {}
    number = 0
    for line in path.read_text(encoding="utf-8").splitlines():
        if line.startswith(" "):
            replies[number] += f"\n{line}"
        else:
            number = int(line.split()[0])
            replies[number] = line
    return replies


def is_there(process: int) -> bool:
    """Whether a process runs."""
    return Path(f"/proc/{process}").exists()


class WorkbenchTest(unittest.TestCase):
    """A server, and a page that calls it."""

    def serve(self, *words: Any, **choices: Any) -> workbench.Server:
        """A server that runs until the test ends."""
        server = workbench.Server(*words, **choices)
        thread = threading.Thread(target=server.serve_forever)
        thread.start()
        self.addCleanup(thread.join)
        self.addCleanup(server.server_close)
        self.addCleanup(server.shutdown)
        self.server = server
        return server

    def request(
        self,
        method: str,
        path: str,
        body: Optional[bytes] = None,
        leave_out: Sequence[str] = (),
        **headers: str,
    ) -> Tuple[int, Dict[str, str], bytes]:
        """The status, the headers and the content of an answer. A header's `_` is a `-`."""
        name = self.server.names[0]
        given = {"Host": name, "Origin": f"http://{name}", "Content-Type": "application/json"}
        given.update({header.replace("_", "-"): value for header, value in headers.items()})
        connection = http.client.HTTPConnection("127.0.0.1", self.server.server_port, timeout=30)
        try:
            connection.putrequest(method, path, skip_host=True)
            for header, value in given.items():
                if header not in leave_out:
                    connection.putheader(header, value)
            if body is not None and "Content-Length" not in (*leave_out, *given):
                connection.putheader("Content-Length", str(len(body)))
            connection.endheaders(body)
            answer = connection.getresponse()
            return answer.status, dict(answer.getheaders()), answer.read()
        finally:
            connection.close()

    def post(self, name: str, body: bytes, **choices: Any) -> Tuple[int, Any]:
        """A call with these bytes, and the status and the object of its answer."""
        status, _, content = self.request("POST", f"/{self.server.token}/{name}", body, **choices)
        return status, json.loads(content)

    def call(self, name: str, **fields: Any) -> Any:
        """A call that is answered."""
        status, value = self.post(name, json.dumps(fields).encode())
        self.assertEqual(status, 200, value)
        return value

    def fails(self, status: int, name: str, **fields: Any) -> str:
        """A call that is not answered, and why."""
        told, value = self.post(name, json.dumps(fields).encode())
        self.assertEqual(told, status, value)
        self.assertEqual(list(value), ["error"])
        return str(value["error"])

    def open(self, script: str = "") -> str:
        """A map with a script whose replies are all there."""
        name = str(self.call("open")["map"])
        if script:
            self.call("edit", map=name, script=script, upto=len(script))
        return name

    def processes(self) -> List[int]:
        """The programs that run for the maps."""
        desks = self.server.workbench.desks.values()
        return [kept.map.process.pid for desk in desks for kept in desk.programs]


class PageTest(WorkbenchTest):
    """What is served, and to whom."""

    def setUp(self) -> None:
        self.serve()

    def test_the_page(self) -> None:
        for name, kind in (("", "text/html"), ("workbench.js", "text/javascript"), ("workbench.css", "text/css")):
            status, headers, content = self.request("GET", f"/{self.server.token}/{name}")
            self.assertEqual((status, headers["Content-Type"].partition(";")[0]), (200, kind))
            self.assertIn("default-src 'none'", headers["Content-Security-Policy"])
            # nothing is fetched from elsewhere; the one name is that of a language
            self.assertNotIn(b"http", content.replace(b"http://www.w3.org/2000/svg", b""))

    def test_it_listens_to_this_machine_alone(self) -> None:
        self.assertEqual(self.server.server_address[0], "127.0.0.1")
        self.assertEqual(self.server.address, f"http://127.0.0.1:{self.server.server_port}/{self.server.token}/")

    def test_another_path(self) -> None:
        for path in ("/", "/workbench.js", "/x/", f"/{self.server.token}", f"/{self.server.token}x/", "*"):
            self.assertEqual(self.request("GET", path)[0], 404, path)
        for name in ("x", "workbench.py", "../workbench.py", "%2e%2e/client.py", "workbench.js?x", "/workbench.js"):
            self.assertEqual(self.request("GET", f"/{self.server.token}/{name}")[0], 404, name)

    def test_another_host(self) -> None:
        port = self.server.server_port
        page = f"/{self.server.token}/"
        for host in ("example.org", f"example.org:{port}", "127.0.0.1", f"127.0.0.1:{port + 1}", f"[::1]:{port}", ""):
            self.assertEqual(self.request("GET", page, Host=host)[0], 403, host)
            self.assertEqual(self.request("POST", page + "open", b"{}", Host=host)[0], 403, host)
        self.assertEqual(self.request("GET", page, leave_out=["Host"])[0], 403)
        self.assertEqual(self.server.workbench.desks, {})
        local = f"localhost:{port}"
        self.assertEqual(self.request("GET", page, Host=local, Origin=f"http://{local}")[0], 200)

    def test_two_hosts(self) -> None:
        with socket.create_connection(("127.0.0.1", self.server.server_port)) as connection:
            host = f"Host: {self.server.names[0]}\r\n"
            connection.sendall(f"GET /{self.server.token}/ HTTP/1.1\r\n{host}Host: x\r\n\r\n".encode())
            self.assertIn(b" 403 ", connection.recv(100))

    def test_another_origin(self) -> None:
        port = self.server.server_port
        for origin in ("http://example.org", "null", f"https://127.0.0.1:{port}", f"http://localhost:{port}", ""):
            self.assertEqual(self.post("open", b"{}", Origin=origin)[0], 403, origin)
        self.assertEqual(self.post("open", b"{}", leave_out=["Origin"])[0], 403)
        self.assertEqual(self.server.workbench.desks, {})

    def test_another_method(self) -> None:
        for method in ("PUT", "DELETE", "OPTIONS", "HEAD"):
            self.assertEqual(self.request(method, f"/{self.server.token}/open")[0], 501)

    def test_what_is_no_request(self) -> None:
        for text in (b"nonsense\r\n\r\n", b"GET / HTTP/9\r\n\r\n", b"GET /\xff HTTP/x\r\n\r\n"):
            with socket.create_connection(("127.0.0.1", self.server.server_port)) as connection:
                connection.sendall(text)
                self.assertRegex(connection.recv(1000), rb"(^HTTP/1.1 (400|505)|error)")


class WellFormedTest(WorkbenchTest):
    """What is not well formed gets 400, and changes nothing."""

    def setUp(self) -> None:
        self.serve()
        self.map = self.open("point a\npoint b\ndist d a b 3 7")

    def tearDown(self) -> None:
        self.assertEqual(
            self.call("rest", map=self.map, first=0), {"first": 0, "replies": ["1 ok", "2 ok", "3 ok"]}
        )
        self.assertEqual(list(self.server.workbench.desks), [self.map])

    def test_what_is_no_object(self) -> None:
        for body in (b"", b"{", b"[]", b"1", b'"open"', b"\xff", b"[" * 100_000, b'{"map": NaN}', b"1" * 5000):
            for name in ("open", "edit", "close"):
                self.assertEqual(self.post(name, body)[0], 400, body[:20])

    def test_other_fields(self) -> None:
        whole: Dict[str, Any] = {"map": self.map, "script": "point x", "upto": 1}
        for name in whole:
            part = {field: value for field, value in whole.items() if field != name}
            self.assertIn("fields", self.fails(400, "edit", **part))
        self.fails(400, "edit", more=1, **whole)
        self.fails(400, "open", map=self.map)

    def test_other_values(self) -> None:
        whole: Dict[str, Any] = {"map": self.map, "script": "point x", "upto": 1}
        # the last text is half of a character
        wrong: Dict[str, List[Any]] = {
            "script": [1, None, ["point x"], "# \ud83d"],
            "upto": ["1", 1.0, True, -1, None],
            "map": [1, None],
        }
        for name, values in wrong.items():
            for value in values:
                self.fails(400, "edit", **{**whole, name: value})
        whole = {"map": self.map, "at": 3, **SHOW}
        wrong = {
            "at": [4, -1, "3"],
            "cycle": [4],
            "whole": [0, None],
            "bars": ["a b c", ["a b c"], [["a", "b"]], [["a", "b", 1]]],
            "rows": ["a", [1]],
            "one_row": [1],
        }
        for name, values in wrong.items():
            for value in values:
                self.fails(400, "view", **{**whole, name: value})
        self.fails(400, "rest", map=self.map, first=4)

    def test_words_that_are_none(self) -> None:
        for word in ("", "a b", "a\npoint x", "a\n", "*", "1a", "a/", "a.end.end", "é"):
            self.fails(400, "why", map=self.map, at=3, occurrence=word)
            self.fails(400, "between", map=self.map, at=3, **{"from": "a", "to": word})
            self.fails(400, "repairs", map=self.map, at=3, protection=word)

    def test_rows_and_bars_that_are_not_there(self) -> None:
        self.assertIn("no row", self.fails(400, "view", map=self.map, at=3, **{**SHOW, "rows": ["x"]}))
        bars = [["x", "a", "c"]]
        self.assertIn("no points", self.fails(400, "view", map=self.map, at=3, **{**SHOW, "bars": bars}))

    def test_a_body_of_another_kind(self) -> None:
        body = json.dumps({"map": self.map}).encode()
        for kind in ("text/plain", "application/x-www-form-urlencoded", ""):
            self.assertEqual(self.post("close", body, Content_Type=kind)[0], 400)
        self.assertEqual(self.post("close", body, Transfer_Encoding="chunked", leave_out=["Content-Length"])[0], 400)
        self.assertEqual(self.post("close", body, leave_out=["Content-Length"])[0], 400)
        for length in ("x", "-1", "1.0", "+5", ""):
            self.assertEqual(self.post("close", body, Content_Length=length)[0], 400)
        self.assertEqual(self.post("close", body, Content_Length=str(workbench.MOST_BYTES + 1))[0], 413)

    def test_a_body_that_ends_too_early(self) -> None:
        body = json.dumps({"map": self.map}).encode()
        name = self.server.names[0]
        head = f"POST /{self.server.token}/close HTTP/1.1\r\nHost: {name}\r\nOrigin: http://{name}\r\n"
        head += f"Content-Type: application/json\r\nContent-Length: {len(body) + 1}\r\n\r\n"
        with socket.create_connection(("127.0.0.1", self.server.server_port)) as connection:
            connection.sendall(head.encode() + body)
            connection.shutdown(socket.SHUT_WR)
            self.assertIn(b" 400 ", connection.recv(100))

    def test_what_is_not_there(self) -> None:
        self.fails(404, "shout", map=self.map)
        self.fails(404, "rest", map="x", first=0)
        self.assertIn("file", self.fails(404, "save", map=self.map, script="", over=False))


class MapTest(WorkbenchTest):
    """What calls are answered."""

    def test_a_script_is_answered_as_it_is_documented(self) -> None:
        self.serve(str(REPOSITORY / "examples" / "workshop.tmm"))
        opened = self.call("open")
        self.assertEqual(opened["script"], WORKSHOP)
        told = self.call("edit", map=opened["map"], script=WORKSHOP, upto=10)
        self.assertEqual((told["first"], told["count"], len(told["replies"])), (0, WORKSHOP.count("\n") + 1, 10))
        replies = told["replies"]
        while len(replies) < told["count"]:
            replies += self.call("rest", map=opened["map"], first=len(replies))["replies"]
        documented = replies_of(REPOSITORY / "examples" / "workshop.out")
        self.assertEqual({number: reply for number, reply in enumerate(replies, 1) if reply}, documented)

    def test_edits_are_answered_from_the_first_changed_line_on(self) -> None:
        self.serve()
        name = self.open("point a\npoint b\ndist d a b 3 7\nbounds a b")
        edit = {"map": name, "upto": 100}
        self.assertEqual(
            self.call("edit", script="point a\npoint b\ndist d a b 4 7\nbounds a b", **edit),
            {"count": 4, "first": 2, "replies": ["3 ok", "4 bounds 4 7"]},
        )
        # a question between has a number of the program's own
        self.call("between", map=name, at=4, **{"from": "a", "to": "b"})
        self.assertEqual(
            self.call("edit", script="point a\npoint b\ndist d a b 4 7\nbounds a b\n# c\nsize\n", **edit),
            {"count": 7, "first": 4, "replies": ["", "6 size 0", ""]},
        )
        # a line is taken out: all later ones have other numbers
        self.assertEqual(
            self.call("edit", script="point a\nbounds start a", **edit),
            {"count": 2, "first": 1, "replies": ["2 bounds 0 *"]},
        )
        self.assertEqual(
            self.call("edit", script="point a\nbounds start a", **edit), {"count": 2, "first": 2, "replies": []}
        )
        self.assertEqual(self.call("edit", script="", **edit), {"count": 1, "first": 0, "replies": [""]})

    def test_the_program_is_kept_where_lines_are_added(self) -> None:
        self.serve()
        name = self.open("point a")
        before = self.processes()
        self.call("edit", map=name, script="point a\npoint b", upto=9)
        self.assertTrue(set(before) & set(self.processes()))

    def test_what_stands_after_a_line(self) -> None:
        self.serve()
        name = self.open(WORKSHOP)
        jam = WORKSHOP.split("\n").index("dist j1 start jam 103 103") + 1
        for at, broken in ((jam - 1, []), (jam, ["ready"]), (jam - 2, []), (WORKSHOP.count("\n"), [])):
            shown = self.call("view", map=name, at=at, **SHOW)
            self.assertEqual([each["protection"] for each in shown["broken"]], broken)
            with tmm.TimeMap() as time_map:
                for line in WORKSHOP.split("\n")[:at]:
                    time_map.send(line)
                self.assertEqual(shown["picture"], picture.draw(picture.rows_of(time_map)))

    def test_the_cycle_of_a_refused_line(self) -> None:
        self.serve()
        name = self.open("point a\npoint b\npoint z\ndist d a b 3 7\ndist x b a 0 *\nsize")
        shown = self.call("view", map=name, at=6, **{**SHOW, "cycle": 5})["network"]
        self.assertIn(picture.BROKEN_COLOUR, shown)
        self.assertIn('data-premise="x"', shown)
        self.assertNotIn('data-point="z"', shown)
        whole = self.call("view", map=name, at=6, **{**SHOW, "cycle": 5, "whole": True})["network"]
        self.assertIn('data-point="z"', whole)
        for cycle in (0, 4):
            shown = self.call("view", map=name, at=6, **{**SHOW, "cycle": cycle})["network"]
            self.assertNotIn('data-premise="x"', shown)
            self.assertIn('data-point="z"', shown)

    def test_rows_and_bars(self) -> None:
        self.serve()
        name = self.open("point a\nkind k\nevent e k\nevent f k\ndist d e f 3 3")
        choices = {**SHOW, "rows": ["both", "events"], "bars": [["both", "e", "f"]], "one_row": True}
        shown = self.call("view", map=name, at=5, **choices)["picture"]
        self.assertIn('data-begin="e" data-end="f"', shown)
        self.assertIn(">events<", shown)
        self.assertNotIn('data-point="a"', shown)

    def test_questions(self) -> None:
        self.serve()
        name = self.open("point a\npoint b\ndist d a b 3 7")
        between = self.call("between", map=name, at=3, **{"from": "a", "to": "b"})
        self.assertEqual(between["bounds"]["lower"], 3)
        self.assertEqual(between["bounds"]["upper"], 7)
        step = {"premise": "d", "side": "hi", "origin": "a", "target": "b", "weight": 7}
        self.assertEqual((between["path"]["upper"], between["path"]["steps"]), (7, [step]))
        step = {"premise": "d", "side": "lo", "origin": "b", "target": "a", "weight": -3}
        self.assertEqual((between["back"]["upper"], between["back"]["steps"]), (-3, [step]))
        self.assertIn("unknown b", self.call("between", map=name, at=1, **{"from": "a", "to": "b"})["refused"])
        self.assertIn("sort a", self.call("why", map=name, at=3, occurrence="a")["refused"])
        self.assertIn("no repairs", self.call("repairs", map=name, at=3, protection="x")["told"])

    def test_reasons(self) -> None:
        self.serve()
        script = "class door open shut\nkind push\nrule shuts push 1 2 shut\nevent e push"
        reasons = self.call("why", map=self.open(script), at=4, occurrence="e/shuts")["reasons"]
        self.assertEqual(reasons[0]["premise"], "e")
        wanted = {"effect": "e/shuts", "rule": "shuts", "event": "e", "supporters": [], "exceptions": []}
        self.assertEqual({name: reasons[1][name] for name in wanted}, wanted)

    def test_two_tabs_are_two_maps(self) -> None:
        self.serve()
        first, second = self.open("point a"), self.open("point b")
        for name, there, other in ((first, "a", "b"), (second, "b", "a")):
            self.assertIn(f'data-point="{there}"', self.call("view", map=name, at=1, **SHOW)["network"])
            between = {"from": "start", "to": other}
            self.assertIn(f"unknown {other}", self.call("between", map=name, at=1, **between)["refused"])

    def test_prepared_programs_answer_alike(self) -> None:
        self.serve()
        lines = ["point a", "point b", "dist d a b 3 7", "bounds a b", "size"]
        name = self.open("\n".join(lines))
        for upper in range(8, 20):
            lines[2] = f"dist d a b 3 {upper}"
            self.call("prepare", map=name, line=3)
            told = self.call("edit", map=name, script="\n".join(lines), upto=5)
            self.assertEqual(told["replies"], ["3 ok", f"4 bounds 3 {upper}", "5 size 0"])
            self.assertLessEqual(len(self.processes()), workbench.MOST_PROGRAMS)

    def test_a_map_that_is_closed(self) -> None:
        self.serve()
        name = self.open("point a")
        processes = self.processes()
        self.call("close", map=name)
        self.assertFalse(any(map(is_there, processes)))
        self.assertIn("load", self.fails(404, "rest", map=name, first=0))
        self.call("close", map=name)

    def test_the_map_that_was_used_least_lately_is_forgotten(self) -> None:
        self.serve()
        first = self.open("point a")
        processes = self.processes()
        second = self.open()
        self.call("rest", map=first, first=0)
        for _ in range(workbench.MOST_MAPS - 1):
            self.open()
        self.fails(404, "rest", map=second, first=0)
        self.assertTrue(any(map(is_there, processes)))
        self.call("rest", map=first, first=0)


class FileTest(WorkbenchTest):
    """The file that is named, and no other."""

    def setUp(self) -> None:
        folder = tempfile.TemporaryDirectory()
        self.addCleanup(folder.cleanup)
        self.folder = Path(folder.name)
        self.path = self.folder / "script.tmm"

    def test_it_is_read_and_written(self) -> None:
        self.path.write_text("point a\n")
        self.serve(str(self.path))
        name = self.open()
        self.call("edit", map=name, script="point a\npoint b\n", upto=9)
        self.assertEqual(self.path.read_text(), "point a\n")
        self.call("save", map=name, script="point a\npoint b\n", over=False)
        self.assertEqual(self.path.read_text(), "point a\npoint b\n")
        self.assertEqual(list(self.folder.iterdir()), [self.path])

    def test_one_that_is_not_there_yet(self) -> None:
        self.serve(str(self.path))
        self.assertEqual(self.call("open")["script"], "")
        self.assertFalse(self.path.exists())
        self.call("save", map=self.open(), script="point a", over=False)
        self.assertEqual(self.path.read_text(), "point a")

    def test_one_that_another_writes(self) -> None:
        self.path.write_text("point a\n")
        self.serve(str(self.path))
        first, second = self.open(), self.open()
        self.call("save", map=first, script="point b\n", over=False)
        self.assertIn("changed", self.fails(409, "save", map=second, script="point c\n", over=False))
        self.assertEqual(self.path.read_text(), "point b\n")
        self.call("save", map=second, script="point c\n", over=True)
        self.call("save", map=second, script="point d\n", over=False)
        self.assertEqual(self.path.read_text(), "point d\n")

    def test_line_ends_and_bytes_that_are_no_text(self) -> None:
        self.path.write_bytes(b"point a\r\n# \xff \xc3\xa9\r\n")
        self.serve(str(self.path))
        opened = self.call("open")
        self.assertEqual(opened["script"], "point a\n# \udcff é\n")
        self.call("save", map=opened["map"], script=opened["script"] + "size\n", over=False)
        self.assertEqual(self.path.read_bytes(), b"point a\r\n# \xff \xc3\xa9\r\nsize\r\n")

    def test_one_that_cannot_be_read_or_written(self) -> None:
        pipe = self.folder / "pipe"
        os.mkfifo(pipe)
        for path in (self.folder, pipe):
            with self.assertRaisesRegex(OSError, "no file"):
                workbench.Server(str(path))
        self.serve(str(self.folder / "none" / "script.tmm"))
        self.assertIn("not saved", self.fails(409, "save", map=self.open(), script="", over=False))


def python_program(source: str) -> List[str]:
    """A program in the place of `tmm`."""
    return [sys.executable, "-c", f"import os, signal, sys, time\n{source}"]


class ProgramTest(WorkbenchTest):
    """A program that is not there, is another one, dies or hangs."""

    def told(self, command: Sequence[str], timeout: float = 20) -> str:
        """What an edit is answered; no process is left."""
        self.serve(command=command, timeout=timeout)
        name = self.open()
        told = self.fails(502, "edit", map=name, script="point a", upto=1)
        self.assertEqual(self.processes(), [])
        # the page goes on, and tells it again
        self.fails(502, "view", map=name, at=1, **SHOW)
        return told

    def test_one_that_is_not_there(self) -> None:
        self.assertIn("/nowhere/tmm", self.told(["/nowhere/tmm"]))

    def test_one_that_ends(self) -> None:
        self.assertIn("status 3", self.told(python_program("sys.stdin.readline(); sys.exit(3)")))

    def test_one_that_is_killed(self) -> None:
        source = "sys.stdin.readline(); os.kill(os.getpid(), signal.SIGKILL)"
        self.assertIn("signal 9", self.told(python_program(source)))

    def test_one_that_is_not_tmm(self) -> None:
        self.told(["cat"])
        self.told(["yes"])

    def test_one_that_hangs(self) -> None:
        with tempfile.TemporaryDirectory() as folder:
            pid = Path(folder) / "pid"
            source = f"open({str(pid)!r}, 'w').write(str(os.getpid()))\nsignal.signal(15, signal.SIG_IGN)\n"
            begun = time.monotonic()
            told = self.told(python_program(source + "time.sleep(600)"), timeout=3)
            self.assertIn("within 3", told)
            self.assertLess(time.monotonic() - begun, 60)
            self.assertFalse(is_there(int(pid.read_text())))

    def test_one_that_dies_later_is_started_again(self) -> None:
        self.serve()
        name = self.open("point a\nsize")
        for kept in self.server.workbench.desks[name].programs:
            kept.map.process.kill()
            kept.map.process.wait()
        told = self.call("edit", map=name, script="point a\nsize\npoint b\nbounds a b", upto=9)
        self.assertEqual(told["replies"][-2:], ["3 ok", "4 bounds * *"])

    def test_nothing_is_left_when_the_server_ends(self) -> None:
        server = self.serve()
        for _ in range(3):
            self.open("point a\npoint b\nsize")
        processes = self.processes()
        self.assertGreaterEqual(len(processes), 3)
        server.server_close()
        self.assertFalse(any(map(is_there, processes)))


class CommandTest(unittest.TestCase):
    """`python3 -m tmm workbench`."""

    def begin(self, **choices: Any) -> "subprocess.Popen[str]":
        """Starts it, and closes what is open at the end."""
        environment = {**os.environ, "PYTHONPATH": str(Path(tmm.__file__).parents[1])}
        process = subprocess.Popen(
            [sys.executable, "-m", "tmm", "workbench"],
            env=environment,
            stdout=subprocess.PIPE,
            stderr=subprocess.PIPE,
            text=True,
            **choices,
        )
        assert process.stdout is not None and process.stderr is not None
        self.addCleanup(process.wait)
        self.addCleanup(process.stdout.close)
        self.addCleanup(process.stderr.close)
        self.addCleanup(process.kill)
        return process

    def started(self, process: "subprocess.Popen[str]") -> int:
        """The process of the program that a page has it start."""
        assert process.stdout is not None
        address = process.stdout.readline().strip()
        host, token = address[len("http://") : -1].split("/")
        connection = http.client.HTTPConnection(host, timeout=30)
        self.addCleanup(connection.close)
        headers = {"Origin": f"http://{host}", "Content-Type": "application/json"}
        connection.request("POST", f"/{token}/open", "{}", headers)
        name = json.loads(connection.getresponse().read())["map"]
        connection.request(
            "POST", f"/{token}/edit", json.dumps({"map": name, "script": "point a", "upto": 1}), headers
        )
        self.assertEqual(json.loads(connection.getresponse().read())["replies"], ["1 ok"])
        children = Path(f"/proc/{process.pid}/task").glob("*/children")
        (child, *_) = [int(word) for path in children for word in path.read_text().split()]
        return child

    def test_signals_end_it_and_its_programs(self) -> None:
        for number in (signal.SIGINT, signal.SIGTERM, signal.SIGHUP):
            process = self.begin()
            child = self.started(process)
            process.send_signal(number)
            self.assertEqual(process.wait(timeout=20), 0)
            self.assertFalse(is_there(child))
            assert process.stderr is not None
            self.assertEqual(process.stderr.read(), "")

    def test_it_ends_with_its_terminal(self) -> None:
        ours, theirs = pty.openpty()
        name = os.ttyname(theirs)
        os.close(theirs)

        def take_terminal() -> None:
            # The first terminal that the leader of a session opens is its own.
            os.setsid()
            os.dup2(os.open(name, os.O_RDWR), 0)

        process = self.begin(preexec_fn=take_terminal)
        child = self.started(process)
        os.close(ours)
        self.assertEqual(process.wait(timeout=20), 0)
        self.assertFalse(is_there(child))

    def test_a_port_that_is_taken(self) -> None:
        with socket.create_server(("127.0.0.1", 0)) as taken, contextlib.redirect_stderr(io.StringIO()) as told:
            self.assertEqual(workbench.main(["--port", str(taken.getsockname()[1])]), 1)
            self.assertEqual(workbench.main(["--port", "70000"]), 1)
        self.assertEqual(len(told.getvalue().splitlines()), 2)

    def test_wrong_words(self) -> None:
        for words in ("a b", "--port x", "--timeout 0", "--timeout nan"):
            with contextlib.redirect_stderr(io.StringIO()), self.assertRaises(SystemExit) as ended:
                workbench.main(words.split())
            self.assertEqual(ended.exception.code, 2)


if __name__ == "__main__":
    unittest.main()
