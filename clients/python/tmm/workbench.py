"""A workbench in the browser, for whoever plans by hand or debugs a planner.

    python3 -m tmm workbench [SCRIPT] [--port N] [--timeout SECONDS]

prints the address of a page, and serves it on 127.0.0.1 alone until its terminal is closed or Ctrl-C. The
page shows the script with a reply under each line, and the picture and the network of what stands after one
of them. It reads SCRIPT, and writes it when it is told to save; it reads and writes no other file.

`Server` is the same for a program. Each page that is opened has a map of its own.

The calls of a page are requests POST with an object of JSON, and answered by one:

    open                                        a new map, with the text of SCRIPT
    edit     map, script, upto                  the replies from the first changed line on, up to line `upto`
    rest     map, first                         some more of them, from this place on
    view     map, at, cycle, whole, bars, rows, one_row
                                                picture, network and broken protections after line `at`
    why      map, at, occurrence                the reasons of an occurrence after line `at`
    between  map, at, from, to                  bounds, and the paths that give them
    repairs  map, at, protection                what would mend a broken protection
    prepare  map, line                          gets ready for an edit of this line
    save     map, script, over                  writes SCRIPT
    close    map                                forgets the map

A request that is not well formed is answered 400, one from elsewhere 403, for what is not there 404, for a
file that another wrote 409, and 502 where the program failed: with an object that has `error`, in words.
"""

import argparse
import json
import os
import re
import secrets
import signal
import sys
import threading
from contextlib import contextmanager
from http import HTTPStatus
from http.server import BaseHTTPRequestHandler, ThreadingHTTPServer
from importlib import resources
from types import FrameType
from typing import Any, Callable, Dict, Iterator, List, Optional, Sequence, Tuple

import tmm
from tmm import network, picture, words
from tmm.client import _FENCE, _encoded
from tmm.json_lines import as_json
from tmm.stream import shown

HOST = "127.0.0.1"
# of a request; the largest script that a page edits is a part of it
MOST_BYTES = 8 << 20
# the maps that are kept; the one that was used least lately is forgotten for a new one
MOST_MAPS = 16
# the programs of a map: that of the last line, one before the line that is edited, and one for the slider
MOST_PROGRAMS = 3
# how many replies one call gives past those that are asked for
CHUNK = 400
TIMEOUT = 10.0

PAGES = {
    "": ("workbench.html", "text/html; charset=utf-8"),
    "workbench.css": ("workbench.css", "text/css; charset=utf-8"),
    "workbench.js": ("workbench.js", "text/javascript; charset=utf-8"),
}

HEADERS = {
    "Cache-Control": "no-store",
    "Content-Security-Policy": "default-src 'none'; script-src 'self'; style-src 'self'; img-src data:;"
    " connect-src 'self'; base-uri 'none'; form-action 'none'; frame-ancestors 'none'",
    "Cross-Origin-Resource-Policy": "same-origin",
    "Referrer-Policy": "no-referrer",
    "X-Content-Type-Options": "nosniff",
}

FORGOTTEN = "This map is not there: load the page again."
NO_REPAIRS = "This page shows no repairs: it tells what broke the protection. The mode `repairs` of the program tells what mends it."

Value = Dict[str, Any]


class Fault(Exception):
    """A call that is not answered: the status of HTTP, and why in words."""

    def __init__(self, status: HTTPStatus, why: str) -> None:
        super().__init__(why)
        self.status = status


# ---- a program


class LiveMap(tmm.TimeMap):
    """A map that takes many lines at once and gives the texts of their replies, which nobody has to parse."""

    def stop(self) -> None:
        """Ends the program, whatever it does."""
        self._stream.kill()

    def texts(self, lines: Sequence[str]) -> List[str]:
        """Gives lines by one fence, and takes the text of each reply, empty for a line that has none.

        Raises what `TimeMap.send_all` raises.
        """
        data = b"".join(map(_encoded, lines)) + _FENCE
        self._want_usable()
        first = self._lines_given + 1
        fence = first + len(lines)
        try:
            self._lines_given = fence
            received = shown(self._stream.lines(data, first, fence))
        except BaseException as error:
            self._give_up(error)
            raise
        told = [""] * len(lines)
        # A line that does not begin with a blank begins a reply.
        for reply in filter(None, re.split(r"\n(?! |$)", received.removesuffix("\n"))):
            told[int(reply.partition(" ")[0]) - first] = reply
        return told


# ---- a map and its programs


class Kept:
    """A program that was given the first lines of a script, with the text of each reply."""

    def __init__(self, live_map: LiveMap) -> None:
        self.map = live_map
        self.lines: List[str] = []
        self.replies: List[str] = []

    def leads_to(self, lines: Sequence[str]) -> bool:
        """Whether it can go on to stand after these lines."""
        return self.lines == lines[: len(self.lines)]

    def go_on(self, lines: Sequence[str]) -> None:
        """Goes on to these lines, to which it leads."""
        given = lines[len(self.lines) :]
        if given:
            # The program counts what it was asked too.
            for number, reply in enumerate(self.map.texts(given), start=len(self.lines) + 1):
                _, blank, said = reply.partition(" ")
                self.replies.append(f"{number}{blank}{said}" if reply else "")
            self.lines += given


class Desk:
    """The map of one page: its script, and programs that were given the first lines of it.

    A call holds `lock`, so that calls come one after another. `programs` may be changed by the thread that
    prepares one too, and is changed under `pool`. Calls raise what `TimeMap` raises; the program that
    failed is ended then, and the next call starts another.
    """

    def __init__(self, start: Callable[[], LiveMap], known: Optional[bytes]) -> None:
        self.start = start
        # the file as this page read or wrote it last
        self.known = known
        self.lock = threading.Lock()
        self.lines: List[str] = [""]
        self.replies: List[str] = []
        self.pool = threading.Condition()
        # the one that was used last is the last
        self.programs: List[Kept] = []
        # the one that the last call asked, which may be at work
        self.at_work: Optional[Kept] = None
        # one that is on its way to these lines
        self.preparing: Optional[Tuple[Kept, List[str]]] = None
        self.closed = False

    def close(self) -> None:
        """Ends the programs, also those that are at work, and starts no more."""
        with self.pool:
            self.closed = True
            for kept in self.programs:
                kept.map.process.kill()
            if self.preparing is not None:
                self.preparing[0].map.process.kill()
            self.pool.wait_for(lambda: self.preparing is None)
        # The call that is at work fails before it lets go of this.
        with self.lock, self.pool:
            for kept in list(self.programs):
                self.drop(kept)

    def take(self, script: str) -> int:
        """Takes another script, and gives the place of the first line that is another one."""
        lines = script.split("\n")
        pairs = enumerate(zip(lines, self.lines))
        first = next((place for place, (new, old) in pairs if new != old), min(len(lines), len(self.lines)))
        self.lines = lines
        del self.replies[first:]
        with self.pool:
            for kept in [kept for kept in self.programs if not kept.leads_to(lines)]:
                self.drop(kept)
        return first

    def drop(self, kept: Kept) -> None:
        """Ends a program."""
        kept.map.stop()
        self.programs.remove(kept)

    def begin(self) -> Kept:
        """Starts a program; `pool` is held."""
        if self.closed:
            raise Fault(HTTPStatus.NOT_FOUND, FORGOTTEN)
        return Kept(self.start())

    def after(self, count: int) -> Kept:
        """A program that stands after so many lines."""
        lines = self.lines[:count]
        with self.pool:
            if self.preparing is not None and self.preparing[1] == lines[: len(self.preparing[1])]:
                self.pool.wait_for(lambda: self.preparing is None)
            for kept in [kept for kept in self.programs if kept.map.process.poll() is not None]:
                self.drop(kept)
            leading = [kept for kept in self.programs if kept.leads_to(lines)]
            if leading:
                kept = max(leading, key=lambda kept: len(kept.lines))
                self.programs.remove(kept)
            else:
                kept = self.begin()
            self.at_work = kept
            self.keep(kept)
        with self.dropping(kept):
            kept.go_on(lines)
        return kept

    @contextmanager
    def dropping(self, kept: Kept) -> Iterator[None]:
        """Ends a program that fails."""
        try:
            yield
        except (tmm.Refused, tmm.OutOfMemory):
            raise
        except BaseException:
            with self.pool:
                if kept in self.programs:
                    self.drop(kept)
            raise

    @contextmanager
    def asked(self, count: int) -> Iterator[Kept]:
        """A program that stands after so many lines, to be asked."""
        kept = self.after(count)
        with self.dropping(kept):
            yield kept

    def keep(self, kept: Kept) -> None:
        """Puts a program last; `pool` is held."""
        self.programs.append(kept)
        if len(self.programs) > MOST_PROGRAMS:
            self.drop(next(kept for kept in self.programs if kept is not self.at_work))

    def prepare(self, count: int) -> None:
        """Has a program stand after so many lines some time later, so that a change behind them finds it."""
        with self.pool:
            lines = self.lines[:count]
            if self.preparing is not None or any(kept.lines == lines for kept in self.programs):
                return
            kept = self.begin()
            self.preparing = kept, lines
        threading.Thread(target=self.bring, args=(kept, lines), daemon=True).start()

    def bring(self, kept: Kept, lines: List[str]) -> None:
        """Brings a program to these lines, and keeps it if they still begin the script."""
        try:
            kept.go_on(lines)
        except (OSError, tmm.TmmError):
            # The call that needs these lines tells why.
            pass
        finally:
            with self.pool:
                self.preparing = None
                if kept.lines != lines or self.closed or not kept.leads_to(self.lines):
                    kept.map.stop()
                else:
                    self.keep(kept)
                self.pool.notify_all()

    # ---- what a page asks

    def edit(self, script: str, upto: int) -> Value:
        """Takes a script, and answers its lines from the first changed one on."""
        first = self.take(script)
        told = {"count": len(self.lines), **self.rest(first, max(upto - first, 1))}
        self.prepare(first)
        return told

    def rest(self, first: int, most: int = CHUNK) -> Value:
        """Replies from this place on, most of which may still have to be asked for."""
        end = min(first + most, len(self.lines))
        if end > len(self.replies):
            self.replies += self.after(end).replies[len(self.replies) : end]
        return {"first": first, "replies": self.replies[first:end]}

    def view(self, at: int, cycle: int, whole: bool, rows: List[str], bars: List[picture.Bars], one_row: bool) -> Value:
        """What stands after a line, drawn."""
        with self.asked(at) as kept:
            steps = steps_of(kept.replies, cycle)
            drawn = network.network_of(kept.map, steps)
            chosen = picture.rows_of(kept.map, rows=rows or None, bars=bars, kinds_in_one_row=one_row)
            broken = kept.map.check()
        if steps and not whole:
            drawn = network.part(drawn, network.points_of(steps))
        return {"picture": picture.draw(chosen), "network": network.draw(drawn), "broken": as_json(broken)}

    def why(self, at: int, occurrence: str) -> Value:
        """The reasons of an occurrence."""
        with self.asked(at) as kept:
            return {"reasons": as_json(kept.map.why(occurrence))}

    def between(self, at: int, origin: str, target: str) -> Value:
        """The bounds on a distance, and the constraints that give the upper and the lower one."""
        with self.asked(at) as kept:
            return {
                "bounds": as_json(kept.map.bounds(origin, target)),
                "path": as_json(kept.map.path(origin, target)),
                "back": as_json(kept.map.path(target, origin)),
            }

    def repairs(self, at: int, protection: str) -> Value:
        """Where one is told what would mend a broken protection: the map of the page runs in another mode."""
        return {"told": NO_REPAIRS}


def steps_of(replies: Sequence[str], line: int) -> Tuple[tmm.Step, ...]:
    """The cycle for which this line was refused; no steps where it was not, and for line 0."""
    for _, reply in tmm.parse_replies(replies[line - 1] if line else ""):
        if isinstance(reply, tmm.Refusal):
            return reply.steps
    return ()


# ---- the file


class File:
    """The script that was named. A carriage return before a line's end is kept, and is not shown."""

    def __init__(self, path: str) -> None:
        """Raises `OSError` for what is there and is no file that can be read again."""
        self.path = path
        if os.path.exists(path) and not os.path.isfile(path):
            raise OSError(f"{path} is no file")
        self.read()

    def read(self) -> Optional[bytes]:
        """What it has, None where it is not there yet. Raises `OSError`."""
        try:
            with open(self.path, "rb") as file:
                return file.read()
        except FileNotFoundError:
            return None

    def write(self, script: str, known: Optional[bytes]) -> bytes:
        """Writes a script with the line ends of the known text, and gives what the file then has."""
        text = script.encode("utf-8", "surrogateescape")
        if ends_with_return(known or b""):
            text = text.replace(b"\n", b"\r\n")
        with open(self.path, "wb") as file:
            file.write(text)
        return text


def ends_with_return(text: bytes) -> bool:
    """Whether the first line ends with a carriage return."""
    return text.partition(b"\n")[0].endswith(b"\r")


def text_of(text: bytes) -> str:
    """A script as a page shows it, without carriage returns: they are blanks to the program."""
    return text.decode("utf-8", "surrogateescape").replace("\r\n", "\n").replace("\r", " ")


# ---- calls

def is_text(value: Any) -> bool:
    """A text that has bytes: a page may send half of a character."""
    if not isinstance(value, str):
        return False
    try:
        value.encode("utf-8", "surrogateescape")
    except UnicodeEncodeError:
        return False
    return True


def is_place(value: Any) -> bool:
    """What a question may name: a point or an occurrence."""
    try:
        return isinstance(value, str) and words.place(value) == value
    except ValueError:
        return False


def is_number(value: Any) -> bool:
    """A number of a line, or 0."""
    return type(value) is int and value >= 0


def is_flag(value: Any) -> bool:
    """True or false."""
    return isinstance(value, bool)


def is_texts(value: Any) -> bool:
    """A list of texts."""
    return isinstance(value, list) and all(map(is_text, value))


def is_bars(value: Any) -> bool:
    """A list of rows of bars, each with its three texts."""
    return isinstance(value, list) and all(is_texts(each) and len(each) == 3 for each in value)


# of each call the fields, beside `map`, and what they have to be
CALLS: Dict[str, Dict[str, Callable[[Any], bool]]] = {
    "edit": {"script": is_text, "upto": is_number},
    "rest": {"first": is_number},
    "view": {
        "at": is_number,
        "cycle": is_number,
        "whole": is_flag,
        "bars": is_bars,
        "rows": is_texts,
        "one_row": is_flag,
    },
    "why": {"at": is_number, "occurrence": is_place},
    "between": {"at": is_number, "from": is_place, "to": is_place},
    "repairs": {"at": is_number, "protection": is_place},
    "prepare": {"line": is_number},
    "save": {"script": is_text, "over": is_flag},
    "close": {},
}


def object_of(body: bytes) -> Value:
    """The object of a request."""

    def refuse(word: str) -> None:
        raise ValueError(f"{word} is no number of JSON")

    try:
        value = json.loads(body.decode("utf-8"), parse_constant=refuse)
    # a list in a list in a list, and so on
    except (ValueError, RecursionError):
        raise Fault(HTTPStatus.BAD_REQUEST, "The request is no JSON.") from None
    if not isinstance(value, dict):
        raise Fault(HTTPStatus.BAD_REQUEST, "The request is no object.")
    return value


def look_at(given: Value, wanted: Dict[str, Callable[[Any], bool]]) -> None:
    """Refuses an object that has other fields than are wanted, or something else in them."""
    if given.keys() != wanted.keys():
        raise Fault(HTTPStatus.BAD_REQUEST, f"The request has to have these fields: {', '.join(wanted) or 'none'}.")
    for name, fits in wanted.items():
        if not fits(given[name]):
            raise Fault(HTTPStatus.BAD_REQUEST, f"The request has something else than it should in `{name}`.")


class Workbench:
    """The maps of all pages, and the file."""

    def __init__(self, file: Optional[File], start: Callable[[], LiveMap]) -> None:
        self.file = file
        self.start = start
        self.lock = threading.Lock()
        # the one that was used last is the last
        self.desks: Dict[str, Desk] = {}

    def close(self) -> None:
        """Ends all programs."""
        with self.lock:
            desks = list(self.desks.values())
            self.desks.clear()
        for desk in desks:
            desk.close()

    def answer(self, call: str, given: Value) -> Value:
        """Answers a call, or raises `Fault`."""
        if call == "open":
            look_at(given, {})
            return self.open()
        if call not in CALLS:
            raise Fault(HTTPStatus.NOT_FOUND, f"There is no call {call}.")
        look_at(given, {"map": is_text, **CALLS[call]})
        name = given.pop("map")
        if call == "close":
            self.forget(name)
            return {}
        with self.lock:
            desk = self.desks.pop(name, None)
            if desk is None:
                raise Fault(HTTPStatus.NOT_FOUND, FORGOTTEN)
            self.desks[name] = desk
        if call == "prepare":
            desk.prepare(max(given["line"] - 1, 0))
            return {}
        with desk.lock:
            return self.answer_at(desk, call, given)

    def open(self) -> Value:
        """A new map."""
        known = None if self.file is None else self.file.read()
        desk = Desk(self.start, known)
        name = secrets.token_urlsafe(9)
        with self.lock:
            least = next(iter(self.desks)) if len(self.desks) >= MOST_MAPS else None
            self.desks[name] = desk
        if least is not None:
            self.forget(least)
        return {"map": name, "script": text_of(known or b""), "file": self.file and self.file.path}

    def forget(self, name: str) -> None:
        """Ends the programs of a map, if it is there."""
        with self.lock:
            desk = self.desks.pop(name, None)
        if desk is not None:
            desk.close()

    def answer_at(self, desk: Desk, call: str, given: Value) -> Value:
        """Answers a call to a map."""
        for name in ("at", "first", "cycle"):
            if given.get(name, 0) > len(desk.lines):
                raise Fault(HTTPStatus.BAD_REQUEST, f"The script has no such line: `{name}`.")
        if call == "edit":
            return desk.edit(given["script"], given["upto"])
        if call == "rest":
            return desk.rest(given["first"])
        if call == "save":
            return self.save(desk, given["script"], given["over"])
        try:
            if call == "view":
                bars = [picture.Bars(*each) for each in given.pop("bars")]
                return desk.view(bars=bars, **given)
            if call == "why":
                return desk.why(given["at"], given["occurrence"])
            if call == "between":
                return desk.between(given["at"], given["from"], given["to"])
            return desk.repairs(given["at"], given["protection"])
        except tmm.Refused as refused:
            return {"refused": str(refused)}

    def save(self, desk: Desk, script: str, over: bool) -> Value:
        """Writes the file, unless somebody else wrote it since this page knew it and it is not to be written over."""
        if self.file is None:
            raise Fault(HTTPStatus.NOT_FOUND, "No file was named.")
        try:
            if not over and self.file.read() != desk.known:
                raise Fault(HTTPStatus.CONFLICT, f"{self.file.path} was changed by somebody else.")
            desk.known = self.file.write(script, desk.known)
        except OSError as error:
            raise Fault(HTTPStatus.CONFLICT, f"The file is not saved: {error}") from None
        return {}


# ---- the server


class Handler(BaseHTTPRequestHandler):
    """Answers the requests of one connection."""

    protocol_version = "HTTP/1.1"
    server_version = "tmm"
    sys_version = ""
    # a connection that is silent for so long is closed
    timeout = 30
    # An answer is two writes, and the second is not to wait until the first has arrived.
    disable_nagle_algorithm = True
    server: "Server"

    def log_message(self, format: str, *values: Any) -> None:
        """Tells nothing."""

    def do_GET(self) -> None:
        """Gives a file of the page."""
        try:
            path = self.path_of(must_have_origin=False)
            if path not in PAGES:
                raise Fault(HTTPStatus.NOT_FOUND, "There is no such page.")
            name, kind = PAGES[path]
            self.give(HTTPStatus.OK, kind, self.server.pages[name])
        except Fault as fault:
            self.refuse(fault)

    def do_POST(self) -> None:
        """Answers a call."""
        try:
            call = self.path_of(must_have_origin=True)
            given = object_of(self.body())
            self.tell(HTTPStatus.OK, self.server.workbench.answer(call, given))
        except Fault as fault:
            self.refuse(fault)
        except ValueError as error:
            self.refuse(Fault(HTTPStatus.BAD_REQUEST, str(error)))
        except tmm.TmmError as error:
            self.refuse(Fault(HTTPStatus.BAD_GATEWAY, str(error)))
        except (ConnectionError, TimeoutError):
            # The page is gone.
            raise
        except OSError as error:
            self.refuse(Fault(HTTPStatus.BAD_GATEWAY, f"The program cannot be started: {error}"))

    def path_of(self, must_have_origin: bool) -> str:
        """The path behind the token, if the request is one to this server from a page of its own."""
        hosts: List[str] = self.headers.get_all("Host", [])
        if len(hosts) != 1 or hosts[0] not in self.server.names:
            raise Fault(HTTPStatus.FORBIDDEN, "This server has another name.")
        origins: List[str] = self.headers.get_all("Origin", [])
        if any(origin != f"http://{hosts[0]}" for origin in origins) or (must_have_origin and not origins):
            raise Fault(HTTPStatus.FORBIDDEN, "The request is not one of this server's page.")
        _, token, *path = self.path.split("/", 2) if self.path.startswith("/") else ("", "")
        if not path or not secrets.compare_digest(token.encode(), self.server.token.encode()):
            raise Fault(HTTPStatus.NOT_FOUND, "There is no such page.")
        return path[0]

    def body(self) -> bytes:
        """What the request has, if it is well formed."""
        kind = self.headers.get("Content-Type", "").partition(";")[0].strip()
        length: List[str] = self.headers.get_all("Content-Length", [])
        if kind != "application/json" or "Transfer-Encoding" in self.headers:
            raise Fault(HTTPStatus.BAD_REQUEST, "The request is no JSON of a known length.")
        if len(length) != 1 or not re.fullmatch("[0-9]{1,12}", length[0]):
            raise Fault(HTTPStatus.BAD_REQUEST, "The request has no length.")
        if int(length[0]) > MOST_BYTES:
            raise Fault(HTTPStatus.REQUEST_ENTITY_TOO_LARGE, f"The request has more than {MOST_BYTES} bytes.")
        body = self.rfile.read(int(length[0]))
        if len(body) < int(length[0]):
            raise Fault(HTTPStatus.BAD_REQUEST, "The request is shorter than it says.")
        return body

    def refuse(self, fault: Fault) -> None:
        """Answers that there is no answer. What was not read of the request ends with the connection."""
        self.close_connection = True
        self.tell(fault.status, {"error": str(fault)})

    def send_error(self, code: int, message: Optional[str] = None, explain: Optional[str] = None) -> None:
        """Answers what is no request of HTTP."""
        self.refuse(Fault(HTTPStatus(code), message or HTTPStatus(code).phrase))

    def tell(self, status: HTTPStatus, value: Value) -> None:
        """Answers with an object."""
        self.give(status, "application/json", json.dumps(value).encode("ascii"))

    def give(self, status: HTTPStatus, kind: str, content: bytes) -> None:
        """Answers."""
        self.send_response(status)
        self.send_header("Content-Type", kind)
        self.send_header("Content-Length", str(len(content)))
        for name, value in HEADERS.items():
            self.send_header(name, value)
        if self.close_connection:
            self.send_header("Connection", "close")
        self.end_headers()
        self.wfile.write(content)


class Server(ThreadingHTTPServer):
    """A workbench on 127.0.0.1.

    `script` is the file that is edited; `command` starts the program, which `find_program` finds by default;
    `timeout` is how many seconds it may take for a reply. Port 0 is any that is free. Raises `OSError` where
    the port is taken or the file cannot be read.
    """

    daemon_threads = True
    block_on_close = False

    def __init__(
        self,
        script: Optional[str] = None,
        command: Optional[Sequence[str]] = None,
        port: int = 0,
        timeout: float = TIMEOUT,
    ) -> None:
        file = None if script is None else File(script)
        self.pages = {name: read_page(name) for name, _ in PAGES.values()}
        self.token = secrets.token_urlsafe(18)
        self.workbench = Workbench(file, lambda: LiveMap(command, timeout=timeout))
        super().__init__((HOST, port), Handler)
        self.names = (f"{HOST}:{self.server_port}", f"localhost:{self.server_port}")

    @property
    def address(self) -> str:
        """The address of the page."""
        return f"http://{self.names[0]}/{self.token}/"

    def handle_error(self, request: Any, client_address: Any) -> None:
        """A page that went away while it was answered is no fault to tell of."""
        if not isinstance(sys.exc_info()[1], (ConnectionError, TimeoutError)):
            super().handle_error(request, client_address)

    def server_close(self) -> None:
        """Ends all programs, and takes no more requests."""
        super().server_close()
        self.workbench.close()


def read_page(name: str) -> bytes:
    """A file of the page."""
    return (resources.files("tmm") / "static" / name).read_bytes()


# ---- the program


def stop(number: int, frame: Optional[FrameType]) -> None:
    """Ends the server, once."""
    for each in SIGNALS:
        signal.signal(each, signal.SIG_IGN)
    raise KeyboardInterrupt


# Ctrl-C, a polite kill, and the end of the terminal.
SIGNALS = (signal.SIGINT, signal.SIGTERM, signal.SIGHUP)


def main(arguments: Sequence[str]) -> int:
    """Serves a workbench until it is stopped, and gives the exit status."""
    parser = argparse.ArgumentParser(
        prog="python3 -m tmm workbench",
        description="Serves a page on 127.0.0.1 in which a script is edited and its map is seen.",
    )
    parser.add_argument("script", metavar="SCRIPT", nargs="?", help="the file to edit; none by default")
    parser.add_argument("--port", metavar="N", type=int, default=0, help="by default any that is free")
    parser.add_argument(
        "--timeout", metavar="SECONDS", type=float, default=TIMEOUT, help="for a reply; %(default)s by default"
    )
    chosen = parser.parse_args(arguments)
    if not chosen.timeout > 0:
        parser.error("a timeout is more than 0 seconds")
    try:
        server = Server(chosen.script, port=chosen.port, timeout=chosen.timeout)
    except (OSError, OverflowError) as error:
        print(f"tmm workbench: {error}", file=sys.stderr)
        return 1
    for each in SIGNALS:
        signal.signal(each, stop)
    try:
        print(server.address, flush=True)
        server.serve_forever()
    except KeyboardInterrupt:
        pass
    finally:
        server.server_close()
    return 0
