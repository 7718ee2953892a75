#!/usr/bin/env python3
"""The workbench, driven in a browser without a window: type, refuse, slide, click, save, two tabs.

It takes chromium and its driver (Debian's packages chromium and chromium-driver), and says so and ends with
status 0 where they are not there. The environment variable TMM names another program to run than `./tmm`.
With the word `pictures` it writes the screenshots of docs/ too. What is expected is that of docs/SCRIPT.md
and of examples/, or a calculation by hand.
"""

import base64
import json
import os
import re
import shutil
import signal
import statistics
import subprocess
import sys
import tempfile
import time
import urllib.error
import urllib.request
from pathlib import Path
from typing import Any, Callable, List, Optional

ROOT = Path(__file__).resolve().parents[1]
sys.path.insert(0, str(ROOT / "clients" / "python"))

from tmm import picture  # noqa: E402

RED = picture.BROKEN_COLOUR
GREEN = picture.KEPT_COLOUR
# how long anything in the page may take
PATIENCE = 20.0
# What an edit may take on the plan of 300 rounds, in ms. The fastest of thirty is held against it: other work
# on the machine only adds.
EDIT_MS = 100
# the key by which WebDriver names an element
ELEMENT = "element-6066-11e4-a52e-4f735466cecf"


class Failed(Exception):
    """The page is not as it should be."""


class Browser:
    """A session of WebDriver, over HTTP."""

    def __init__(self, driver: str, chromium: str, profile: str) -> None:
        self.process = subprocess.Popen(
            [driver, "--port=0"], stdout=subprocess.PIPE, stderr=subprocess.DEVNULL, text=True
        )
        try:
            self.at = f"http://127.0.0.1:{self.port()}"
            self.session = f"/session/{self.begin(chromium, profile)}"
        except BaseException:
            self.end()
            raise

    def port(self) -> str:
        """The port at which the driver listens, as it tells."""
        assert self.process.stdout is not None
        for line in self.process.stdout:
            found = re.search(r"started successfully on port (\d+)", line)
            if found:
                return found.group(1)
        raise Failed("the driver of the browser does not start")

    def begin(self, chromium: str, profile: str) -> str:
        """Starts the browser."""
        options = {
            "binary": chromium,
            "args": [
                "--headless=new",
                "--no-sandbox",
                "--disable-gpu",
                "--disable-dev-shm-usage",
                "--window-size=1280,960",
                f"--user-data-dir={profile}",
            ],
        }
        wanted = {"capabilities": {"alwaysMatch": {"browserName": "chrome", "goog:chromeOptions": options}}}
        return str(self.call("POST", "/session", wanted)["sessionId"])

    def call(self, method: str, path: str, fields: Optional[Any] = None) -> Any:
        """A command of WebDriver."""
        body = None if fields is None else json.dumps(fields).encode()
        request = urllib.request.Request(self.at + path, data=body, method=method)
        request.add_header("Content-Type", "application/json")
        try:
            with urllib.request.urlopen(request, timeout=60) as response:
                return json.load(response)["value"]
        except urllib.error.HTTPError as error:
            raise Failed(json.load(error)["value"]["message"].splitlines()[0]) from None

    def post(self, path: str, **fields: Any) -> Any:
        """A command in this session."""
        return self.call("POST", self.session + path, fields)

    def run(self, script: str, *words: Any) -> Any:
        """The value of a script in the page."""
        return self.post("/execute/sync", script=script, args=list(words))

    def find(self, selector: str) -> str:
        """An element, for which it waits."""
        deadline = time.monotonic() + PATIENCE
        while True:
            found = self.post("/elements", using="css selector", value=selector)
            if found:
                return str(found[0][ELEMENT])
            if time.monotonic() > deadline:
                raise Failed(f"there is no {selector}")
            time.sleep(0.05)

    def click(self, selector: str) -> None:
        """A click in the middle of an element."""
        self.post(f"/element/{self.find(selector)}/click")

    def type(self, selector: str, keys: str) -> None:
        """Keys, for an element."""
        self.post(f"/element/{self.find(selector)}/value", text=keys)

    def text(self, selector: str) -> str:
        """The text of an element as it is shown."""
        return str(self.run("return document.querySelector(arguments[0]).textContent", selector))

    def picture(self, path: Path) -> None:
        """Writes a screenshot."""
        path.write_bytes(base64.b64decode(self.call("GET", f"{self.session}/screenshot")))

    def close(self) -> None:
        """Ends the browser and its driver."""
        try:
            self.call("DELETE", self.session)
        finally:
            self.end()

    def end(self) -> None:
        """Ends the driver, and with it the browser."""
        self.process.terminate()
        self.process.wait()
        assert self.process.stdout is not None
        self.process.stdout.close()


class Bench:
    """A workbench that runs, on a file."""

    def __init__(self, script: Path) -> None:
        self.process = subprocess.Popen(
            [sys.executable, "-m", "tmm", "workbench", script.name],
            cwd=script.parent,
            env={**os.environ, "PYTHONPATH": str(ROOT / "clients" / "python")},
            stdout=subprocess.PIPE,
            text=True,
        )
        assert self.process.stdout is not None
        self.address = self.process.stdout.readline().strip()
        if not self.address.startswith("http://127.0.0.1:"):
            raise Failed("the workbench does not start")

    def children(self) -> List[int]:
        """The processes that it started."""
        told = subprocess.run(["ps", "-o", "pid=", "--ppid", str(self.process.pid)], stdout=subprocess.PIPE, text=True)
        return [int(word) for word in told.stdout.split()]

    def close(self) -> None:
        """Closes its terminal, as it were, and looks that nothing is left."""
        children = self.children()
        self.process.send_signal(signal.SIGHUP)
        status = self.process.wait(timeout=PATIENCE)
        assert self.process.stdout is not None
        self.process.stdout.close()
        left = [child for child in children if Path(f"/proc/{child}").exists()]
        if status != 0 or left:
            raise Failed(f"the workbench ended with status {status}, and left processes: {left}")


# ---- what is looked at


def expect(what: str, told: Any, wanted: Any) -> None:
    if told != wanted:
        raise Failed(f"{what}: {told!r}, and not {wanted!r}")


def wait(browser: Browser, what: str, script: str, wanted: Any, *words: Any) -> None:
    """Waits until a script in the page has this value."""
    deadline = time.monotonic() + PATIENCE
    while True:
        told = browser.run(script, *words)
        if told == wanted:
            return
        if time.monotonic() > deadline:
            raise Failed(f"{what}: {told!r}, and not {wanted!r}")
        time.sleep(0.02)


REPLY = """
const row = document.querySelector(`.row[data-line="${arguments[0]}"] .told`);
return row && row.textContent;
"""
# the colours of the texts of elements with this attribute
COLOURS = """
const found = document.querySelectorAll(`${arguments[0]} text`);
return [...new Set([...found].map((text) => text.getAttribute("fill")))];
"""
CURSOR_AT_END = """
const script = document.getElementById("script");
script.focus();
script.setSelectionRange(script.value.length, script.value.length);
script.scrollTop = script.scrollHeight;
"""
# sets the slider as a hand does
SLIDE = """
const slider = document.getElementById("at");
slider.value = arguments[0];
slider.dispatchEvent(new Event("input"));
"""


def open_page(browser: Browser, bench: Bench) -> None:
    browser.post("/url", url=bench.address)
    wait(browser, "the page is shown", "return document.body.dataset.shown !== undefined", True)


def shown_after(browser: Browser, line: int) -> None:
    """Slides to a line, and waits until what stands there is drawn."""
    browser.run(SLIDE, line)
    wait(browser, f"line {line} is shown", "return Number(document.body.dataset.shown)", line)


def replies_of(path: Path) -> List[List[str]]:
    """Replies that are written down, each by its lines."""
    replies: List[List[str]] = []
    for line in path.read_text().splitlines():
        if line.startswith(" "):
            replies[-1].append(line)
        else:
            replies.append([line])
    return replies


def look_at_replies(browser: Browser) -> None:
    """Each reply stands under its line, and whole in the box below the slider."""
    for reply in replies_of(ROOT / "examples" / "workshop.out"):
        number, _, text = reply[0].partition(" ")
        shown_after(browser, int(number))
        # the first details are enough under a line
        shown = " · ".join([text, *(detail.strip() for detail in reply[1:12])])
        expect(f"the reply to line {number}", browser.run(REPLY, int(number)), shown)
        expect(f"the whole reply to line {number}", browser.text("#reply").splitlines(), reply)


def type_lines(browser: Browser) -> None:
    """A line is typed, and one in the middle is changed; each is answered."""
    browser.run(CURSOR_AT_END)
    last = browser.run("return document.getElementById('script').value.split('\\n').length")
    browser.type("#script", "point tea\ndist t due tea 5 7\nbounds start tea")
    # `due` is at 300
    wait(browser, "the reply to a typed line", REPLY, "bounds 305 307", last + 2)
    wait(browser, "the end is shown", "return Number(document.body.dataset.shown)", last + 2)


def refuse(browser: Browser, pictures: Optional[Path]) -> None:
    """A typed constraint is refused, and its cycle is red in the network."""
    browser.run(CURSOR_AT_END)
    browser.type("#script", "\ndist now due tea * 4")
    last = browser.run("return document.getElementById('script').value.split('\\n').length")
    # tea is at least 5 after due
    wait(browser, "the reply to a refused line", REPLY, "no cycle -1 · now hi due tea 4 · t lo tea due -5", last)
    wait(browser, "the line is red", "return document.querySelectorAll('.row.refused .told.refused').length > 0", True)
    in_cycle(browser, ["now", "t"])
    dashed = "return document.querySelector('#network [data-premise=\"now\"] path').hasAttribute('stroke-dasharray')"
    expect("the refused constraint is dashed", browser.run(dashed), True)
    points = "return [...document.querySelectorAll('#network [data-point]')].map((item) => item.dataset.point).sort()"
    expect("the points of the cycle", browser.run(points), ["due", "tea"])
    browser.click("#whole")
    wait(browser, "all points", "return document.querySelectorAll('#network [data-point=\"glue-b\"]').length", 1)
    browser.click("#whole")
    # one that was refused before, by four others
    browser.click(f'.row[data-line="{line_of("dist rush start glue-c * 160")}"] .told span')
    in_cycle(browser, ["b1", "b2", "c0", "c9", "rush"])
    if pictures:
        browser.run("document.getElementById('network').scrollIntoView({ block: 'end' })")
        browser.picture(pictures / "workbench-cycle.png")


def in_cycle(browser: Browser, premises: List[str]) -> None:
    """The constraints that are drawn are those of a cycle, in red."""
    drawn = "return [...document.querySelectorAll('#network [data-premise]')].map((item) => item.dataset.premise).sort()"
    wait(browser, "the constraints of the cycle", drawn, premises)
    expect("the colours of the cycle", browser.run(COLOURS, "#network [data-premise]"), [RED])


def line_of(script: str) -> int:
    """The number of a line of the workshop."""
    return (ROOT / "examples" / "workshop.tmm").read_text().splitlines().index(script) + 1


def slide(browser: Browser) -> None:
    """Before the press jams a protection is kept, and after it is broken."""
    jam = line_of("dist j1 start jam 103 103")
    shown_after(browser, jam - 1)
    expect("the protection before the jam", browser.run(COLOURS, '#picture [data-protection="ready"]'), [GREEN])
    shown_after(browser, jam)
    expect("the protection after the jam", browser.run(COLOURS, '#picture [data-protection="ready"]'), [RED])
    expect("the broken protections", browser.text("#broken").partition(":")[0], "ready")
    expect("the reply is red", browser.run("return document.querySelectorAll('#reply .broken').length"), 1)


def click(browser: Browser, pictures: Optional[Path]) -> None:
    """Reasons of a token, distances of two points, repairs of a protection."""
    shown_after(browser, line_of("dist j1 start jam 103 103"))
    # the second gluing begins 45 to 50 after the second cut, and that is at 60
    browser.click('#network [data-point="cut-b"] text')
    browser.click('#network [data-point="glue-b"] text')
    wait(
        browser,
        "the distance of two points",
        "return document.querySelector('#between p')?.textContent",
        "glue-b − cut-b: 45 .. 50",
    )
    steps = "return [...document.querySelectorAll('#between li')].map((item) => item.textContent)"
    expect("the paths", browser.run(steps), ["glue-b − cut-b ≤ 50 by b2 hi", "cut-b − glue-b ≤ -45 by b2 lo"])
    browser.click('#picture [data-occurrence="glue-a/g2/g3"] text')
    wait(
        browser,
        "the reasons of a token",
        "return document.querySelector('#why li > span')?.textContent",
        "glue-a/g2/g3, by rule g3 on glue-a/g2",
    )
    # the gluing that ends needs the press to be free when it begins, as it is since it opened
    reasons = [
        "glue-a/g2/g3, by rule g3 on glue-a/g2",
        "glue-a/g2, by rule g2 on glue-a",
        "glue-a, a premise",
        "p0, a premise",
    ]
    told = "return [...document.querySelectorAll('#why li > span')].map((item) => item.textContent)"
    expect("the tree", browser.run(told), reasons)
    order = browser.text("#why div.steps")
    expect("the order", order.partition(":")[0], "p0 is at or before glue-a (-45)")
    browser.click('#broken [data-protection="ready"]')
    wait(browser, "the repairs", "return /no repairs/.test(document.getElementById('repairs').textContent)", True)
    if pictures:
        browser.picture(pictures / "workbench.png")


def save(browser: Browser, script: Path) -> None:
    """The file has what the page has."""
    browser.click("#save")
    wait(browser, "it is saved", "return / is saved$/.test(document.getElementById('status').textContent)", True)
    expect("the file", script.read_text(), browser.run("return document.getElementById('script').value"))


def two_tabs(browser: Browser, bench: Bench) -> None:
    """What is typed in one tab does not change another."""
    first = browser.call("GET", f"{browser.session}/window")
    second = browser.post("/window/new", type="tab")["handle"]
    browser.post("/window", handle=second)
    open_page(browser, bench)
    browser.run(CURSOR_AT_END)
    lines = "return document.getElementById('script').value.split('\\n').length"
    browser.type("#script", "\npoint mine")
    last = browser.run(lines)
    wait(browser, "the reply in the second tab", REPLY, "ok", last)
    browser.post("/window", handle=first)
    browser.run(CURSOR_AT_END)
    expect("the lines of the first tab", browser.run(lines), last - 1)
    browser.type("#script", "\nbounds start mine")
    wait(browser, "the reply in the first tab", REPLY, "no unknown mine", last)


def plan_of_rounds(rounds: int) -> str:
    """Ten machines as those of the workshop, and rounds in which jobs come, are asked for and go."""
    lines = ["horizon 10000", "class crew on-duty off-duty", "span day on-duty"]
    lines += ["dist d0 start day 0 0", "dist d1 day day.end 9000 9000"]
    for m in range(10):
        lines += [f"class m{m} free{m} busy{m}", f"kind go{m}", f"kind done{m}"]
        lines += [f"token z{m} free{m}", f"dist tz{m} start z{m} 0 0"]
        lines += [f"rule a{m} go{m} 1 1 busy{m} if free{m} on-duty", f"rule b{m} go{m} 20 30 done{m} if free{m}"]
        lines += [f"rule c{m} done{m} 1 1 free{m}"]
    for place in range(rounds):
        m, date = place % 10, 10 + 25 * (place // 10) * 2
        lines += [f"event e{place} go{m}", f"dist x{place} start e{place} {date} {date + place % 3}"]
        lines.append(f"ask free{m} e{place} e{place}")
        # at most 200 jobs stand
        lines.append(f"bounds start e{place}/b{m}" if place < 200 else f"erase e{place - 200}")
    return "\n".join(lines) + "\n"


def time_edits(browser: Browser, script: Path, start: Callable[[Path], Bench]) -> None:
    """Edits at the end, in the middle and near the beginning of a long plan are answered in time."""
    plan = plan_of_rounds(300)
    script.write_text(plan)
    bench = start(script)
    try:
        open_page(browser, bench)
        lines = plan.splitlines()
        for place in (len(lines), len(lines) // 2, 120):
            times = []
            browser.run(
                "const script = document.getElementById('script'); script.focus();"
                "const at = script.value.split('\\n').slice(0, arguments[0]).join('\\n').length;"
                "script.setSelectionRange(at, at); script.scrollTop = (arguments[0] - 5) * 40;",
                place,
            )
            time.sleep(1)
            for key in "\npoint tea-at-a-quarter-past-4":
                browser.run("delete document.body.dataset.answered; delete document.body.dataset.shown")
                browser.type("#script", key)
                wait(browser, "an edit is answered", "return document.body.dataset.answered !== undefined", True)
                times.append(float(browser.run("return document.body.dataset.answered")))
                wait(browser, "an edit is shown", "return document.body.dataset.shown !== undefined", True)
            wait(browser, "the typed line", REPLY, "ok", place + 1)
            told = f"least {min(times):.0f} ms, median {statistics.median(times):.0f}, most {max(times):.0f}"
            print(f"a key at line {place} of {len(lines)} is answered in: {told}")
            if min(times) > EDIT_MS:
                raise Failed(f"an edit at line {place} takes longer than {EDIT_MS} ms")
    finally:
        bench.close()


def main(words: List[str]) -> int:
    chromium, driver = shutil.which("chromium"), shutil.which("chromedriver")
    if chromium is None or driver is None:
        print("checks: the workbench is not looked at: chromium and its driver are not here", file=sys.stderr)
        return 0
    pictures = ROOT / "docs" if words == ["pictures"] else None
    os.environ.setdefault("TMM", str(ROOT / "tmm"))
    with tempfile.TemporaryDirectory() as folder:
        script = Path(folder) / "workshop.tmm"
        script.write_text((ROOT / "examples" / "workshop.tmm").read_text())
        browser = Browser(driver, chromium, f"{folder}/profile")
        try:
            bench = Bench(script)
            try:
                open_page(browser, bench)
                look_at_replies(browser)
                shown_after(browser, int(browser.run("return document.getElementById('at').max")))
                type_lines(browser)
                refuse(browser, pictures)
                slide(browser)
                click(browser, pictures)
                save(browser, script)
                two_tabs(browser, bench)
            finally:
                bench.close()
            time_edits(browser, script, Bench)
        except Failed as failed:
            print(f"checks: the workbench: {failed}", file=sys.stderr)
            return 1
        finally:
            browser.close()
    return 0


if __name__ == "__main__":
    sys.exit(main(sys.argv[1:]))
