#!/usr/bin/env python3
"""What the scripts `tmm` and `prove` do, in a small repository with a stand-in for the command `rt`.

It proves and builds nothing, needs no toolchain, and takes some seconds.
"""

import os
import re
import shutil
import signal
import subprocess
import tempfile
import time
import unittest
from pathlib import Path
from typing import List, Optional

ROOT = Path(__file__).resolve().parents[1]

# A crate, what it stands on, and its lines of code. The heaviest chain is low, tall, top, tmm_cli.
CRATES = [
    ("low", "", 10),
    ("wide", "low kit_crate", 400),
    ("tall", "low", 300),
    ("unused", "low", 900),
    ("alone", "", 20),
    ("top", "tall", 200),
    ("tmm_cli", "wide top alone", 5),
]

# Notes each call and when it ended. In the folder of orders a file says what a crate or a try is to do.
RT = """#!/usr/bin/env bash
crate=$(basename "$PWD")
[ "$1" != version ] || { cat "$STAND_IN/KIT-ID"; exit; }
echo "$* $crate" >> "$STAND_IN/calls"
case $1 in
lib | run)
  if [ -e "$STAND_IN/orders/$crate" ]; then . "$STAND_IN/orders/$crate"; fi
  mkdir -p out
  if [ "$1" = run ]; then cp "$STAND_IN/program" "out/$crate"; fi
  ;;
try) . "$STAND_IN/orders/try" ;;
esac
echo "done $crate" >> "$STAND_IN/calls"
"""

# The built program: it gives back its words and its input, with status 7.
PROGRAM = """#!/usr/bin/env bash
echo "built $*"
cat
exit 7
"""

# A try that ends: the lines of rt and its status are those of the real one.
TRY = 'echo "1 ok"; {{ echo "checked: ended status={0}"; echo "run=ended status={0} runners=1 proved=no"; }} >&2; exit {0}\n'
TRY_WITHOUT_ANSWER = 'echo "checked: no-answer: too long" >&2; echo "run=no-answer proved=no" >&2; exit 6\n'


class Proving(unittest.TestCase):
    """Each test has a repository of its own, in which nothing is built."""

    def setUp(self) -> None:
        self.work = Path(tempfile.mkdtemp(prefix="tmm proving "))
        self.addCleanup(shutil.rmtree, self.work)
        self.stand_in = self.work / "kit"
        self.top = self.work / "top"
        self.temporary = self.work / "tmp"
        for folder in (self.stand_in / "bin", self.stand_in / "orders", self.top, self.temporary):
            folder.mkdir(parents=True)
        self.write_command("rt", RT)
        self.write_command("nproc", "#!/bin/sh\necho 1\n")
        (self.stand_in / "KIT-ID").write_text("stand-in 1\n")
        (self.stand_in / "program").write_text(PROGRAM)
        (self.stand_in / "program").chmod(0o755)
        self.order("try", TRY.format(0))
        for script in ("tmm", "prove"):
            shutil.copy(ROOT / script, self.top)
        listed = "".join(f"{name}: {below}\n" for name, below, _ in CRATES)
        (self.top / "crates.txt").write_text(f"# crates\n\n{listed}")
        for name, _, lines in CRATES:
            source = self.top / "crates" / name / "src"
            source.mkdir(parents=True)
            (source / "lib.rt").write_text("//\n" * lines)
        program = self.top / "crates" / "tmm_program" / "src"
        program.mkdir(parents=True)
        shutil.copy(ROOT / "crates/tmm_program/src/usage.rt", program)
        self.script = self.work / "script"
        self.script.write_text("point a\n")
        self.environment = {
            **os.environ,
            "PATH": f"{self.stand_in / 'bin'}:{os.environ['PATH']}",
            "STAND_IN": str(self.stand_in),
            "TMPDIR": str(self.temporary),
        }

    def write_command(self, name: str, text: str) -> None:
        file = self.stand_in / "bin" / name
        file.write_text(text)
        file.chmod(0o755)

    def order(self, name: str, text: str) -> None:
        (self.stand_in / "orders" / name).write_text(text)

    def run_script(self, name: str, *words: str, given: str = "") -> "subprocess.CompletedProcess[str]":
        """Runs a script over a file, or over a pipe where text is given."""
        with self.begin(name, *words, stdin=subprocess.PIPE if given else None) as running:
            replies, told = running.communicate(given or None, timeout=60)
        self.assertEqual(list(self.temporary.iterdir()), [], "a file is left behind")
        return subprocess.CompletedProcess([name, *words], running.returncode, replies, told)

    def begin(self, name: str, *words: str, stdin: Optional[int] = None) -> "subprocess.Popen[str]":
        """Starts a script over the file, or over another standard input."""
        with self.script.open() as file:
            return subprocess.Popen(
                [self.top / name, *words],
                stdin=file if stdin is None else stdin,
                stdout=subprocess.PIPE,
                stderr=subprocess.PIPE,
                env=self.environment,
                text=True,
            )

    def take_calls(self) -> List[str]:
        """What the stand-in was called for since the last time."""
        calls = self.stand_in / "calls"
        if not calls.exists():
            return []
        lines = calls.read_text().splitlines()
        calls.unlink()
        return lines

    def built(self) -> List[str]:
        """The crates that were built since the last time, in their order."""
        return [line.split()[1] for line in self.take_calls() if line.startswith("done ")]

    # ---- without proofs

    def test_a_file_is_answered_by_a_try(self) -> None:
        for status in (0, 1, 6):
            self.order("try", TRY.format(status))
            ran = self.run_script("tmm")
            self.assertEqual((ran.returncode, ran.stdout), (status, "1 ok\n"))
            self.assertIn("no proof has been run", ran.stderr)
            self.assertIn("./prove", ran.stderr)
            self.assertIn("0 of 6 crates", ran.stderr)
            self.assertNotIn("run=", ran.stderr)
            self.assertEqual(self.take_calls(), ["try -- tmm_cli"])

    def test_a_try_reads_the_file(self) -> None:
        self.order("try", 'cat; echo "run=ended status=0 runners=1 proved=no" >&2\n')
        self.assertEqual(self.run_script("tmm").stdout, "point a\n")

    def test_a_file_with_suppositions_is_answered_by_a_try(self) -> None:
        self.order("try", 'cat; echo "run=ended status=0 runners=1 proved=no" >&2\n')
        self.assertEqual(self.run_script("tmm", "suppose").stdout, "point a\n")
        self.assertEqual(self.take_calls()[0], "try -- suppose tmm_cli")

    def test_a_demo_is_answered_by_a_try(self) -> None:
        ran = self.run_script("tmm", "demo", "3", given="point a\n")
        self.assertEqual((ran.returncode, ran.stdout), (0, "1 ok\n"))
        self.assertEqual(self.take_calls(), ["try -- demo 3 tmm_cli"])

    def test_a_try_without_an_answer(self) -> None:
        self.order("try", TRY_WITHOUT_ANSWER)
        ran = self.run_script("tmm")
        self.assertEqual((ran.returncode, ran.stdout), (70, ""))
        self.assertIn("checked: no-answer: too long\nrun=no-answer proved=no\n", ran.stderr)

    def test_each_mode_is_answered_by_a_try(self) -> None:
        self.order("try", 'echo "$@"; cat; echo "run=ended status=0 runners=1 proved=no" >&2\n')
        for mode in ("suppose", "agents", "repairs", "timeline"):
            self.assertEqual(self.run_script("tmm", mode).stdout, f"try -- {mode}\npoint a\n")

    def test_other_words(self) -> None:
        program = (ROOT / "crates" / "tmm_program" / "specs" / "Program.antt").read_text(encoding="utf-8")
        usage = re.search(r'"(usage: .*)\\n"', program)
        for words in (["--help"], ["word"], [""], ["suppose", "more"], ["repairs", "more"], ["timeline", "agents"]):
            ran = self.run_script("tmm", *words)
            self.assertEqual((ran.returncode, ran.stdout), (2, f"{usage and usage.group(1)}\n"))
        self.assertEqual(self.take_calls(), [])

    def test_no_toolchain(self) -> None:
        bare = self.work / "bare"
        bare.mkdir()
        for command in ("bash", "find", "readlink", "dirname", "cat", "awk", "sort", "cut", "mktemp", "rm", "env"):
            (bare / command).symlink_to(shutil.which(command) or "")
        self.environment["PATH"] = str(bare)
        for ran in (self.run_script("tmm"), self.run_script("tmm", given="point a\n"), self.run_script("prove")):
            self.assertEqual((ran.returncode, ran.stdout), (70, ""))
            self.assertIn("no command rt", ran.stderr)

    # ---- proving

    def test_the_longest_chain_goes_first(self) -> None:
        ran = self.run_script("prove")
        self.assertEqual(ran.returncode, 0)
        self.assertEqual(ran.stdout, f"tmm: proved and built: {self.top / 'crates/tmm_cli/out/tmm_cli'}\n")
        # tall before wide, which is larger and has less above it; the program does not stand on unused
        self.assertEqual(self.built(), ["low", "tall", "wide", "top", "alone", "tmm_cli"])
        told = [line for line in ran.stderr.splitlines() if "is proved and built" in line]
        self.assertEqual(len(told), 6)
        for count, line in enumerate(told, 1):
            self.assertRegex(line, rf"{count} of 6 after 0 min; about {'0' if count == 6 else '[1-9]'} min are left")

    def test_crates_are_built_side_by_side(self) -> None:
        self.write_command("nproc", "#!/bin/sh\necho 2\n")
        # each waits for the other, and so would wait for ever alone
        for name, other in (("wide", "tall"), ("tall", "wide")):
            self.order(name, f'touch "$STAND_IN/{name}"; until [ -e "$STAND_IN/{other}" ]; do sleep 0.05; done\n')
        self.assertEqual(self.run_script("prove").returncode, 0)

    def test_what_is_built_is_run(self) -> None:
        self.run_script("prove")
        self.take_calls()
        ran = self.run_script("tmm", "some", "words")
        self.assertEqual((ran.returncode, ran.stdout, ran.stderr), (7, "built some words\npoint a\n", ""))
        self.assertEqual(self.run_script("prove").returncode, 0)
        self.assertEqual(self.take_calls(), [])

    def test_a_pipe_proves_first(self) -> None:
        ran = self.run_script("tmm", given="point b\n")
        self.assertEqual((ran.returncode, ran.stdout), (7, "built \npoint b\n"))
        self.assertIn("proved first", ran.stderr)
        self.assertEqual(len(self.built()), 6)

    def test_an_edit_is_built_with_what_stands_on_it(self) -> None:
        self.run_script("prove")
        self.take_calls()
        # files tell times by a clock that ticks every few milliseconds
        time.sleep(0.05)
        (self.top / "crates/wide/src/lib.rt").touch()
        self.assertIn("4 of 6 crates", self.run_script("tmm").stderr)
        self.assertEqual(self.take_calls()[0], "try -- tmm_cli")
        self.run_script("prove")
        self.assertEqual(self.built(), ["wide", "tmm_cli"])

    def test_an_edit_while_it_is_built_is_built_again(self) -> None:
        self.order("tmm_cli", "sleep 0.05; touch ../low/src/lib.rt\n")
        self.run_script("prove")
        (self.stand_in / "orders/tmm_cli").unlink()
        self.take_calls()
        self.run_script("prove")
        self.assertIn("low", self.built())

    def test_another_toolchain_builds_anew(self) -> None:
        self.run_script("prove")
        self.take_calls()
        (self.stand_in / "KIT-ID").write_text("stand-in 2\n")
        self.assertIn("0 of 6 crates", self.run_script("tmm").stderr)
        self.take_calls()
        self.run_script("prove")
        self.assertEqual(len(self.built()), 6)

    def test_a_crate_that_fails(self) -> None:
        self.order("top", 'echo "fn f: not proved"; exit 1\n')
        ran = self.run_script("prove")
        self.assertEqual((ran.returncode, ran.stdout), (70, ""))
        self.assertIn("fn f: not proved\ntmm: top was not built (status 1)", ran.stderr)
        self.assertEqual(self.built(), ["low", "tall", "wide"])
        (self.stand_in / "orders/top").unlink()
        self.assertEqual(self.run_script("prove").returncode, 0)
        self.assertEqual(self.built(), ["top", "alone", "tmm_cli"])

    def test_no_process_outlives_its_script(self) -> None:
        # the order is another process than the stand-in, which a signal to that alone would leave
        for name, crate in (("prove", "low"), ("tmm", "try")):
            for number in (signal.SIGTERM, signal.SIGINT):
                with self.subTest(script=name, signal=number):
                    self.order(crate, 'bash -c \'echo $$ > "$STAND_IN/order"; exec sleep 600\'\n')
                    with self.begin(name) as running:
                        order = self.wait_for_order()
                        running.send_signal(number)
                        self.assertEqual(running.wait(20), 70)
                        self.assert_ended(order)
                        self.assertEqual(list(self.temporary.iterdir()), [])

    def wait_for_order(self) -> int:
        file = self.stand_in / "order"
        until = time.monotonic() + 20
        while not file.exists() or not file.read_text().strip():
            self.assertLess(time.monotonic(), until, "nothing was begun")
            time.sleep(0.02)
        order = int(file.read_text())
        file.unlink()
        return order

    def assert_ended(self, process: int) -> None:
        until = time.monotonic() + 20
        while Path(f"/proc/{process}").exists():
            self.assertLess(time.monotonic(), until, "a process is left behind")
            time.sleep(0.02)

    def test_words_of_prove(self) -> None:
        ran = self.run_script("prove", "now")
        self.assertEqual((ran.returncode, ran.stdout, ran.stderr), (2, "", "usage: prove\n"))


if __name__ == "__main__":
    unittest.main()
