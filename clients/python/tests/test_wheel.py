"""Tests of what pip installs: the wheel and the archive of sources."""

import base64
import hashlib
import subprocess
import sys
import tarfile
import tempfile
import unittest
import zipfile
from pathlib import Path

SOURCES = Path(__file__).resolve().parents[1]


def build(call: str, folder: Path, sources: Path = SOURCES) -> Path:
    """What this call of the backend makes in the folder."""
    program = f"import sys, tmm_wheel; print(tmm_wheel.{call}(sys.argv[1]))"
    done = subprocess.run(
        [sys.executable, "-B", "-c", program, str(folder)],
        env={"PYTHONPATH": str(sources / "backend")},
        stdout=subprocess.PIPE,
        text=True,
        check=True,
    )
    return folder / done.stdout.strip()


class WheelTest(unittest.TestCase):
    """As the packaging standards ask for them."""

    def setUp(self) -> None:
        self.folder = Path(self.enterContext(tempfile.TemporaryDirectory()))

    def test_the_wheel_has_the_whole_package(self) -> None:
        with zipfile.ZipFile(build("build_wheel", self.folder)) as wheel:
            names = {name for name in wheel.namelist() if name.startswith("tmm/")}
            package = [path for path in (SOURCES / "tmm").rglob("*") if path.is_file()]
            expected = {path.relative_to(SOURCES).as_posix() for path in package if path.suffix != ".pyc"}
            self.assertEqual(names, expected)
            self.assertIn("tmm/py.typed", names)
            for name in names:
                self.assertEqual(wheel.read(name), (SOURCES / name).read_bytes())

    def test_the_record(self) -> None:
        with zipfile.ZipFile(build("build_wheel", self.folder)) as wheel:
            (record,) = [name for name in wheel.namelist() if name.endswith(".dist-info/RECORD")]
            told = [line.rsplit(",", 2) for line in wheel.read(record).decode().splitlines()]
            self.assertEqual(sorted(name for name, _, _ in told), sorted(wheel.namelist()))
            for name, digest, size in told:
                if name == record:
                    self.assertEqual((digest, size), ("", ""))
                    continue
                data = wheel.read(name)
                self.assertEqual(int(size), len(data))
                kind, _, value = digest.partition("=")
                padded = value + "=" * (-len(value) % 4)
                self.assertEqual((kind, base64.urlsafe_b64decode(padded)), ("sha256", hashlib.sha256(data).digest()))

    def test_the_same_sources_make_the_same_wheel(self) -> None:
        first = build("build_wheel", self.folder).read_bytes()
        self.assertEqual(build("build_wheel", self.folder).read_bytes(), first)

    def test_the_archive_of_sources_makes_the_wheel(self) -> None:
        wheel = build("build_wheel", self.folder).read_bytes()
        with tarfile.open(build("build_sdist", self.folder)) as archive:
            archive.extractall(self.folder)
        (root,) = [path for path in self.folder.iterdir() if path.is_dir()]
        self.assertTrue((root / "PKG-INFO").read_text().startswith("Metadata-Version:"))
        self.assertEqual(build("build_wheel", self.folder, root).read_bytes(), wheel)


if __name__ == "__main__":
    unittest.main()
