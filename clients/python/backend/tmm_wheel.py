"""Makes the wheel of the package `tmm`, for pip, with the standard library alone.

`setuptools` would do, but pip fetches it anew for each installation, and then a network is needed.
A wheel is a ZIP archive with the package, and beside it three files of metadata.
"""

import base64
import hashlib
import io
import tarfile
import tomllib
import zipfile
from pathlib import Path
from typing import Dict, List, Optional

HERE = Path(__file__).resolve().parents[1]

# What pip hands to each hook, and of which nothing is used here.
Settings = Optional[Dict[str, object]]


def project() -> Dict[str, str]:
    """What pyproject.toml says of the package."""
    with open(HERE / "pyproject.toml", "rb") as file:
        told: Dict[str, str] = tomllib.load(file)["project"]
    return told


def name_and_version() -> str:
    """How the names of all files of this version begin."""
    told = project()
    return f"{told['name']}-{told['version']}"


def sources(folder: Path) -> List[Path]:
    """The files of a folder, without what Python keeps there."""
    return sorted(path for path in folder.rglob("*") if path.is_file() and "__pycache__" not in path.parts)


def metadata() -> str:
    """The metadata of the package, as `pip show` tells it."""
    told = project()
    return (
        "Metadata-Version: 2.1\n"
        f"Name: {told['name']}\n"
        f"Version: {told['version']}\n"
        f"Summary: {told['description']}\n"
        f"Requires-Python: {told['requires-python']}\n"
    )


def build_wheel(
    wheel_directory: str, config_settings: Settings = None, metadata_directory: Optional[str] = None
) -> str:
    """Writes the wheel into the folder, and gives the name of its file. Raises `OSError`."""
    whole = name_and_version()
    information = f"{whole}.dist-info"
    contents = {path.relative_to(HERE).as_posix(): path.read_bytes() for path in sources(HERE / "tmm")}
    contents[f"{information}/METADATA"] = metadata().encode()
    contents[f"{information}/WHEEL"] = (
        b"Wheel-Version: 1.0\nGenerator: tmm_wheel\nRoot-Is-Purelib: true\nTag: py3-none-any\n"
    )
    record = ""
    for name, data in contents.items():
        digest = base64.urlsafe_b64encode(hashlib.sha256(data).digest()).rstrip(b"=").decode()
        record += f"{name},sha256={digest},{len(data)}\n"
    contents[f"{information}/RECORD"] = f"{record}{information}/RECORD,,\n".encode()

    wheel = f"{whole}-py3-none-any.whl"
    with zipfile.ZipFile(Path(wheel_directory) / wheel, "w", zipfile.ZIP_DEFLATED) as archive:
        for name, data in contents.items():
            # A fixed date, so that the same sources make the same bytes.
            entry = zipfile.ZipInfo(name, (1980, 1, 1, 0, 0, 0))
            entry.external_attr = 0o644 << 16
            entry.compress_type = zipfile.ZIP_DEFLATED
            archive.writestr(entry, data)
    return wheel


def build_sdist(sdist_directory: str, config_settings: Settings = None) -> str:
    """Writes the sources as an archive into the folder, and gives the name of its file. Raises `OSError`."""
    whole = name_and_version()
    name = f"{whole}.tar.gz"
    with tarfile.open(Path(sdist_directory) / name, "w:gz") as archive:
        for path in [HERE / "pyproject.toml", *sources(HERE / "tmm"), *sources(HERE / "backend")]:
            archive.add(path, f"{whole}/{path.relative_to(HERE).as_posix()}")
        told = metadata().encode()
        entry = tarfile.TarInfo(f"{whole}/PKG-INFO")
        entry.size = len(told)
        archive.addfile(entry, io.BytesIO(told))
    return name
