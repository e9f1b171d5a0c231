"""Builds the wheel of the package `cqa` by the standard library alone, so that `pip install ./python` needs no network.

pip calls `build_wheel` and `build_sdist` (PEP 517). Other build tools would first have to be fetched into pip's own room.
"""

from __future__ import annotations

import base64
import hashlib
import os
import re
import tarfile
import zipfile
from typing import Dict, Optional

HERE = os.path.dirname(os.path.dirname(os.path.abspath(__file__)))


def _field(name: str) -> str:
    """A field of pyproject.toml: Python 3.9 has no reader of TOML."""
    with open(os.path.join(HERE, "pyproject.toml"), encoding="utf-8") as file:
        found = re.search(r'^%s = "(.*)"$' % name, file.read(), flags=re.M)
    if found is None:
        raise ValueError("pyproject.toml has no %s" % name)
    return found[1]


def _metadata() -> str:
    return "Metadata-Version: 2.1\nName: %s\nVersion: %s\nSummary: %s\nRequires-Python: %s\n" % (
        _field("name"), _field("version"), _field("description"), _field("requires-python"))


def _modules() -> Dict[str, bytes]:
    """The package's files by their names in the wheel, and one that says in which repository they stood, whose program is built there."""
    files: Dict[str, bytes] = {}
    for package in ("cqa", "cqa/database"):
        for name in sorted(os.listdir(os.path.join(HERE, package))):
            if name.endswith((".py", ".js", ".css")) or name == "py.typed":
                with open(os.path.join(HERE, package, name), "rb") as file:
                    files["%s/%s" % (package, name)] = file.read()
    files["cqa/repository.txt"] = os.path.dirname(HERE).encode("utf-8", "surrogateescape")
    return files


def _record_line(name: str, content: bytes) -> str:
    digest = base64.urlsafe_b64encode(hashlib.sha256(content).digest()).rstrip(b"=").decode()
    return "%s,sha256=%s,%d\n" % (name, digest, len(content))


def build_wheel(wheel_directory: str, config_settings: Optional[object] = None,
                metadata_directory: Optional[str] = None) -> str:
    """Writes the wheel into a folder and gives its file's name."""
    return _written(wheel_directory, _modules())


def build_editable(wheel_directory: str, config_settings: Optional[object] = None,
                   metadata_directory: Optional[str] = None) -> str:
    """Writes a wheel that leads to this folder, for `pip install -e`, and gives its file's name (PEP 660)."""
    return _written(wheel_directory, {"__editable__.%s.pth" % _field("name"): (HERE + "\n").encode()})


def _written(wheel_directory: str, files: Dict[str, bytes]) -> str:
    """Writes a wheel of some files into a folder and gives its file's name."""
    stem = "%s-%s" % (_field("name"), _field("version"))
    info = stem + ".dist-info/"
    files[info + "METADATA"] = _metadata().encode()
    files[info + "WHEEL"] = b"Wheel-Version: 1.0\nGenerator: cqa\nRoot-Is-Purelib: true\nTag: py3-none-any\n"
    record = "".join(_record_line(name, content) for name, content in files.items()) + info + "RECORD,,\n"
    name = stem + "-py3-none-any.whl"
    with zipfile.ZipFile(os.path.join(wheel_directory, name), "w", zipfile.ZIP_DEFLATED) as wheel:
        for path, content in files.items():
            wheel.writestr(path, content)
        wheel.writestr(info + "RECORD", record)
    return name


def build_sdist(sdist_directory: str, config_settings: Optional[object] = None) -> str:
    """Writes the sources as an archive into a folder and gives its file's name."""
    stem = "%s-%s" % (_field("name"), _field("version"))
    with tarfile.open(os.path.join(sdist_directory, stem + ".tar.gz"), "w:gz") as archive:
        for part in ("pyproject.toml", "build_backend", "cqa"):
            archive.add(os.path.join(HERE, part), "%s/%s" % (stem, part))
    return stem + ".tar.gz"
