"""The version of this package."""

from __future__ import annotations

import os
import re
from importlib import metadata


def version() -> str:
    """The version: of the repository in which this file stands, or of the installed package; nothing where neither is known."""
    top = os.path.dirname(os.path.dirname(os.path.abspath(__file__)))
    try:
        with open(os.path.join(top, "pyproject.toml"), encoding="utf-8") as file:
            found = re.search(r'^name = "cqa"\nversion = "([^"]*)"', file.read(), re.M)
        if found is not None:
            return found[1]
    except OSError:
        pass
    try:
        return metadata.version("cqa")
    except metadata.PackageNotFoundError:
        return ""
