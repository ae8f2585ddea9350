"""Packs the package into a wheel, for pip. It needs nothing but Python."""

from __future__ import annotations

import base64
import hashlib
import re
import tarfile
import tomllib
import zipfile
from pathlib import Path

_FOLDER = Path(__file__).parent
_PACKAGE = _FOLDER / "bogrunsi"


def _version() -> str:
    found = re.search(r'^__version__ = "([^"]+)"$', (_PACKAGE / "__init__.py").read_text(), re.MULTILINE)
    if found is None:
        raise ValueError("bogrunsi/__init__.py has no version")
    return found[1]


def _metadata() -> str:
    project = tomllib.loads((_FOLDER / "pyproject.toml").read_text())["project"]
    head = [
        "Metadata-Version: 2.1",
        f"Name: {project['name']}",
        f"Version: {_version()}",
        f"Summary: {project['description']}",
        f"Requires-Python: {project['requires-python']}",
        "Description-Content-Type: text/markdown",
    ]
    text = (_FOLDER / str(project["readme"])).read_text()
    return "\n".join(head) + f"\n\n{text}"


def build_wheel(
    wheel_directory: str, config_settings: dict[str, object] | None = None, metadata_directory: str | None = None
) -> str:
    """Writes the wheel into a folder, and gives its name."""
    base = f"bogrunsi-{_version()}"
    files = {f"bogrunsi/{path.name}": path.read_bytes() for path in sorted(_PACKAGE.iterdir()) if path.suffix in (".py", ".typed")}
    files[f"{base}.dist-info/METADATA"] = _metadata().encode()
    files[f"{base}.dist-info/WHEEL"] = b"Wheel-Version: 1.0\nGenerator: bogrunsi\nRoot-Is-Purelib: true\nTag: py3-none-any\n"
    record = f"{base}.dist-info/RECORD"
    lines = []
    for name, data in files.items():
        digest = base64.urlsafe_b64encode(hashlib.sha256(data).digest()).rstrip(b"=").decode()
        lines.append(f"{name},sha256={digest},{len(data)}\n")
    files[record] = "".join([*lines, f"{record},,\n"]).encode()
    wheel = f"{base}-py3-none-any.whl"
    with zipfile.ZipFile(Path(wheel_directory, wheel), "w", zipfile.ZIP_DEFLATED) as packed:
        for name, data in files.items():
            packed.writestr(name, data)
    return wheel


def build_sdist(sdist_directory: str, config_settings: dict[str, object] | None = None) -> str:
    """Writes the sources into a folder, and gives their name."""
    base = f"bogrunsi-{_version()}"
    with tarfile.open(Path(sdist_directory, f"{base}.tar.gz"), "w:gz") as packed:
        for name in ("bogrunsi", "build_wheel.py", "pyproject.toml", "README.md", "PROTOCOL.md"):
            packed.add(_FOLDER / name, f"{base}/{name}")
    return f"{base}.tar.gz"
