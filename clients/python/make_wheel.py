"""Makes the wheel that pip installs: one module and its metadata. So an installation fetches nothing."""

from __future__ import annotations

import base64
import hashlib
import re
import zipfile
from pathlib import Path
from typing import Dict, Optional

HERE = Path(__file__).resolve().parent


def project(field: str) -> str:
    """A field of the project's table."""
    found = re.search(rf'^{field} = "(.*)"$', (HERE / "pyproject.toml").read_text(), re.MULTILINE)
    assert found is not None, field
    return found[1]


def metadata() -> str:
    """What a package index shows of the project, its first page included."""
    lines = [
        "Metadata-Version: 2.1",
        f"Name: {project('name')}",
        f"Version: {project('version')}",
        f"Summary: {project('description')}",
        f"Requires-Python: {project('requires-python')}",
        "Description-Content-Type: text/markdown",
    ]
    return "\n".join(lines) + "\n\n" + (HERE / "README.md").read_text()


def record(files: Dict[str, bytes], listing: str) -> bytes:
    """The list of the files with their digests, itself at the end."""
    rows = []
    for name, data in files.items():
        digest = base64.urlsafe_b64encode(hashlib.sha256(data).digest()).rstrip(b"=").decode()
        rows.append(f"{name},sha256={digest},{len(data)}")
    return ("\n".join([*rows, f"{listing},,"]) + "\n").encode()


def build_wheel(
    wheel_directory: str,
    config_settings: Optional[Dict[str, str]] = None,
    metadata_directory: Optional[str] = None,
) -> str:
    """Writes the wheel into the directory, and gives its name, as pip asks of a build backend."""
    base = f"{project('name')}-{project('version')}"
    info = f"{base}.dist-info"
    files = {
        "densewh.py": (HERE / "densewh.py").read_bytes(),
        f"{info}/METADATA": metadata().encode(),
        f"{info}/WHEEL": b"Wheel-Version: 1.0\nGenerator: make_wheel\nRoot-Is-Purelib: true\nTag: py3-none-any\n",
    }
    files[f"{info}/RECORD"] = record(files, f"{info}/RECORD")
    name = f"{base}-py3-none-any.whl"
    with zipfile.ZipFile(Path(wheel_directory) / name, "w", zipfile.ZIP_DEFLATED) as wheel:
        for file, data in files.items():
            wheel.writestr(file, data)
    return name
