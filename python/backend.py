"""Builds the wheel of the module, with nothing but Python's own library, so that an installation asks the network for nothing.

The shared library goes into the wheel, beside the module: the one that DEZGULA_LIBRARY names, else that of the project around this folder, which is built for it.
Where there is none, the wheel has the module only, and that is said: it then takes the library of the system.
"""

from __future__ import annotations

import base64
import hashlib
import os
import pathlib
import re
import subprocess
import sys
import tarfile
import zipfile

HERE = pathlib.Path(__file__).resolve().parent
NAME = "libdezgula.so.2"


def _field(name: str) -> str:
    return re.search(rf'^{name} = "(.*)"$', (HERE / "pyproject.toml").read_text(), re.M).group(1)


NAMED = f"{_field('name')}-{_field('version')}"


def _metadata() -> str:
    return "\n".join(
        [
            "Metadata-Version: 2.1",
            f"Name: {_field('name')}",
            f"Version: {_field('version')}",
            f"Summary: {_field('description')}",
            f"Requires-Python: {_field('requires-python')}",
            "Description-Content-Type: text/markdown",
            "",
            (HERE / "README.md").read_text(),
        ]
    )


def _library() -> pathlib.Path | None:
    given = os.environ.get("DEZGULA_LIBRARY")
    if given:
        path = pathlib.Path(given)
        path = path / NAME if path.is_dir() else path
        if not path.is_file():
            raise SystemExit(f"dezgula: DEZGULA_LIBRARY is {given}, where there is no {NAME}")
        return path
    project = HERE.parent
    if (project / "library" / "build").is_file() and subprocess.run([project / "library" / "build"], stdout=sys.stderr).returncode != 0:
        print("dezgula: library/build did not build the library", file=sys.stderr)
    path = project / "target" / "library" / NAME
    if path.is_file():
        return path
    print("dezgula: there is no shared library to install with the module, which will take that of the system", file=sys.stderr)
    return None


def _wheel(folder: str, files: dict[str, bytes], tag: str) -> str:
    info = f"{NAMED}.dist-info"
    files[f"{info}/METADATA"] = _metadata().encode()
    files[f"{info}/WHEEL"] = f"Wheel-Version: 1.0\nGenerator: dezgula\nRoot-Is-Purelib: {str(tag.endswith('any')).lower()}\nTag: {tag}\n".encode()
    digest = {name: base64.urlsafe_b64encode(hashlib.sha256(content).digest()).rstrip(b"=").decode() for name, content in files.items()}
    lines = [f"{name},sha256={digest[name]},{len(content)}" for name, content in files.items()] + [f"{info}/RECORD,,"]
    files[f"{info}/RECORD"] = ("\n".join(lines) + "\n").encode()
    wheel = f"{NAMED}-{tag}.whl"
    with zipfile.ZipFile(os.path.join(folder, wheel), "w", zipfile.ZIP_DEFLATED) as out:
        for name, content in files.items():
            out.writestr(name, content)
    return wheel


def build_wheel(wheel_directory: str, config_settings: dict | None = None, metadata_directory: str | None = None) -> str:
    files = {f"dezgula/{path.name}": path.read_bytes() for path in sorted((HERE / "dezgula").iterdir()) if path.suffix == ".py" or path.name == "py.typed"}
    library = _library()
    if library is None:
        return _wheel(wheel_directory, files, "py3-none-any")
    files[f"dezgula/{NAME}"] = library.read_bytes()
    return _wheel(wheel_directory, files, "py3-none-linux_x86_64")


def build_editable(wheel_directory: str, config_settings: dict | None = None, metadata_directory: str | None = None) -> str:
    return _wheel(wheel_directory, {"dezgula.pth": f"{HERE}\n".encode()}, "py3-none-any")


def build_sdist(sdist_directory: str, config_settings: dict | None = None) -> str:
    name = f"{NAMED}.tar.gz"
    with tarfile.open(os.path.join(sdist_directory, name), "w:gz", format=tarfile.PAX_FORMAT) as out:
        for path in ["pyproject.toml", "backend.py", "README.md", "dezgula", "tests"]:
            out.add(HERE / path, f"{NAMED}/{path}", filter=lambda entry: None if "__pycache__" in entry.name else entry)
    return name
