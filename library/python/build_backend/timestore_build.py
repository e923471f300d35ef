"""Builds the wheel of the module `timestore`, with the shared library in it where that is found.

The library is taken from the path in the environment's TIMESTORE_LIBRARY, from library/out, where `make`
builds it, or from where the module was installed with it. A wheel without one asks the system for it.
"""

import base64
import hashlib
import os
import re
import sysconfig
import tomllib
import zipfile
from pathlib import Path

HERE = Path(__file__).resolve().parents[1]
PACKAGE = HERE / "timestore"
LIBRARY = "libtimestore.so.1"
# The time of all files in a wheel, so that the same files make the same wheel.
MOMENT = (1980, 1, 1, 0, 0, 0)


def version() -> str:
    found = re.search(r'^__version__ = "(.+)"$', (PACKAGE / "__init__.py").read_text(), re.M)
    assert found, "the module has no version"
    return found[1]


def shared_library() -> Path | None:
    named = os.environ.get("TIMESTORE_LIBRARY")
    places = [Path(named)] if named else [HERE / "../out" / LIBRARY, HERE / "../../../lib" / LIBRARY]
    return next((place for place in places if place.is_file()), None)


def tag(library: Path | None) -> str:
    platform = re.sub(r"[-.]", "_", sysconfig.get_platform()) if library else "any"
    return f"py3-none-{platform}"


def metadata() -> str:
    project = tomllib.loads((HERE / "pyproject.toml").read_text())["project"]
    lines = [
        "Metadata-Version: 2.1",
        f"Name: {project['name']}",
        f"Version: {version()}",
        f"Summary: {project['description']}",
        f"Requires-Python: {project['requires-python']}",
        *(f"Classifier: {classifier}" for classifier in project["classifiers"]),
    ]
    return "\n".join(lines) + "\n"


def contents(library: Path | None) -> dict[str, bytes]:
    """The files of the wheel but its list of them."""
    info = f"timestore-{version()}.dist-info"
    files = {f"timestore/{path.name}": path.read_bytes() for path in sorted(PACKAGE.glob("*.py"))}
    files["timestore/py.typed"] = b""
    if library:
        files[f"timestore/{LIBRARY}"] = library.read_bytes()
    files[f"{info}/METADATA"] = metadata().encode()
    pure = "false" if library else "true"
    wheel = f"Wheel-Version: 1.0\nGenerator: timestore_build\nRoot-Is-Purelib: {pure}\nTag: {tag(library)}\n"
    files[f"{info}/WHEEL"] = wheel.encode()
    return files


def record(files: dict[str, bytes]) -> str:
    def line(name: str) -> str:
        digest = base64.urlsafe_b64encode(hashlib.sha256(files[name]).digest()).rstrip(b"=")
        return f"{name},sha256={digest.decode()},{len(files[name])}\n"

    return "".join(map(line, files)) + f"timestore-{version()}.dist-info/RECORD,,\n"


def build_wheel(wheel_directory: str, config_settings: object = None, metadata_directory: object = None) -> str:
    library = shared_library()
    files = contents(library)
    files[f"timestore-{version()}.dist-info/RECORD"] = record(files).encode()
    name = f"timestore-{version()}-{tag(library)}.whl"
    with zipfile.ZipFile(Path(wheel_directory) / name, "w", zipfile.ZIP_DEFLATED) as wheel:
        for path, content in files.items():
            entry = zipfile.ZipInfo(path, MOMENT)
            entry.external_attr = 0o644 << 16
            wheel.writestr(entry, content, zipfile.ZIP_DEFLATED)
    return name
