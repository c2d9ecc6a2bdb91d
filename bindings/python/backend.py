"""Builds the wheel, without a network and without other packages (PEP 517): the package with the proved library linked as a
shared object. The archive is `carried/libbalkreyn.a` of the repository, or the one that BALKREYN_ARCHIVE names."""

import base64
import hashlib
import io
import os
import platform
import subprocess
import sys
import tarfile
import tempfile
import zipfile
from pathlib import Path

HERE = Path(__file__).resolve().parent
VERSION = "0.2.0"
NAME = f"balkreyn-{VERSION}"
TAG = "py3-none-manylinux_2_17_x86_64.musllinux_1_1_x86_64"
METADATA = f"""Metadata-Version: 2.1
Name: balkreyn
Version: {VERSION}
Summary: Task scopes (structured concurrency) on asyncio, Trio and threads, whose every decision is made by a proved library
License: Apache-2.0
Requires-Python: >=3.9
Classifier: License :: OSI Approved :: Apache Software License
Classifier: Operating System :: POSIX :: Linux
Classifier: Typing :: Typed
Description-Content-Type: text/markdown

"""


def _archive():
    named = os.environ.get("BALKREYN_ARCHIVE")
    for place in [Path(named)] if named else [HERE / "libbalkreyn.a", HERE.parents[1] / "carried" / "libbalkreyn.a"]:
        if place.is_file():
            return place
    raise SystemExit(
        "balkreyn: there is no libbalkreyn.a to link. It comes with the repository, as carried/libbalkreyn.a: build there, "
        "or let BALKREYN_ARCHIVE name it"
    )


def _shared_object():
    """The library as a shared object, which exports `balkreyn_*` alone and needs no other library by name."""
    if (sys.platform, platform.machine()) != ("linux", "x86_64"):
        raise SystemExit(f"balkreyn: the library is for Linux on x86-64, and this is {sys.platform} on {platform.machine()}")
    with tempfile.TemporaryDirectory() as room:
        script, made = Path(room, "exports"), Path(room, "libbalkreyn.so")
        script.write_text("{ global: balkreyn_*; local: *; };\n")
        words = ["-shared", "-nostdlib", f"-Wl,--version-script={script}", "-Wl,--whole-archive", str(_archive())]
        compiler = os.environ.get("CC", "cc")
        try:
            subprocess.run([compiler, *words, "-Wl,--no-whole-archive", "-o", str(made)], check=True)
        except FileNotFoundError:
            raise SystemExit(f"balkreyn: linking the library needs a C compiler, and there is no {compiler}") from None
        return made.read_bytes()


def _sources():
    files = sorted(it for it in (HERE / "balkreyn").iterdir() if it.suffix == ".py" or it.name == "py.typed")
    return {f"balkreyn/{it.name}": it.read_bytes() for it in files}


def _metadata():
    return METADATA.encode() + (HERE / "README.md").read_bytes()


def _licence():
    for place in (HERE / "LICENSE", HERE.parents[1] / "LICENSE"):
        if place.is_file():
            return place.read_bytes()
    raise SystemExit("balkreyn: there is no file LICENSE")


def build_wheel(wheel_directory, config_settings=None, metadata_directory=None):
    """Writes the wheel, and gives its name."""
    files = {**_sources(), "balkreyn/libbalkreyn.so": _shared_object()}
    info = f"{NAME}.dist-info"
    files[f"{info}/METADATA"], files[f"{info}/LICENSE"] = _metadata(), _licence()
    tags = "".join(f"Tag: py3-none-{it}\n" for it in TAG.split("-")[2].split("."))
    files[f"{info}/WHEEL"] = f"Wheel-Version: 1.0\nGenerator: balkreyn\nRoot-Is-Purelib: false\n{tags}".encode()
    digest = lambda text: base64.urlsafe_b64encode(hashlib.sha256(text).digest()).rstrip(b"=").decode()  # noqa: E731
    record = "".join(f"{name},sha256={digest(text)},{len(text)}\n" for name, text in files.items())
    files[f"{info}/RECORD"] = f"{record}{info}/RECORD,,\n".encode()
    wheel = f"{NAME}-{TAG}.whl"
    with zipfile.ZipFile(Path(wheel_directory, wheel), "w", zipfile.ZIP_DEFLATED) as it:
        for name, text in files.items():
            it.writestr(zipfile.ZipInfo(name, (2026, 1, 1, 0, 0, 0)), text, zipfile.ZIP_DEFLATED)
    return wheel


def build_sdist(sdist_directory, config_settings=None):
    """Writes the sources, which need the archive when they are built, and gives their name."""
    files = {**_sources(), "PKG-INFO": _metadata(), "LICENSE": _licence()}
    files.update((name, (HERE / name).read_bytes()) for name in ("README.md", "backend.py", "pyproject.toml"))
    with tarfile.open(Path(sdist_directory, f"{NAME}.tar.gz"), "w:gz") as it:
        for name, text in files.items():
            entry = tarfile.TarInfo(f"{NAME}/{name}")
            entry.size = len(text)
            it.addfile(entry, io.BytesIO(text))
    return f"{NAME}.tar.gz"


if __name__ == "__main__":
    print(build_wheel(sys.argv[1] if len(sys.argv) > 1 else "."))
