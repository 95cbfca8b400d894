"""Builds the package, by Python's own modules alone: pip calls it (PEP 517 and 660), so `pip install .` needs no network.

The wheel has the modules and the shared library: that which GIXCFG_LIBRARY names, else the one that `make lib` put into out/lib. Where
there is none, and `make install-lib` or a package of Debian's put one where the system finds it, the wheel has the modules alone. That of an
editable installation has just the path of this directory, and the source distribution has no library. Two builds of the same files are the
same bytes.
"""
import base64
import ctypes
import gzip
import hashlib
import io
import os
import re
import tarfile
import zipfile
from pathlib import Path
from typing import IO, Any, Dict, List, Optional, Tuple, cast

HERE = Path(__file__).resolve().parent
CLONE = HERE.parent.parent
PACKAGE = "gixcfg"
LIBRARY = "libgix_config.so.0"
TAG = "py3-none-linux_x86_64"

Files = List[Tuple[str, bytes]]


def version() -> str:
    """The version, which stands in the package."""
    found = re.search(r'^__version__ = "(.+)"$', (HERE / PACKAGE / "__init__.py").read_text(encoding="utf-8"), re.M)
    assert found
    return found[1]


def said(name: str) -> List[str]:
    """The texts that pyproject.toml has for a name of `[project]`."""
    found = re.search(rf"^{name} = (.+?)^(?=\S)(?!\])", (HERE / "pyproject.toml").read_text(encoding="utf-8") + "\n[end]\n", re.M | re.S)
    assert found
    return re.findall(r'"([^"]*)"', found[1])


def beside(name: str, in_clone: str) -> Files:
    """A file that lies in the clone, or beside this one in a source distribution; none where this directory stands alone."""
    found = [it for it in (HERE / name, CLONE / in_clone) if it.is_file()]
    return [(name, it.read_bytes()) for it in found[:1]]


def readme() -> Files:
    return beside("README.md", "docs/python.md")


def licences() -> Files:
    return [it for name in ("LICENSE-APACHE", "LICENSE-MIT") for it in beside(name, name)]


def metadata() -> bytes:
    lines = ["Metadata-Version: 2.1", f"Name: {PACKAGE}", f"Version: {version()}", f"Summary: {said('description')[0]}",
             f"License: {said('license')[0]}", *(f"License-File: {name}" for name, _text in licences()), f"Keywords: {','.join(said('keywords'))}",
             *(f"Classifier: {it}" for it in said("classifiers")), f"Requires-Python: {said('requires-python')[0]}",
             "Description-Content-Type: text/markdown", "", ""]
    return "\n".join(lines).encode() + b"".join(text for _name, text in readme())


def is_installed() -> bool:
    """Whether the system finds the library by its soname."""
    try:
        ctypes.CDLL(LIBRARY)
    except OSError:
        return False
    return True


def library() -> Files:
    """The shared library that goes into the wheel; none where the system's is to be used."""
    named = os.environ.get("GIXCFG_LIBRARY")
    found = Path(named or CLONE / "out/lib" / LIBRARY)
    if found.is_file():
        return [(f"{PACKAGE}/{LIBRARY}", found.read_bytes())]
    if named or not is_installed():
        raise SystemExit(f"gixcfg: no library is at {found}: `make lib` makes it, and `make install-lib` installs it")
    return []


def modules() -> Files:
    return [(f"{PACKAGE}/{it.name}", it.read_bytes()) for it in sorted((HERE / PACKAGE).iterdir()) if it.suffix == ".py" or it.name == "py.typed"]


def recorded(path: str, content: bytes) -> str:
    """The line of the record for a file."""
    digest = base64.urlsafe_b64encode(hashlib.sha256(content).digest()).rstrip(b"=").decode()
    return f"{path},sha256={digest},{len(content)}\n"


def put_wheel(directory: str, content: Files) -> str:
    """Puts a wheel of these files into a directory, and returns its name."""
    info = f"{PACKAGE}-{version()}.dist-info"
    kind = f"Wheel-Version: 1.0\nGenerator: {PACKAGE}\nRoot-Is-Purelib: false\nTag: {TAG}\n"
    packed = [*content, *((f"{info}/{name}", text) for name, text in licences()), (f"{info}/METADATA", metadata()),
              (f"{info}/WHEEL", kind.encode())]
    record = f"{info}/RECORD"
    packed.append((record, ("".join(recorded(*it) for it in packed) + f"{record},,\n").encode()))
    name = f"{PACKAGE}-{version()}-{TAG}.whl"
    with zipfile.ZipFile(Path(directory) / name, "w") as wheel:
        for path, text in packed:
            # (of no time, so that each build is the same)
            entry = zipfile.ZipInfo(path)
            entry.external_attr = 0o644 << 16
            wheel.writestr(entry, text, zipfile.ZIP_DEFLATED)
    return name


def build_wheel(wheel_directory: str, config_settings: Optional[Dict[str, Any]] = None, metadata_directory: Optional[str] = None) -> str:
    """Puts the wheel into a directory, and returns its name."""
    return put_wheel(wheel_directory, [*modules(), *library()])


def build_editable(wheel_directory: str, config_settings: Optional[Dict[str, Any]] = None, metadata_directory: Optional[str] = None) -> str:
    """Puts the wheel of an editable installation into a directory, and returns its name. The package then runs from this directory, with the
    library of out/lib."""
    return put_wheel(wheel_directory, [(f"__editable__.{PACKAGE}.pth", f"{HERE}\n".encode())])


def build_sdist(sdist_directory: str, config_settings: Optional[Dict[str, Any]] = None) -> str:
    """Puts the source distribution into a directory, and returns its name."""
    top = f"{PACKAGE}-{version()}"
    own = [(name, (HERE / name).read_bytes()) for name in ("pyproject.toml", "build_wheel.py")]
    tests = [(f"tests/{it.name}", it.read_bytes()) for it in sorted((HERE / "tests").glob("*.py"))]
    with open(Path(sdist_directory) / f"{top}.tar.gz", "wb") as file, gzip.GzipFile("", "wb", mtime=0, fileobj=file) as packed:
        with tarfile.open(fileobj=cast(IO[bytes], packed), mode="w", format=tarfile.PAX_FORMAT) as archive:
            for name, text in [*own, *modules(), *tests, *licences(), *readme(), ("PKG-INFO", metadata())]:
                entry = tarfile.TarInfo(f"{top}/{name}")
                entry.size, entry.mode = len(text), 0o644
                archive.addfile(entry, io.BytesIO(text))
    return f"{top}.tar.gz"
