"""Makes the wheel of this folder by the standard library alone, so that `pip install` needs no package index.

It has the hooks of PEP 517 and PEP 660 that pip calls, and makes no source archive: this folder is the source.
"""

from __future__ import annotations

import base64
import hashlib
import pathlib
import zipfile
from typing import Any, Dict, Iterator, Optional, Tuple

HERE = pathlib.Path(__file__).resolve().parent.parent
NAME, VERSION = "ccnode", "0.1.0"
INFO = f"{NAME}-{VERSION}.dist-info"
METADATA = f"""Metadata-Version: 2.1
Name: {NAME}
Version: {VERSION}
Summary: A client of ccnode, a durable node of a store-collect cluster
Requires-Python: >=3.9
Description-Content-Type: text/markdown

"""
WHEEL = """Wheel-Version: 1.0
Generator: ccnode
Root-Is-Purelib: true
Tag: py3-none-any
"""
# A file of a wheel is as old as the first moment that a zip archive can tell, so the same source gives the same bytes.
FIRST_MOMENT = (1980, 1, 1, 0, 0, 0)

Settings = Optional[Dict[str, Any]]


def build_wheel(wheel_directory: str, config_settings: Settings = None, metadata_directory: Optional[str] = None) -> str:
    """Writes a wheel that has the package, and answers its name."""
    return _write(wheel_directory, _package())


def build_editable(wheel_directory: str, config_settings: Settings = None, metadata_directory: Optional[str] = None) -> str:
    """Writes a wheel that leads to the package in this folder, and answers its name."""
    return _write(wheel_directory, iter([(f"{NAME}.pth", f"{HERE / 'src'}\n".encode())]))


def build_sdist(sdist_directory: str, config_settings: Settings = None) -> str:
    raise NotImplementedError("the folder is the source")


def _package() -> Iterator[Tuple[str, bytes]]:
    """The files of the package, and their names in a wheel."""
    source = HERE / "src"
    for path in sorted(source.joinpath(NAME).iterdir()):
        if path.suffix == ".py" or path.name == "py.typed":
            yield path.relative_to(source).as_posix(), path.read_bytes()


def _information() -> Iterator[Tuple[str, bytes]]:
    yield f"{INFO}/METADATA", METADATA.encode() + (HERE / "README.md").read_bytes()
    yield f"{INFO}/WHEEL", WHEEL.encode()


def _write(folder: str, files: Iterator[Tuple[str, bytes]]) -> str:
    name = f"{NAME}-{VERSION}-py3-none-any.whl"
    record = ""
    with zipfile.ZipFile(pathlib.Path(folder) / name, "w") as wheel:
        for path, data in (*files, *_information()):
            digest = base64.urlsafe_b64encode(hashlib.sha256(data).digest()).rstrip(b"=").decode()
            record += f"{path},sha256={digest},{len(data)}\n"
            _put(wheel, path, data)
        _put(wheel, f"{INFO}/RECORD", f"{record}{INFO}/RECORD,,\n".encode())
    return name


def _put(wheel: zipfile.ZipFile, path: str, data: bytes) -> None:
    information = zipfile.ZipInfo(path, FIRST_MOMENT)
    information.compress_type = zipfile.ZIP_DEFLATED
    information.external_attr = 0o644 << 16
    wheel.writestr(information, data)
