"""Builds the wheel of pfx_drive for pip, by PEP 517 and with Python's standard library alone: a wheel is a zip file with a list of its files."""
import base64
import hashlib
import io
import os
import re
import tarfile
import zipfile

TOP = os.path.dirname(os.path.dirname(os.path.abspath(__file__)))
FILES = (".py", ".html", ".js")


def told(key):
    """A value of pyproject.toml that is a text on one line."""
    with open(os.path.join(TOP, "pyproject.toml"), encoding="utf-8") as it:
        return re.search(rf'^{key} = "(.*)"', it.read(), re.M)[1]


def name():
    return f"pfx_drive-{told('version')}"


def metadata():
    return (f"Metadata-Version: 2.1\nName: pfx-drive\nVersion: {told('version')}\nSummary: {told('description')}\n"
            f"Requires-Python: {told('requires-python')}\nLicense: {told('license')}\n")


def package():
    """The files of the package, each with what it holds."""
    folder = os.path.join(TOP, "pfx_drive")
    for each in sorted(os.listdir(folder)):
        if each.endswith(FILES):
            with open(os.path.join(folder, each), "rb") as it:
                yield f"pfx_drive/{each}", it.read()


def about():
    info = f"{name()}.dist-info"
    yield f"{info}/METADATA", metadata().encode()
    yield f"{info}/WHEEL", b"Wheel-Version: 1.0\nGenerator: pfx_backend\nRoot-Is-Purelib: true\nTag: py3-none-any\n"
    yield f"{info}/entry_points.txt", f"[console_scripts]\npfx-drive = {told('pfx-drive')}\n".encode()


def write_wheel(folder, files):
    path = f"{name()}-py3-none-any.whl"
    record = f"{name()}.dist-info/RECORD"
    lines = []
    with zipfile.ZipFile(os.path.join(folder, path), "w", zipfile.ZIP_DEFLATED) as wheel:
        for file, text in files:
            digest = base64.urlsafe_b64encode(hashlib.sha256(text).digest()).rstrip(b"=").decode()
            lines.append(f"{file},sha256={digest},{len(text)}\n")
            wheel.writestr(zipfile.ZipInfo(file, (2026, 1, 1, 0, 0, 0)), text)
        wheel.writestr(record, "".join(lines) + f"{record},,\n")
    return path


def build_wheel(wheel_directory, config_settings=None, metadata_directory=None):
    return write_wheel(wheel_directory, [*package(), *about()])


def build_editable(wheel_directory, config_settings=None, metadata_directory=None):
    return write_wheel(wheel_directory, [("pfx_drive.pth", f"{TOP}\n".encode()), *about()])


def build_sdist(sdist_directory, config_settings=None):
    path = f"{name()}.tar.gz"
    with tarfile.open(os.path.join(sdist_directory, path), "w:gz") as it:
        for file in ("pyproject.toml", "backend/pfx_backend.py"):
            it.add(os.path.join(TOP, file), f"{name()}/{file}")
        for file, text in [*package(), ("PKG-INFO", metadata().encode())]:
            told_of = tarfile.TarInfo(f"{name()}/{file}")
            told_of.size = len(text)
            it.addfile(told_of, io.BytesIO(text))
    return path
