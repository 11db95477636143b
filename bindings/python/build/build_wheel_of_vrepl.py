"""Builds the wheel of the module `vrepl` (PEP 517): the module with the recorder's writers of messages, the program of these
sources, and the library where `./release --library` has built it; and the archive of what it builds that from. Needs the
standard library alone; the same files give the same bytes."""
import base64
import gzip
import hashlib
import io
import os
import re
import shutil
import stat
import subprocess
import tarfile
import zipfile

ROOT = os.path.dirname(os.path.dirname(os.path.dirname(os.path.dirname(os.path.abspath(__file__)))))
MODULE = os.path.join(ROOT, "bindings", "python", "vrepl")
WRITERS = os.path.join(ROOT, "record", "recorder", "wire.py")
LIBRARY = os.path.join(ROOT, "out", "library", "libvrepl.so")
CARRIED = os.path.join(ROOT, "dist", "vrepl-x86_64-linux")


def _stated():
    """The lines of pyproject.toml that this builder reads: the name's version, description and entry points."""
    with open(os.path.join(ROOT, "pyproject.toml"), encoding="utf-8") as file:
        text = file.read()
    value = lambda name: re.search(rf'^{name} = "(.*)"$', text, re.M)[1]  # noqa: E731
    points = re.findall(r'^\[project\.entry-points\.(\w+)\]\n((?:\w+ = ".*"\n?)+)', text, re.M)
    return value("version"), value("description"), value("requires-python"), points


def _program():
    """The program of these sources, where it is known which one that is, else the one in dist/."""
    finder = os.path.join(ROOT, "scripts", "program")
    if os.access(finder, os.X_OK) and shutil.which("bash"):
        found = subprocess.run([finder], stdout=subprocess.PIPE, text=True, check=False)
        if found.returncode == 0:
            return os.path.join(ROOT, found.stdout.strip())
    return CARRIED


def _files():
    """Each file of the wheel: its name there, its bytes, and whether it is run."""
    for name in sorted(os.listdir(MODULE)):
        if name.endswith((".py", ".typed")):
            yield f"vrepl/{name}", os.path.join(MODULE, name), False
    yield "vrepl/wire.py", WRITERS, False
    yield "vrepl/vrepl", _program(), True
    if os.path.exists(LIBRARY):
        yield "vrepl/libvrepl.so", LIBRARY, False


def _metadata():
    version, description, python, _ = _stated()
    lines = ["Metadata-Version: 2.1", "Name: vrepl", f"Version: {version}", f"Summary: {description}", "License: Apache-2.0", f"Requires-Python: {python}"]
    return "\n".join(lines) + "\n"


def _said_of():
    points = _stated()[3]
    entries = "".join(f"[{group}]\n{rows.strip()}\n".replace('"', "") for group, rows in points)
    tag = "Wheel-Version: 1.0\nGenerator: vrepl\nRoot-Is-Purelib: false\nTag: py3-none-linux_x86_64\n"
    return {"METADATA": _metadata(), "WHEEL": tag, "entry_points.txt": entries}


def _sources():
    """Each file of which a wheel is built: its name in the checkout, its place, and whether it is run."""
    for name in "pyproject.toml", "LICENSE", os.path.relpath(os.path.abspath(__file__), ROOT):
        yield name, os.path.join(ROOT, name), False
    for name, place, is_run in _files():
        elsewhere = {"vrepl/wire.py": WRITERS, "vrepl/vrepl": CARRIED, "vrepl/libvrepl.so": LIBRARY}
        yield os.path.relpath(elsewhere.get(name, os.path.join(ROOT, "bindings", "python", name)), ROOT), place, is_run


def get_requires_for_build_sdist(config_settings=None):
    return []


def build_sdist(sdist_directory, config_settings=None):
    top = f"vrepl-{_stated()[0]}"
    with open(os.path.join(sdist_directory, f"{top}.tar.gz"), "wb") as file, gzip.GzipFile("", "wb", fileobj=file, mtime=0) as zipped:
        with tarfile.open(fileobj=zipped, mode="w", format=tarfile.PAX_FORMAT) as archive:

            def put(name, content, is_run=False):
                entry = tarfile.TarInfo(f"{top}/{name}")
                entry.size, entry.mode = len(content), 0o755 if is_run else 0o644
                archive.addfile(entry, io.BytesIO(content))

            put("PKG-INFO", _metadata().encode())
            for name, place, is_run in sorted(_sources()):
                with open(place, "rb") as source:
                    put(name, source.read(), is_run)
    return f"{top}.tar.gz"


def get_requires_for_build_wheel(config_settings=None):
    return []


def build_wheel(wheel_directory, config_settings=None, metadata_directory=None):
    version = _stated()[0]
    name, record = f"vrepl-{version}-py3-none-linux_x86_64.whl", []
    with zipfile.ZipFile(os.path.join(wheel_directory, name), "w", zipfile.ZIP_DEFLATED) as wheel:

        def put(path, content, is_run=False):
            entry = zipfile.ZipInfo(path)
            entry.compress_type, entry.external_attr = zipfile.ZIP_DEFLATED, (stat.S_IFREG | (0o755 if is_run else 0o644)) << 16
            wheel.writestr(entry, content)
            digest = base64.urlsafe_b64encode(hashlib.sha256(content).digest()).rstrip(b"=").decode()
            record.append(f"{path},sha256={digest},{len(content)}\n")

        for path, place, is_run in _files():
            with open(place, "rb") as file:
                put(path, file.read(), is_run)
        info = f"vrepl-{version}.dist-info"
        for part, text in _said_of().items():
            put(f"{info}/{part}", text.encode())
        wheel.writestr(zipfile.ZipInfo(f"{info}/RECORD"), "".join(record) + f"{info}/RECORD,,\n")
    return name
