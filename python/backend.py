"""Builds the wheel of this package (PEP 517, PEP 427), with nothing but Python's own library, so that pip asks no network.

The wheel holds libopalport.so.0: that of the folder which OPALPORT_LIB names, else that which ./build left in target/, else
that which pkg-config finds.
"""
import base64
import hashlib
import io
import os
import re
import subprocess
import sysconfig
import tarfile
import zipfile

HERE = os.path.dirname(os.path.abspath(__file__))
LIBRARY = "libopalport.so.0"
SOURCES = ["opalport/__init__.py", "opalport/py.typed"]
TIME = (1980, 1, 1, 0, 0, 0)


def _project():
    """The fields of pyproject.toml that are texts."""
    with open(os.path.join(HERE, "pyproject.toml"), encoding="utf-8") as it:
        return dict(re.findall(r'^([\w-]+) = (?:\{ text = )?"([^"]*)"', it.read(), re.M))


def _metadata(project):
    lines = ["Metadata-Version: 2.1", f"Name: {project['name']}", f"Version: {project['version']}"]
    lines += [f"Summary: {project['description']}", f"License: {project['license']}"]
    return "\n".join([*lines, f"Requires-Python: {project['requires-python']}", ""]).encode()


def _told_by_pkg_config():
    try:
        words = [os.environ.get("PKG_CONFIG", "pkg-config"), "--variable=libdir", "opalport"]
        return subprocess.run(words, stdout=subprocess.PIPE, stderr=subprocess.DEVNULL, text=True, check=True).stdout.strip()
    except (OSError, subprocess.CalledProcessError):
        return ""


def _library():
    """The bytes of the library."""
    named = os.environ.get("OPALPORT_LIB")
    folders = [named] if named else [os.path.join(HERE, "..", "target"), _told_by_pkg_config()]
    for folder in folders:
        path = os.path.join(folder, LIBRARY)
        if folder and os.path.isfile(path):
            with open(path, "rb") as it:
                return it.read()
    raise RuntimeError(f"{LIBRARY} is not there: run ./build, or name its folder by OPALPORT_LIB")


def _read(name):
    with open(os.path.join(HERE, name), "rb") as it:
        return it.read()


def build_wheel(wheel_directory, config_settings=None, metadata_directory=None):
    project = _project()
    tag = f"py3-none-{re.sub('[-.]', '_', sysconfig.get_platform())}"
    stem = f"{project['name']}-{project['version']}"
    info = f"{stem}.dist-info"
    files = {name: _read(name) for name in SOURCES}
    files[f"opalport/{LIBRARY}"] = _library()
    files[f"{info}/METADATA"] = _metadata(project)
    files[f"{info}/WHEEL"] = f"Wheel-Version: 1.0\nGenerator: opalport\nRoot-Is-Purelib: false\nTag: {tag}\n".encode()
    record = ""
    for name, data in files.items():
        digest = base64.urlsafe_b64encode(hashlib.sha256(data).digest()).rstrip(b"=").decode()
        record += f"{name},sha256={digest},{len(data)}\n"
    files[f"{info}/RECORD"] = f"{record}{info}/RECORD,,\n".encode()
    wheel = f"{stem}-{tag}.whl"
    with zipfile.ZipFile(os.path.join(wheel_directory, wheel), "w", zipfile.ZIP_DEFLATED) as it:
        for name, data in files.items():
            about = zipfile.ZipInfo(name, TIME)
            about.external_attr, about.compress_type = 0o100644 << 16, zipfile.ZIP_DEFLATED
            it.writestr(about, data)
    return wheel


def build_sdist(sdist_directory, config_settings=None):
    project = _project()
    stem = f"{project['name']}-{project['version']}"
    files = {name: _read(name) for name in ["pyproject.toml", "backend.py", *SOURCES]}
    files["PKG-INFO"] = _metadata(project)
    with tarfile.open(os.path.join(sdist_directory, f"{stem}.tar.gz"), "w:gz", format=tarfile.PAX_FORMAT) as it:
        for name, data in files.items():
            about = tarfile.TarInfo(f"{stem}/{name}")
            about.size = len(data)
            it.addfile(about, io.BytesIO(data))
    return f"{stem}.tar.gz"
