"""Builds the wheel of dcd with the standard library alone, so that pip needs no network: it is its files and three of metadata."""
import base64
import hashlib
import os
import re
import zipfile

HERE = os.path.dirname(os.path.abspath(__file__))
with open(os.path.join(HERE, "pyproject.toml"), encoding="utf-8") as file:
    VERSION = re.search(r'^version = "(.*)"$', file.read(), re.M)[1]
INFO = f"dcd-{VERSION}.dist-info"
METADATA = f"Metadata-Version: 2.1\nName: dcd\nVersion: {VERSION}\nSummary: A proved Dynamic Capacity Device of CXL 3.1\nRequires-Python: >=3.8\n"
WHEEL = "Wheel-Version: 1.0\nGenerator: wheel_of_dcd\nRoot-Is-Purelib: true\nTag: py3-none-any\n"


def wheel(folder, files):
    """Writes a wheel of these files, by name, into the folder, and answers its name."""
    name = f"dcd-{VERSION}-py3-none-any.whl"
    files = {**files, f"{INFO}/METADATA": METADATA.encode(), f"{INFO}/WHEEL": WHEEL.encode()}
    record = f"{INFO}/RECORD"
    lines = []
    with zipfile.ZipFile(os.path.join(folder, name), "w", zipfile.ZIP_DEFLATED) as archive:
        for path, data in files.items():
            archive.writestr(path, data)
            digest = base64.urlsafe_b64encode(hashlib.sha256(data).digest()).rstrip(b"=").decode()
            lines.append(f"{path},sha256={digest},{len(data)}\n")
        archive.writestr(record, "".join(lines) + f"{record},,\n")
    return name


def build_wheel(wheel_directory, config_settings=None, metadata_directory=None):
    files = {}
    for name in sorted(os.listdir(os.path.join(HERE, "dcd"))):
        if name.endswith(".py") or name == "py.typed":
            with open(os.path.join(HERE, "dcd", name), "rb") as source:
                files[f"dcd/{name}"] = source.read()
    return wheel(wheel_directory, files)


def build_editable(wheel_directory, config_settings=None, metadata_directory=None):
    return wheel(wheel_directory, {"dcd.pth": HERE.encode() + b"\n"})


def build_sdist(sdist_directory, config_settings=None):
    raise NotImplementedError("dcd is installed from its folder")
