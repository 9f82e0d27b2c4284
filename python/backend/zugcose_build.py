"""Builds the wheel of this package, a zip of its files and of what describes them, with the standard library alone (PEP 427, 517 and 660)."""

import base64
import hashlib
import io
import re
import tarfile
import zipfile
from pathlib import Path

TOP = Path(__file__).resolve().parent.parent
VERSION = re.search(r'^__version__ = "(.*)"$', (TOP / "zugcose" / "__init__.py").read_text(), re.MULTILINE)[1]
NAME = f"zugcose-{VERSION}"
WHEEL = f"{NAME}-py3-none-any.whl"
ABOUT = f"""Metadata-Version: 2.1
Name: zugcose
Version: {VERSION}
Summary: An embedded column store with nested tables, driven through the program mkshell
License: MIT
Requires-Python: >=3.9
Description-Content-Type: text/markdown

"""
KIND = """Wheel-Version: 1.0
Generator: zugcose_build
Root-Is-Purelib: true
Tag: py3-none-any
"""


def build_wheel(folder, config_settings=None, metadata_directory=None):
    return write_wheel(folder, {name: (TOP / name).read_bytes() for name in files("zugcose")})


def build_editable(folder, config_settings=None, metadata_directory=None):
    """The wheel has a line that leads to this folder."""
    return write_wheel(folder, {"zugcose.pth": f"{TOP}\n".encode()})


def build_sdist(folder, config_settings=None):
    with tarfile.open(Path(folder) / f"{NAME}.tar.gz", "w:gz") as out:
        for name in ["pyproject.toml", "README.md", *files("zugcose"), *files("backend")]:
            out.add(TOP / name, f"{NAME}/{name}")
        about = tarfile.TarInfo(f"{NAME}/PKG-INFO")
        about.size = len(described())
        out.addfile(about, io.BytesIO(described()))
    return f"{NAME}.tar.gz"


def files(part):
    return sorted(path.relative_to(TOP).as_posix() for path in (TOP / part).iterdir() if path.suffix == ".py" or path.name == "py.typed")


def described():
    return (ABOUT + (TOP / "README.md").read_text()).encode()


def write_wheel(folder, members):
    about = f"{NAME}.dist-info"
    members = {**members, f"{about}/METADATA": described(), f"{about}/WHEEL": KIND.encode()}
    record = "".join(f"{name},{digest(data)},{len(data)}\n" for name, data in members.items()) + f"{about}/RECORD,,\n"
    with zipfile.ZipFile(Path(folder) / WHEEL, "w", zipfile.ZIP_DEFLATED) as out:
        for name, data in {**members, f"{about}/RECORD": record.encode()}.items():
            out.writestr(name, data)
    return WHEEL


def digest(data):
    return "sha256=" + base64.urlsafe_b64encode(hashlib.sha256(data).digest()).decode().rstrip("=")
