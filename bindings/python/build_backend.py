"""Builds the package for pip, with nothing but Python: so `pip install` needs no network.

The functions are those of PEP 517 and PEP 660. A wheel is an archive of the package's files, of the
extension if it can be compiled, and of three files that describe it. Run as a program, this file
compiles the extension in place: `python3 build_backend.py`.
"""

import base64
import hashlib
import io
import re
import sys
import tarfile
import tempfile
import zipfile
from pathlib import Path

import build_extension

HERE = Path(__file__).resolve().parent
PACKAGE = HERE / "seryugo"
VERSION = re.search(r'^__version__ = "(.+)"$', (PACKAGE / "_version.py").read_text(), re.M).group(1)
NAME = f"seryugo-{VERSION}"
PURE = "py3-none-any"
# Of the package's files, beside the extension: sources, stubs and py.typed.
SUFFIXES = (".py", ".pyi", ".typed")


def metadata():
    """Return what pip shows of the package, with its page."""
    head = {
        "Metadata-Version": "2.1",
        "Name": "seryugo",
        "Version": VERSION,
        "Summary": "Mailboxes, channels and variables for threads, by a library that is proved",
        "Requires-Python": ">=3.8",
        "Description-Content-Type": "text/markdown",
    }
    lines = [f"{key}: {value}\n" for key, value in head.items()]
    return "".join(lines) + "\n" + (HERE / "README.md").read_text(encoding="utf-8")


def files():
    """Return the package's files, by their names in a wheel."""
    found = [path for path in sorted(PACKAGE.iterdir()) if path.suffix in SUFFIXES]
    return {f"seryugo/{path.name}": path.read_bytes() for path in found}


def extension():
    """Return the extension, by its name in a wheel, or nothing if it can't be compiled."""
    with tempfile.TemporaryDirectory() as folder:
        path = build_extension.compiled(folder, VERSION)
        return {f"seryugo/{path.name}": path.read_bytes()} if path else {}


def described(tag):
    """Return the files that describe a wheel of this tag, by their names in it."""
    about = {
        "Wheel-Version": "1.0",
        "Generator": "build_backend (seryugo)",
        "Root-Is-Purelib": str(tag == PURE).lower(),
        "Tag": tag,
    }
    lines = "".join(f"{key}: {value}\n" for key, value in about.items())
    texts = {"METADATA": metadata(), "WHEEL": lines}
    return {f"{NAME}.dist-info/{name}": text.encode() for name, text in texts.items()}


def written(folder, contents, tag):
    """Write a wheel of these files and of those that describe it, and return its name."""
    record = f"{NAME}.dist-info/RECORD"
    file = f"{NAME}-{tag}.whl"
    lines = []
    with zipfile.ZipFile(Path(folder) / file, "w", zipfile.ZIP_DEFLATED) as wheel:
        for name, data in {**contents, **described(tag)}.items():
            digest = base64.urlsafe_b64encode(hashlib.sha256(data).digest()).rstrip(b"=").decode()
            lines.append(f"{name},sha256={digest},{len(data)}\n")
            wheel.writestr(name, data)
        wheel.writestr(record, "".join(lines) + f"{record},,\n")
    return file


def build_wheel(wheel_directory, config_settings=None, metadata_directory=None):
    """Write a wheel of the package."""
    compiled = extension()
    tag = build_extension.tag() if compiled else PURE
    return written(wheel_directory, {**files(), **compiled}, tag)


def build_editable(wheel_directory, config_settings=None, metadata_directory=None):
    """Write a wheel that leads to this folder, for `pip install --editable`."""
    build_extension.compiled(PACKAGE, VERSION)
    return written(wheel_directory, {"seryugo.pth": f"{HERE}\n".encode()}, PURE)


def build_sdist(sdist_directory, config_settings=None):
    """Write an archive of what a wheel is built from."""
    kinds = ("README.md", "pyproject.toml", "*.py", "fast/*")
    sources = [path for kind in kinds for path in sorted(HERE.glob(kind))]
    contents = {str(path.relative_to(HERE)): path.read_bytes() for path in sources}
    contents.update({**files(), "PKG-INFO": metadata().encode()})
    with tarfile.open(Path(sdist_directory) / f"{NAME}.tar.gz", "w:gz") as archive:
        for name, data in contents.items():
            entry = tarfile.TarInfo(f"{NAME}/{name}")
            entry.size = len(data)
            archive.addfile(entry, io.BytesIO(data))
    return f"{NAME}.tar.gz"


def main():
    """Compile the extension in place, and name it."""
    path = build_extension.compiled(PACKAGE, VERSION)
    if path is None:
        sys.exit(1)
    print(path)


if __name__ == "__main__":
    main()
