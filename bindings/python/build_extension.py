"""Compiles the extension `seryugo._fast`, if this Python can have it.

It needs a C compiler, which is `cc` unless `CC` names another, and the headers of CPython 3.10 or
later. `CFLAGS` has more words for the compiler. If `SERYUGO_PURE_PYTHON` isn't empty, it is left
out.
"""

import os
import shlex
import shutil
import subprocess
import sys
import sysconfig
from pathlib import Path

SOURCES = Path(__file__).resolve().parent / "fast"
NAME = "_fast" + (sysconfig.get_config_var("EXT_SUFFIX") or ".so")
FLAGS = ["-std=c11", "-O2", "-fPIC", "-shared", "-fvisibility=hidden"]


def compiler():
    """Return the command of the C compiler, with its first words."""
    return shlex.split(os.environ.get("CC", "")) or ["cc"]


def why_not():
    """Return why this Python can't have the extension, or None."""
    header = Path(sysconfig.get_path("include")) / "Python.h"
    reasons = {
        "SERYUGO_PURE_PYTHON is set": bool(os.environ.get("SERYUGO_PURE_PYTHON")),
        "it needs CPython": sys.implementation.name != "cpython",
        "it needs Python 3.10 or later": sys.version_info < (3, 10),
        "it needs the interpreter's lock": bool(sysconfig.get_config_var("Py_GIL_DISABLED")),
        f"there is no {header}": not header.exists(),
        f"there is no C compiler {compiler()[0]}": shutil.which(compiler()[0]) is None,
    }
    return next((reason for reason, holds in reasons.items() if holds), None)


def tag():
    """Return the tag of a wheel that has the extension."""
    version = "cp{}{}".format(*sys.version_info)
    # As cpython-311-x86_64-linux-gnu.
    abi = "cp" + sysconfig.get_config_var("SOABI").split("-")[1]
    platform = sysconfig.get_platform().replace("-", "_").replace(".", "_")
    return f"{version}-{abi}-{platform}"


def compiled(folder, version):
    """Compile the extension into a folder, for this version of the package.

    Returns its path. If it can't be compiled, says why, and returns None.
    """
    reason = why_not()
    if reason is not None:
        print(f"left out the extension: {reason}", file=sys.stderr)
        return None
    path = Path(folder) / NAME
    command = [
        *compiler(),
        *FLAGS,
        *shlex.split(os.environ.get("CFLAGS", "")),
        f'-DSERYUGO_VERSION="{version}"',
        # By -isystem gcc would take the settings of another build that shares the header.
        f"-I{sysconfig.get_path('include')}",
        *map(str, sorted(SOURCES.glob("*.c"))),
        "-o",
        str(path),
    ]
    if subprocess.run(command).returncode != 0:
        print("left out the extension: it can't be compiled", file=sys.stderr)
        return None
    return path
