"""The version of this package, which is that of the library it needs."""

from __future__ import annotations

__version__ = "0.2.0"


def in_words(number: int) -> str:
    """Return a version that the library gives as a number: three parts, of which two are bytes."""
    return f"{number >> 16}.{number >> 8 & 0xFF}.{number & 0xFF}"


def compare(number: int, path: str) -> None:
    """Raise an ImportError if the library that lies here has another version than this package."""
    found = in_words(number)
    if found != __version__:
        raise ImportError(
            f"the library {path} has the version {found}, and this package {__version__}. Install "
            "both from one source: `sh bindings/install.sh PREFIX` and `pip install bindings/python`"
        )
