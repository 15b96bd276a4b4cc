"""What a message of each type is as bytes, the only form that the library has."""

from __future__ import annotations

from typing import Any, Callable, Dict, Generic, Type, TypeVar, Union

from . import errors

T = TypeVar("T", bytes, str, int)

Message = Union[bytes, str, int]


class Codec(Generic[T]):
    """A type of messages, with the functions that turn one into bytes and bytes into one."""

    __slots__ = ("type", "encode", "decode")

    type: Type[T]
    encode: Callable[[T], bytes]
    decode: Callable[[bytes], T]

    def __init__(
        self, of: Type[T], encode: Callable[[T], bytes], decode: Callable[[bytes], T]
    ) -> None:
        self.type = of
        self.encode = encode
        self.decode = decode


def _wrong(wanted: str, message: object) -> TypeError:
    return TypeError(f"a message of this object is {wanted}, and not {type(message).__name__}")


# A subclass may tell another length than its bytes have, so none of its methods is called.


def plain(message: bytes) -> bytes:
    """Return the bytes themselves, or those of an instance of a subclass."""
    return bytes.__getitem__(message, slice(None))


def _of_bytes(message: bytes) -> bytes:
    if not isinstance(message, bytes):
        raise _wrong("bytes", message)
    return plain(message)


def _to_bytes(data: bytes) -> bytes:
    return data


def _of_str(message: str) -> bytes:
    """UTF-8."""
    if not isinstance(message, str):
        raise _wrong("str", message)
    return str.encode(message)


def _to_str(data: bytes) -> str:
    try:
        return data.decode()
    except UnicodeDecodeError as error:
        raise errors.Unreadable(*error.args) from None


def _of_int(message: int) -> bytes:
    """Two's complement in as few bytes as hold the number and its sign, the lowest first."""
    if not isinstance(message, int):
        raise _wrong("int", message)
    return int.to_bytes(message, int.bit_length(message) // 8 + 1, "little", signed=True)


def _to_int(data: bytes) -> int:
    return int.from_bytes(data, "little", signed=True)


BYTES = Codec(bytes, _of_bytes, _to_bytes)

_CODECS: Dict[type, Codec[Any]] = {
    bytes: BYTES,
    str: Codec(str, _of_str, _to_str),
    int: Codec(int, _of_int, _to_int),
}


def read_by(codec: Codec[Any], data: bytes) -> Message:
    """Return the message of these bytes, or the bytes if they aren't one of this type."""
    try:
        message: Message = codec.decode(data)
    except errors.Unreadable:
        return data
    return message


def codec_of(of: Type[T]) -> Codec[T]:
    """Return the codec of a type. Raises `TypeError` if messages can't have it."""
    codec = _CODECS.get(of)
    if codec is None:
        raise TypeError(f"messages are bytes, str or int, and not {of!r}")
    return codec
