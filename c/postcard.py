"""Postcard messages (wire format 1.0) from Python, by the shared library that `tools/c-library build` makes.

    >>> import postcard
    >>> postcard.enc("{id: u32, label: str}", '{id: 42, label: "x"}').hex()
    '2a0178'
    >>> postcard.dec("{id: u32, label: str}", bytes.fromhex("2a017899"))
    ('{id: 42, label: "x"}', b'\\x99')

A type is an expression, and a value a text; docs/PCARD.md has both grammars. The library is looked for beside this file, or at
POSTCARD_LIBRARY.
"""
import ctypes
import os
from ctypes import POINTER, Structure, byref, c_bool, c_char_p, c_size_t, c_uint8, c_uint16, c_uint32, c_void_p

__all__ = ["Error", "check", "crc16", "crc32", "dec", "dec_all", "enc", "frame", "Frames"]

_BUFFER_FULL, _UNEXPECTED_END, _BAD_FRAME, _BAD_CRC, _BAD_TYPE, _BAD_TEXT = 2, 4, 11, 12, 17, 18
_PROBLEMS = {
    2: "a frame has no room",
    4: "the bytes end before the value does",
    5: "a varint is too long, or its number exceeds its width",
    6: "the byte of a boolean is neither 0 nor 1",
    7: "no Unicode scalar value",
    8: "a text is not UTF-8",
    9: "the first byte of an option is neither 0 nor 1",
    11: "not a COBS frame, or bytes after a checksum",
    12: "the bytes after a message are not its checksum",
    14: "no value of the type",
    16: "out of memory",
    _BAD_TYPE: "not a type expression",
    _BAD_TEXT: "not a value of the type",
}


class Error(ValueError):
    """A message, a text or a type that is refused.

    `status` is the number of postcard.h, and `place` says where: the offset in bytes of the part of a message that can't be
    read, or the number of the character of a type or a text, counted from 1, or 0 if it is not UTF-8.
    """

    def __init__(self, status, place):
        where = "character" if status in (_BAD_TYPE, _BAD_TEXT) else "byte"
        super().__init__(f"{_PROBLEMS.get(status, f'status {status}')} at {where} {place}")
        self.status, self.place = status, place


class _Accumulator(Structure):
    _fields_ = [("buffer", POINTER(c_uint8)), ("size", c_size_t), ("held", c_size_t), ("skipping", c_bool)]


def _declared():
    """The library, with the types of the functions that are called."""
    folder = os.path.dirname(os.path.abspath(__file__))
    library = ctypes.CDLL(os.environ.get("POSTCARD_LIBRARY") or os.path.join(folder, "libpostcard.so"))
    sized, out = [c_void_p, c_size_t], POINTER(c_size_t)
    for name, arguments in {
        "postcard_to_text": [*sized, *sized, *sized, out, out],
        "postcard_from_text": [*sized, *sized, *sized, out, out],
        "postcard_check": [*sized, *sized, out],
        "postcard_cobs_encode": [*sized, *sized, out],
        "postcard_feed": [POINTER(_Accumulator), *sized, out, out],
    }.items():
        function = getattr(library, name)
        function.argtypes, function.restype = arguments, c_uint32
    for name, number in {"postcard_crc16": c_uint16, "postcard_crc32": c_uint32}.items():
        function = getattr(library, name)
        function.argtypes, function.restype = [number, *sized], number
    return library


_library = _declared()


def _address(content):
    """The address of the first of some bytes, which must be kept for as long as it is used."""
    return ctypes.cast(c_char_p(content), c_void_p).value


def _filled(call, type, content, at=0):
    """What a call that fills a buffer returns, and its place, for a content from the offset `at` on; once more with a larger buffer if
    the call says that it needs one."""
    type, place, count, size = type.encode(), c_size_t(), c_size_t(), 256
    while True:
        room = ctypes.create_string_buffer(size)
        arguments = type, len(type), _address(content) + at, len(content) - at, room, size
        status = call(*arguments, byref(place), byref(count))
        if status == 0:
            return room.raw[: count.value], place.value
        if status != _BUFFER_FULL:
            raise Error(status, place.value + at if status not in (_BAD_TYPE, _BAD_TEXT) else place.value)
        size = count.value


def crc16(content, so_far=0):
    """The checksum of the bytes by CRC-16/IBM-SDLC; `so_far` is that of the bytes before them, if a message comes in pieces."""
    return _library.postcard_crc16(so_far, bytes(content), len(content))


def crc32(content, so_far=0):
    """The same by CRC-32/ISO-HDLC, often called just CRC-32."""
    return _library.postcard_crc32(so_far, bytes(content), len(content))


def _checksum(crc, content):
    """The bytes of the checksum of `crc` bits, 16 or 32, the lowest first."""
    return {16: crc16, 32: crc32}[crc](content).to_bytes(crc // 8, "little")


def _after_checksum(crc, message, taken):
    """The bytes after the checksum of the first `taken` bytes, which must follow them."""
    end = taken + crc // 8
    if end > len(message):
        raise Error(_UNEXPECTED_END, taken)
    if message[taken:end] != _checksum(crc, message[:taken]):
        raise Error(_BAD_CRC, taken)
    return message[end:]


def dec(type, message, crc=None):
    """The text of the value of the type that the bytes begin with, and the bytes after it. With `crc`, 16 or 32, the message has a
    checksum of that many bits after it, which is checked and is not among the bytes returned."""
    message = bytes(message)
    shown, taken = _filled(_library.postcard_to_text, type, message)
    return shown.decode(), _after_checksum(crc, message, taken) if crc else message[taken:]


def dec_all(type, messages):
    """The texts of the values that the bytes consist of. Raises `ValueError` if the messages of the type have no bytes."""
    messages, texts, at = bytes(messages), [], 0
    while at < len(messages):
        shown, taken = _filled(_library.postcard_to_text, type, messages, at)
        if taken == 0:
            raise ValueError("messages of this type have no bytes")
        texts.append(shown.decode())
        at += taken
    return texts


def enc(type, text, crc=None):
    """The message of the value of the type that the text spells. With `crc`, 16 or 32, a checksum of that many bits is after it."""
    message = _filled(_library.postcard_from_text, type, text.encode())[0]
    return message + _checksum(crc, message) if crc else message


def check(type, message):
    """The number of bytes of the message of the type that the bytes begin with."""
    place = c_size_t()
    status = _library.postcard_check(type.encode(), len(type.encode()), bytes(message), len(message), byref(place))
    if status:
        raise Error(status, place.value)
    return place.value


def frame(message):
    """The message as a COBS frame, the zero that ends it included."""
    count, size = c_size_t(), len(message) + len(message) // 254 + 2
    room = ctypes.create_string_buffer(size)
    status = _library.postcard_cobs_encode(bytes(message), len(message), room, size, byref(count))
    if status:
        raise Error(status, 0)
    return room.raw[: count.value]


class Frames:
    """Reads frames from a stream that comes in pieces.

    `feed` returns an answer for each frame that a piece completes: the text of its value, or an `Error` if it has none. A
    frame of more than `size` bytes, its zero included, is skipped and has the error with status 2. Bytes after the value in a
    frame are ignored. With `crc`, 16 or 32, a frame is a message and its checksum of that many bits, and nothing may follow.
    """

    def __init__(self, type, size=1024, crc=None):
        self._type, self._crc = type, crc
        self._room = (c_uint8 * max(size, 1))()
        self._accumulator = _Accumulator(ctypes.cast(self._room, POINTER(c_uint8)), size, 0, False)
        place = c_size_t()
        status = _library.postcard_check(type.encode(), len(type.encode()), b"", 0, byref(place))
        if status == _BAD_TYPE:
            raise Error(status, place.value)

    def _answer(self, status, count):
        if status == 1:
            try:
                shown, rest = dec(self._type, bytes(self._room[:count]), self._crc)
            except Error as error:
                return error
            return Error(_BAD_FRAME, count - len(rest)) if self._crc and rest else shown
        return Error(_BUFFER_FULL if status == 2 else _BAD_FRAME, 0)

    def feed(self, piece):
        piece, answers, at = bytes(piece), [], 0
        taken, count = c_size_t(), c_size_t()
        while at < len(piece):
            left = _address(piece) + at, len(piece) - at
            status = _library.postcard_feed(byref(self._accumulator), *left, byref(taken), byref(count))
            if status:
                answers.append(self._answer(status, count.value))
            at += taken.value
        return answers
