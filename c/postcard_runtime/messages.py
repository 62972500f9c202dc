"""Whole messages, their frames and their checksums."""
import zlib
from typing import Any, Generic, List, Optional, Tuple, Type, TypeVar, Union

from .values import BAD_CRC, BAD_FRAME, BAD_VALUE, BAD_VALUES, BUFFER_FULL, NO_VALUE, UNEXPECTED_END, Error

AnyMessage = TypeVar("AnyMessage", bound="Message")


def _reflected_table():
    """The remainders of CRC-16/IBM-SDLC for each byte."""
    table = []
    for number in range(256):
        for _ in range(8):
            number = number >> 1 ^ (0x8408 if number & 1 else 0)
        table.append(number)
    return table


_TABLE = _reflected_table()


def _checksum(content: bytes, crc: Optional[int]) -> bytes:
    """Returns the bytes of a checksum: CRC-16/IBM-SDLC or CRC-32/ISO-HDLC, the lowest byte first, or none."""
    if crc is None:
        return b""
    if crc == 32:
        return zlib.crc32(content).to_bytes(4, "little")
    if crc != 16:
        raise ValueError("crc is 16, 32 or None")
    remainder = 0xFFFF
    for byte in content:
        remainder = remainder >> 8 ^ _TABLE[(remainder ^ byte) & 255]
    return (remainder ^ 0xFFFF).to_bytes(2, "little")


def _frame_of(content: bytes) -> bytes:
    """Returns the frame of some bytes, its zero included."""
    frame = bytearray()
    for piece in content.split(b"\0"):
        for begin in range(0, len(piece) - 253, 254):
            frame.append(255)
            frame += piece[begin : begin + 254]
        rest = len(piece) % 254
        frame.append(rest + 1)
        frame += piece[len(piece) - rest :]
    return bytes(frame) + b"\0"


def _content_of(frame: bytes) -> bytes:
    """Returns the bytes of a frame without its zero."""
    if not frame or 0 in frame:
        raise Error(BAD_FRAME, 0)
    content, at = bytearray(), 0
    while at < len(frame):
        code = frame[at]
        group_end = at + code
        if group_end > len(frame):
            raise Error(BAD_FRAME, 0)
        content += frame[at + 1 : group_end]
        at = group_end
        if code < 255 and at < len(frame):
            content.append(0)
    return bytes(content)


class Message:
    """What every class of messages has. `crc` is 16 or 32 for a message with a checksum of as many bits after it."""

    __slots__ = ()
    _codec: Any

    def encode(self, crc: Optional[int] = None) -> bytes:
        """Returns the message of the value."""
        out = bytearray()
        try:
            type(self)._codec[0](self, out)
        except BAD_VALUES as problem:
            raise Error(BAD_VALUE, None, f"{type(self).__qualname__}: {problem}") from None
        message = bytes(out)
        return message if crc is None else message + _checksum(message, crc)

    @classmethod
    def decode(cls: Type[AnyMessage], message: bytes, crc: Optional[int] = None) -> AnyMessage:
        """Returns the value of a message, after which no byte may follow."""
        value, rest = cls.take(message, crc)
        if rest:
            place = len(message) - len(rest)
            raise Error(NO_VALUE, place, f"bytes follow the message at byte {place}")
        return value

    @classmethod
    def take(cls: Type[AnyMessage], message: bytes, crc: Optional[int] = None) -> Tuple[AnyMessage, bytes]:
        """Returns the value of the message that some bytes begin with, and the bytes after it."""
        message = bytes(message)
        value, at = cls._codec[1](message, 0)
        if crc is None:
            return value, message[at:]
        end = at + len(_checksum(b"", crc))
        if end > len(message):
            raise Error(UNEXPECTED_END, at)
        if message[at:end] != _checksum(message[:at], crc):
            raise Error(BAD_CRC, at)
        return value, message[end:]

    def frame(self, crc: Optional[int] = None) -> bytes:
        """Returns the frame of the message, its zero included."""
        return _frame_of(self.encode(crc))

    @classmethod
    def unframe(cls: Type[AnyMessage], frame: bytes, crc: Optional[int] = None) -> AnyMessage:
        """Returns the value of a frame, with its zero or without."""
        frame = bytes(frame)
        if frame[-1:] == b"\0":
            frame = frame[:-1]
        return cls.decode(_content_of(frame), crc)


class Frames(Generic[AnyMessage]):
    """Takes the frames out of a stream that comes in pieces.

    A frame of more than `size` bytes, its zero included, is skipped, and its error has the status 2. Bytes after the value in a frame are
    ignored. With `crc`, a frame is a message and its checksum, and nothing may follow.
    """

    def __init__(self, cls: Type[AnyMessage], size: int = 1024, crc: Optional[int] = None) -> None:
        self._cls, self._size, self._crc = cls, size, crc
        self._held, self._skips = bytearray(), False

    def feed(self, piece: bytes) -> List[Union[AnyMessage, Error]]:
        """Returns a value for each frame that ends in the piece, or the `Error` of a frame that has none."""
        answers: List[Union[AnyMessage, Error]] = []
        *ended, rest = bytes(piece).split(b"\0")
        for each in ended:
            self._hold(each + b"\0", answers)
            if not self._skips:
                answers.append(self._answer(bytes(self._held[:-1])))
            self._held, self._skips = bytearray(), False
        self._hold(rest, answers)
        return answers

    def _hold(self, content: bytes, answers: List[Union[AnyMessage, Error]]) -> None:
        """Adds bytes of a frame, or notes that it is too long."""
        self._held += content
        if not self._skips and len(self._held) > self._size:
            self._skips = True
            answers.append(Error(BUFFER_FULL, 0, f"a frame has more than {self._size} bytes"))
        if self._skips:
            self._held = bytearray()

    def _answer(self, frame: bytes) -> Union[AnyMessage, Error]:
        """Returns the value of a frame without its zero."""
        try:
            content = _content_of(frame)
            value, rest = self._cls.take(content, self._crc)
        except Error as problem:
            return problem
        if self._crc and rest:
            return Error(BAD_FRAME, len(content) - len(rest), "bytes follow the checksum")
        return value
