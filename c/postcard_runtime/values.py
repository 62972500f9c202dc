"""What a value of a message may be made of, and why a message or a value is refused."""
import struct
from typing import List

BUFFER_FULL, UNEXPECTED_END, BAD_VARINT, BAD_BOOL, BAD_CHAR, BAD_UTF8, BAD_OPTION = 2, 4, 5, 6, 7, 8, 9
BAD_FRAME, BAD_CRC, BAD_VALUE, NO_VALUE = 11, 12, 13, 14
PROBLEMS = {
    UNEXPECTED_END: "the bytes end before the value does",
    BAD_VARINT: "a varint is too long, or its number exceeds its width",
    BAD_BOOL: "the byte of a bool is neither 0 nor 1",
    BAD_CHAR: "not the UTF-8 of a character",
    BAD_UTF8: "a text is not UTF-8",
    BAD_OPTION: "the first byte of an option is neither 0 nor 1",
    BAD_FRAME: "not a COBS frame",
    BAD_CRC: "the bytes after a message are not its checksum",
    NO_VALUE: "no value of the type",
}


class Error(ValueError):
    """A message or a value that is refused.

    `status` is the number of postcard.h. `place` is the offset of the first byte of what can't be read, or `None` where a value can't be
    written; the text then names the field.
    """

    def __init__(self, status, place, what=None):
        super().__init__(what or f"{PROBLEMS[status]} at byte {place}")
        self.status, self.place = status, place


class _Parts:
    """A value with one part. Equal values have equal parts."""

    __slots__ = ("value",)
    __match_args__ = ("value",)

    def __init__(self, value=None):
        self.value = value

    def __eq__(self, other):
        return self.value == other.value if type(other) is type(self) else NotImplemented

    def __hash__(self):
        return hash((type(self), self.value))

    def __repr__(self):
        return f"{type(self).__name__}({self.value!r})"


class Some(_Parts):
    """The value of an option whose content may be `None` itself."""

    __slots__ = ()


class Ok(_Parts):
    __slots__ = ()


class Err(_Parts):
    __slots__ = ()


# What putting a value may raise that is none of its type.
BAD_VALUES = (TypeError, ValueError, AttributeError, OverflowError, struct.error, KeyError)


class BadField(ValueError):
    """A value that can't be written: the names of the fields that lead to it, and why."""

    path: List[str]
    reason: str

    def __init__(self, name, problem):
        inner = problem.path if isinstance(problem, BadField) else []
        self.path = [name, *inner]
        self.reason = problem.reason if isinstance(problem, BadField) else str(problem)
        super().__init__(f"{'.'.join(self.path)}: {self.reason}")
